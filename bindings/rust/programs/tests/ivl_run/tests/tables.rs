// Written by bindings/rust/extract from crates/ivl_run/src/tests/tables.rt.
//! Sessions as tables: each line, and the answer to it.
use crate::host::prelude::*;
use crate::tests::{assert_written, write_line};
use intervallum_programs::proved::ivl_calculator_lines::session;
use crate::host::std::alloc::Global;
use crate::host::std::process::Abort;
use crate::host::std::test::Fail;

// Every command, each line with one answer. No line depends on what the registers held before the first.
pub const EVERY_COMMAND: &[(&str, &str)] = &[
    ("set a 1 3 8 8 10 11", "ok"),
    ("set b 2 5 7 8 12 15", "ok"),
    ("union c a b", "ok"),
    ("show c", "{[1..5][7..8][10..15]}"),
    ("inter d a b", "ok"),
    ("show d", "{[2..3][8..8]}"),
    ("diff e a b", "ok"),
    ("show e", "{[1..1][10..11]}"),
    ("sym f a b", "ok"),
    ("show f", "{[1..1][4..5][7..7][10..15]}"),
    ("comp g f", "ok"),
    (
        "show g",
        "{[-9223372036854775807..0][2..3][6..6][8..9][16..9223372036854775807]}",
    ),
    ("size g", "18446744073709551605"),
    ("count g", "5"),
    ("low g", "-9223372036854775807"),
    ("high g", "9223372036854775807"),
    ("left h f 5", "ok"),
    ("show h", "{[5..5][7..7][10..15]}"),
    ("right h f 5", "ok"),
    ("show h", "{[1..1][4..5]}"),
    ("sleft h f 5", "ok"),
    ("show h", "{[7..7][10..15]}"),
    ("sright h f 5", "ok"),
    ("show h", "{[1..1][4..4]}"),
    ("plus i a b", "ok"),
    ("show i", "[3..26]"),
    ("minus j d e", "ok"),
    ("show j", "{[-9..-7][-3..-2][1..2][7..7]}"),
    ("times k d e", "ok"),
    ("show k", "{[2..3][8..8][20..33][80..88]}"),
    ("plusv l d -5", "ok"),
    ("show l", "{[-3..-2][3..3]}"),
    ("minusv l d -5", "ok"),
    ("show l", "{[7..8][13..13]}"),
    ("timesv l d -5", "ok"),
    ("show l", "{[-40..-40][-15..-10]}"),
    ("has l -40", "yes"),
    ("same l d", "no"),
    ("sub d c", "yes"),
    ("meets d e", "no"),
    ("size f", "10"),
    ("count f", "4"),
    ("low f", "1"),
    ("high f", "15"),
    ("set c 3 1", "ok"),
    ("show c", "{}"),
    ("nonsense", "bad line"),
];

// The tour of the README: ports that may be given out, those in use, and a range that is asked for.
const TOUR: &[(&str, &str)] = &[
    ("set a 1024 65535", "ok"),
    ("set u 3000 3009 8080 8080", "ok"),
    ("diff f a u", "ok"),
    ("show f", "{[1024..2999][3010..8079][8081..65535]}"),
    ("size f", "64501"),
    ("set r 8078 8083", "ok"),
    ("sub r f", "no"),
    ("inter c r u", "ok"),
    ("show c", "[8080..8080]"),
    ("left g f 8080", "ok"),
    ("low g", "8081"),
];

// Operands that are results too, and sets that products spread.
const OVERWRITTEN: &[(&str, &str)] = &[
    ("set a 1 3 8 8 10 11", "ok"),
    ("set b 2 5 7 8 12 15", "ok"),
    ("sym c a b", "ok"),
    ("count c", "4"),
    ("high c", "15"),
    ("low z", "none"),
    ("sub c a", "no"),
    ("meets c a", "yes"),
    ("diff a a a", "ok"),
    ("show a", "{}"),
    ("sleft b b 7", "ok"),
    ("show b", "{[8..8][12..15]}"),
    ("minusv b b 8", "ok"),
    ("times b b b", "ok"),
    ("show b", "{[0..0][16..49]}"),
    ("size b x", "bad line"),
    ("set d 1 1", "ok"),
    ("plusv d d -9223372036854775808", "ok"),
    ("show d", "[-9223372036854775807..-9223372036854775807]"),
];

// Sums and differences that leave the range.
const CLIPPED: &[(&str, &str)] = &[
    ("set a 9223372036854775807 9223372036854775807", "ok"),
    ("plus b a a", "cut"),
    ("show b", "{}"),
    ("timesv b a -1", "ok"),
    ("show b", "[-9223372036854775807..-9223372036854775807]"),
];

// The same, beside those that do not.
const CUT_OR_NOT: &[(&str, &str)] = &[
    ("set c 1 2", "ok"),
    ("plus b c c", "ok"),
    ("show b", "[2..4]"),
    ("set d -9223372036854775807 0", "ok"),
    ("minus b d c", "cut"),
    ("show b", "[-9223372036854775807..-1]"),
    ("minusv b d 1", "refused 3 fit"),
    ("show b", "[-9223372036854775807..-1]"),
];

// Queries on an empty register, and commands that read it.
const WITHOUT_MEMBERS: &[(&str, &str)] = &[
    ("set a 1 4", "ok"),
    ("size z", "0"),
    ("count z", "0"),
    ("low z", "none"),
    ("high z", "none"),
    ("show z", "{}"),
    ("has z 0", "no"),
    ("same z y", "yes"),
    ("same z a", "no"),
    ("sub z a", "yes"),
    ("sub a z", "no"),
    ("meets z a", "no"),
    ("meets z z", "no"),
    ("plus b z a", "ok"),
    ("show b", "{}"),
    ("times b a z", "ok"),
    ("size b", "0"),
    ("comp b z", "ok"),
    ("show b", "[-9223372036854775807..9223372036854775807]"),
    ("size b", "18446744073709551615"),
    ("comp b b", "ok"),
    ("show b", "{}"),
];

// Numbers at the ends of the type. The least is in no set, and a line is read before it is refused.
const ENDS_OF_THE_TYPE: &[(&str, &str)] = &[
    ("set a 1 10", "ok"),
    ("set a -9223372036854775808 0", "refused 2 range"),
    ("show a", "[1..10]"),
    ("set a 2 3 5 -9223372036854775808", "ok"),
    ("show a", "[2..3]"),
    ("set a 1 10", "ok"),
    (
        "set a -9223372036854775808 -9223372036854775808 x",
        "bad line",
    ),
    ("plusv a a 9223372036854775807", "refused 3 fit"),
    ("minusv a a -9223372036854775808", "refused 3 fit"),
    ("timesv a a 9223372036854775807", "refused 3 fit"),
    ("timesv b a 922337203685477580", "ok"),
    ("show b", "[922337203685477580..9223372036854775800]"),
    ("times b b a", "refused 3 fit"),
    ("times b b b", "refused 3 fit"),
    ("show b", "[922337203685477580..9223372036854775800]"),
    ("show a", "[1..10]"),
    ("plusv c z -9223372036854775808", "ok"),
    ("show c", "{}"),
    ("timesv c z 9223372036854775807", "ok"),
    ("show c", "{}"),
    ("has a -9223372036854775808", "no"),
    ("left c a -9223372036854775808", "ok"),
    ("show c", "[1..10]"),
    ("sright c a -9223372036854775808", "ok"),
    ("show c", "{}"),
    ("set d -9223372036854775807 9223372036854775807", "ok"),
    ("size d", "18446744073709551615"),
    ("right e d -9223372036854775808", "ok"),
    ("show e", "{}"),
    ("sleft e d 9223372036854775806", "ok"),
    ("show e", "[9223372036854775807..9223372036854775807]"),
    ("sleft e d 9223372036854775807", "ok"),
    ("show e", "{}"),
    ("minus e d d", "cut"),
    ("same e d", "yes"),
];

// One register as operand and result, equal sets by unequal lines, and pairs that touch, overlap or are crossed.
const REGISTERS: &[(&str, &str)] = &[
    ("set a 1 1 5 6", "ok"),
    ("set z 3 3", "ok"),
    ("union z a z", "ok"),
    ("show z", "{[1..1][3..3][5..6]}"),
    ("show a", "{[1..1][5..6]}"),
    ("minus a a a", "ok"),
    ("show a", "{[-5..-4][-1..1][4..5]}"),
    ("inter z z z", "ok"),
    ("show z", "{[1..1][3..3][5..6]}"),
    ("diff z z a", "ok"),
    ("show z", "{[3..3][6..6]}"),
    ("sym a a a", "ok"),
    ("show a", "{}"),
    ("set b 1 2 2 5", "ok"),
    ("set c 1 5", "ok"),
    ("same b c", "yes"),
    ("set b 1 2", "ok"),
    ("set c 1 1 3 3", "ok"),
    ("same b c", "no"),
    ("set d 3 8 2 5 9 4", "ok"),
    ("show d", "[2..8]"),
    ("set d", "ok"),
    ("show d", "{}"),
    ("set d -007 007", "ok"),
    ("show d", "[-7..7]"),
    ("set d -0 00", "ok"),
    ("show d", "[0..0]"),
];

// Asserts that one session over the lines of the table gives each the answer there.
fn assert_answers(
    rt: &(impl Alloc<A = Global> + Abort),
    table: &[(&str, &str)],
) -> Result<(), Fail> {
    let mut input = Vec::new(rt.alloc());
    for (line, _) in table {
        write_line(&mut input, line)?;
    }
    let mut written = Vec::new(rt.alloc());
    let ended = session(rt.alloc(), &mut input.as_slice(), &mut written);
    assert_eq!(rt; ended, Ok(()));
    assert_written(rt, &written, table);
    Ok(())
}

const TABLES: [&[(&str, &str)]; 8] = [
    EVERY_COMMAND,
    TOUR,
    OVERWRITTEN,
    CLIPPED,
    CUT_OR_NOT,
    WITHOUT_MEMBERS,
    ENDS_OF_THE_TYPE,
    REGISTERS,
];

#[test]
fn tables() -> Result<(), Fail> { let rt = HostRuntime;
    for table in TABLES {
        assert_answers(&rt, table)?;
    }
    Ok(())
}

// Pieces that end within a line lose nothing, and with ample memory nothing is refused.
#[test]
fn thousands_of_lines() -> Result<(), Fail> { let rt = HostRuntime;
    let mut table = Vec::new(rt.alloc());
    for _ in 0..100 {
        table.extend_from_slice(EVERY_COMMAND)?;
    }
    assert_answers(&rt, &table)
}
