// Written by bindings/rust/extract from crates/ivl_solve/src/tests.rt.
//! Sessions over memory. Readers and writers that fail are in `ends`.
//!
//! The proof of a test pays for each assertion and for each `?`, so that the tests share a few functions that have them.
use crate::host::prelude::*;
mod ends;

use intervallum_programs::proved::ivl_lines::{SessionFault, outcome};
use intervallum_programs::proved::ivl_store_lines::session;
use crate::host::std::alloc::Global;
use crate::host::std::collections::hash_map::RandomState;
use crate::host::std::process::Abort;
use crate::host::std::random::RandomSource;
use crate::host::std::test::Fail;

// Keys for the names of a session.
fn keys(rt: &(impl RandomSource + Abort)) -> RandomState {
    RandomState::new(rt).expect( "random numbers")
}

// A session over these bytes ends with its input, and writes these answers.
fn check_bytes(rt: &(impl Alloc<A = Global> + RandomSource + Abort), lines: &[u8], answers: &str) {
    let mut input = lines;
    let mut written = Vec::new(rt.alloc());
    let ended = session(rt.alloc(), keys(rt), &mut input, &mut written);
    let text = str::from_utf8(&written);
    assert_eq!(rt;
        (ended, text),
        (Ok(()), Ok(answers)),
        "after {:?}",
        str::from_utf8(lines)
    );
}

// A session over these lines ends with its input, and writes these answers.
fn check_session(rt: &(impl Alloc<A = Global> + RandomSource + Abort), lines: &str, answers: &str) {
    check_bytes(rt, lines.as_bytes(), answers);
}

// Two dice that show 11, one of them even. The other shows 5 then.
#[test]
fn two_dice() { let rt = HostRuntime;
    let lines = "var one 1 6\nvar other 1 6\nvar both 11 11\nsum one other both\nshow\n\
        cut one 2 2 4 4 6 6\nshow\n";
    let answers = "ok\nok\nok\nok\none [5..6]\nother [5..6]\nboth [11..11]\nok\n\
        ok\none [6..6]\nother [5..5]\nboth [11..11]\nok\n";
    check_session(&rt, lines, answers);
}

// a and b between 0 and 9, a + one = b and b + one = a: narrowing empties all three.
#[test]
fn a_loop_has_no_solution() { let rt = HostRuntime;
    let lines = "var a 0 9\nvar b 0 9\nvar one 1 1\nsum a one b\nshow\nsum b one a\nshow\n";
    let answers = "ok\nok\nok\nok\na [0..8]\nb [1..9]\none [1..1]\nok\n\
        no solution\na {}\nb {}\none {}\nno solution\n";
    check_session(&rt, lines, answers);
}

// The same over numbers of which there are too many: each line ends, and the domains are sound.
#[test]
fn a_limit_ends_a_line() { let rt = HostRuntime;
    let lines =
        "var x 0 9999999999999\nvar y 0 9999999999999\nvar c 1 1\nlimit 100\nsum x c y\nsum y c x\n\
        show\nvar z 1 2\ngo on\nlimit 0\ncut z 2 2\nshow\n";
    let answers = "ok\nok\nok\nok\nok\nunfinished\n\
        x [100..9999999999898]\ny [101..9999999999899]\nc [1..1]\nunfinished\n\
        unfinished\nunfinished\nunfinished\nunfinished\n\
        x [200..9999999999798]\ny [201..9999999999799]\nc [1..1]\nz [2..2]\nunfinished\n";
    check_session(&rt, lines, answers);
}

// What a line leaves, the next goes on with; the answer is the same as that of one line.
#[test]
fn a_line_goes_on() { let rt = HostRuntime;
    let lines =
        "var a 0 9\nvar b 0 9\nvar one 1 1\nlimit 1\nsum a one b\nsum b one a\nlimit 3\ngo on\n\
        limit 1000\ngo on\nsum a one b\n";
    let answers = "ok\nok\nok\nok\nok\nunfinished\nunfinished\nunfinished\nunfinished\n\
        no solution\nno solution\n";
    check_session(&rt, lines, answers);
}

// Ten runs each make three times a hundred pairs, so that the narrowing counts for two.
#[test]
fn a_limit_bounds_one_narrowing() { let rt = HostRuntime;
    let pairs = "0 0 2 2 4 4 6 6 8 8 10 10 12 12 14 14 16 16 18 18";
    let lines = format!(in rt.alloc();
        "var x {pairs}\nvar y {pairs}\nvar z {pairs}\nlimit 1\nsum x y z\ngo on\nlimit 2\ngo on\nlimit 1\ncut x 2 9\nshow x\n"
    );
    // Of 300 pairs of runs the limit of 1 takes none; of the 180 that are left by the cut, all.
    let answers =
        "ok\nok\nok\nok\nunfinished\nunfinished\nunfinished\nok\nok\nok\nx {[2..2][4..4][6..6][8..8]}\nok\n";
    check_session(&rt, lines.expect( "memory").as_str(), answers);
}

// Once a domain is empty there is no solution, whatever is asked and whatever the limit.
#[test]
fn no_solution_is_known() { let rt = HostRuntime;
    let lines = "var x 1 9\nvar y\nsolve 0\nlimit 0\nsolve 0\nsolve\ncount\nmin x\nmax y\n";
    let answers = "ok\nno solution\nno solution\nno solution\nno solution\nno solution\n\
        count 0\nno solution\nno solution\nno solution\n";
    check_session(&rt, lines, answers);
}

// A variable may come after the sums, and its domain may be empty or at the ends of the range.
#[test]
fn domains_as_they_are_given() { let rt = HostRuntime;
    let lines = "show\nvar x 20 30 1 9 5 12\nvar y\nshow\n";
    let answers = "ok\nok\nno solution\nx {[1..12][20..30]}\ny {}\nno solution\n";
    check_session(&rt, lines, answers);
    let lines = "var x -9223372036854775807 9223372036854775807\nshow\n";
    let answers = "ok\nx [-9223372036854775807..9223372036854775807]\nok\n";
    check_session(&rt, lines, answers);
}

// A line that cannot be carried out, and its answer. `x` and `y` are [1..9] before it and after it.
const BAD_LINES: [(&str, &str); 72] = [
    ("var 3 1 9", "3 is a number"),
    ("var -4", "-4 is a number"),
    ("var z 9 1", "9 is above 1"),
    ("cut x 1 2 9 3 5 4", "9 is above 3"),
    ("frob", "unknown command frob"),
    ("Var z", "unknown command Var"),
    ("var", "write var x l u l u .."),
    ("var z 1", "write var x l u l u .."),
    ("var z 1 2 3", "write var x l u l u .."),
    ("var z 1 two", "bad number two"),
    ("var z +1 2", "bad number +1"),
    (
        "var z 1 9223372036854775808",
        "bad number 9223372036854775808",
    ),
    ("var z -9223372036854775808 1", "out of range"),
    ("var x 1 2", "x is defined already"),
    ("cut", "write cut x l u l u .."),
    ("cut x", "write cut x l u l u .."),
    ("cut z", "write cut x l u l u .."),
    ("cut x 1", "write cut x l u l u .."),
    ("cut x 1 2.5", "bad number 2.5"),
    ("cut x -9223372036854775808 1", "out of range"),
    ("cut z 1 2", "unknown variable z"),
    ("sum x y", "write sum x y z"),
    ("sum x y z w", "write sum x y z"),
    ("sum x y z", "unknown variable z"),
    ("sum x y x", "x is named twice"),
    ("show x y", "write show or show x"),
    ("show z", "unknown variable z"),
    ("limit", "write limit n"),
    ("limit 1 2", "write limit n"),
    ("limit -1", "bad number -1"),
    ("limit many", "bad number many"),
    (
        "limit 9223372036854775808",
        "bad number 9223372036854775808",
    ),
    ("solve many", "bad number many"),
    ("solve -1", "bad number -1"),
    (
        "solve 9223372036854775808",
        "bad number 9223372036854775808",
    ),
    ("solve 1 2", "write solve or solve n"),
    ("count 1", "write count"),
    ("count x", "write count"),
    ("go", "write go on"),
    ("go off", "write go on"),
    ("go on on", "write go on"),
    (
        "show \u{1b}[2J\u{9b}\0",
        "unknown variable \\u{1b}[2J\\u{9b}\\u{0}",
    ),
    ("x + two <= y", "bad number two"),
    ("x + +1 != y", "bad number +1"),
    ("x <= y + two", "bad number two"),
    ("x = y + x", "bad number x"),
    ("sum + x <= y", "bad number x"),
    (
        "x + 9223372036854775808 <= y",
        "bad number 9223372036854775808",
    ),
    (
        "x + 9223372036854775808 = y",
        "unknown variable 9223372036854775808",
    ),
    ("x <= y + -9223372036854775808", "out of range"),
    ("x != y + -9223372036854775808", "out of range"),
    ("x = y + -9223372036854775808", "out of range"),
    ("x <= z", "unknown variable z"),
    ("u != z", "unknown variable u"),
    ("u = z + 1", "unknown variable u"),
    ("u + z = x", "unknown variable u"),
    ("x <= x", "x is named twice"),
    ("x + 3 != x", "x is named twice"),
    ("x + y = y", "y is named twice"),
    ("x <=", FORMS_OF_RULES),
    ("x + 3 <=", FORMS_OF_RULES),
    ("x + 3", FORMS_OF_RULES),
    ("x <= y 3", FORMS_OF_RULES),
    ("x <= y + 3 4", FORMS_OF_RULES),
    ("x + 3 < y", FORMS_OF_RULES),
    ("x <= y - 3", FORMS_OF_RULES),
    ("x < y", "unknown command x"),
    ("sum + 3", "write sum x y z"),
    ("different", "write different x y .."),
    ("different x", "write different x y .."),
    ("different x z u", "unknown variable z"),
    ("different x y y x", "x is named twice"),
];

const FORMS_OF_RULES: &str = "write x + n <= y, x + n != y, x + n = y or x + y = z";

#[test]
fn bad_lines() -> Result<(), Fail> { let rt = HostRuntime;
    for (line, answer) in &BAD_LINES {
        let lines = format!(in rt.alloc(); "var x 1 9\nvar y 1 9\n{line}\nshow")?;
        let answers = format!(in rt.alloc(); "ok\nok\nerror: {answer}\nx [1..9]\ny [1..9]\nok\n")?;
        check_session(&rt, lines.as_str(), answers.as_str());
    }
    Ok(())
}

// A line of rules, and what it leaves of x, y and z, which are [0..9], [0..9] and [5..5] before it.
const RULES: [(&str, &str); 14] = [
    ("x <= z", "x [0..5]\ny [0..9]\nz [5..5]\n"),
    ("x + 3 <= y", "x [0..6]\ny [3..9]\nz [5..5]\n"),
    ("x <= y + -3", "x [0..6]\ny [3..9]\nz [5..5]\n"),
    ("x <= y + 3", "x [0..9]\ny [0..9]\nz [5..5]\n"),
    ("z <= x + 3", "x [2..9]\ny [0..9]\nz [5..5]\n"),
    ("x != z", "x {[0..4][6..9]}\ny [0..9]\nz [5..5]\n"),
    ("z + 2 != x", "x {[0..6][8..9]}\ny [0..9]\nz [5..5]\n"),
    ("x != z + -2", "x {[0..2][4..9]}\ny [0..9]\nz [5..5]\n"),
    ("x = z", "x [5..5]\ny [0..9]\nz [5..5]\n"),
    ("x + 4 = y", "x [0..5]\ny [4..9]\nz [5..5]\n"),
    (" x  =  y + 4", "x [4..9]\ny [0..5]\nz [5..5]\n"),
    ("x + y = z", "x [0..5]\ny [0..5]\nz [5..5]\n"),
    (
        "different x z y",
        "x {[0..4][6..9]}\ny {[0..4][6..9]}\nz [5..5]\n",
    ),
    (
        "x + -9223372036854775808 <= y",
        "x [0..9]\ny [0..9]\nz [5..5]\n",
    ),
];

#[test]
fn rules() -> Result<(), Fail> { let rt = HostRuntime;
    for (line, left) in &RULES {
        let lines = format!(in rt.alloc(); "var x 0 9\nvar y 0 9\nvar z 5 5\n{line}\nshow")?;
        let answers = format!(in rt.alloc(); "ok\nok\nok\nok\n{left}ok\n")?;
        check_session(&rt, lines.as_str(), answers.as_str());
    }
    Ok(())
}

// Variables may have the names of commands and of signs. A number before `=` is one.
#[test]
fn rules_of_any_names() { let rt = HostRuntime;
    let lines = "var sum 0 9\nvar + 3 4\nvar <= 0 9\nvar one 7 7\nsum + -2 <= +\nsum + 1 = <=\n\
        + <= <= + 0\nsum sum one <=\nshow\n";
    let answers = "ok\nok\nok\nok\nok\nok\nok\nno solution\n\
        sum {}\n+ {}\n<= {}\none {}\nno solution\n";
    check_session(&rt, lines, answers);
}

// Three variables of two numbers cannot differ, and no narrowing sees that: a search does.
#[test]
fn different_variables() { let rt = HostRuntime;
    let lines = "var x 1 2\nvar y 1 2\nvar z 1 2\ndifferent x y z\nshow x\nsolve\ncount\n";
    let answers = "ok\nok\nok\nok\nx [1..2]\nok\nno solution\ncount 0\nno solution\n";
    check_session(&rt, lines, answers);
    let lines = "var x 1 3\nvar y 2 3\nvar z 3 3\nlimit 1\ndifferent x y z\nlimit 9\n\
        different x y\nshow\n";
    let answers = "ok\nok\nok\nok\nunfinished\nunfinished\nok\n\
        x [1..1]\ny [2..2]\nz [3..3]\nok\n";
    check_session(&rt, lines, answers);
}

// A variable alone, and names with control characters, which are printed escaped.
#[test]
fn one_variable() { let rt = HostRuntime;
    let lines = "var x 1 9\nvar y\nshow x\nshow y\nshow\n";
    let answers = "ok\nno solution\nx [1..9]\nno solution\ny {}\nno solution\n\
        x [1..9]\ny {}\nno solution\n";
    check_session(&rt, lines, answers);
    let lines =
        "var a\tb 1 1\nshow a\tb\nvar a\tb 1 1\nvar \u{e9}\\\u{9b} 2 2\nsum a\tb a\tb x\nfrob\r\r\nshow\n";
    let answers = "ok\na\\tb [1..1]\nok\nerror: a\\tb is defined already\nok\n\
        error: unknown variable x\nerror: unknown command frob\\r\n\
        a\\tb [1..1]\n\u{e9}\\\\u{9b} [2..2]\nok\n";
    check_session(&rt, lines, answers);
}

// x + y = z for x and y from 0 to 2 and z 3 or 4 has three solutions. The order in which they come is no part of the
// contract: this is that of today.
#[test]
fn solutions_of_a_sum() { let rt = HostRuntime;
    let lines =
        "var x 0 2\nvar y 0 2\nvar z 3 4\ncount\nsum x y z\nsolve\nsolve 2\nsolve 0\ncount\ncut x 0 0\nsolve\ncount\n";
    let answers = "ok\nok\nok\ncount 18\nok\nok\nx 1 y 2 z 3\nx 2 y 1 z 3\nx 2 y 2 z 4\nok\n\
        x 1 y 2 z 3\nx 2 y 1 z 3\nmore possible\nmore possible\ncount 3\nok\n\
        no solution\nno solution\ncount 0\nno solution\n";
    check_session(&rt, lines, answers);
}

// TO + GO = OUT, each letter another digit: 21 + 81 = 102, and nothing else. `t-o` is T less O, and not 0; `ten` is ten
// times what the last column carries, `tens` ten times what the first one does, which is O.
const PUZZLE: &str = "var t 1 9\nvar o 1 9\nvar g 1 9\nvar u 0 9\n\
    var t-o -9 -1 1 9\nsum o t-o t\nvar t-g -9 -1 1 9\nsum g t-g t\nvar t-u -9 -1 1 9\nsum u t-u t\n\
    var o-g -9 -1 1 9\nsum g o-g o\nvar o-u -9 -1 1 9\nsum u o-u o\nvar g-u -9 -1 1 9\nsum u g-u g\n\
    var zero 0 0\nvar o2 1 9\nsum o zero o2\nvar oo 2 18\nsum o o2 oo\n\
    var carry 0 1\nvar nine 0 0 9 9\nvar ten 0 0 10 10\nsum carry nine ten\nsum t ten oo\n\
    var tg 2 18\nsum t g tg\nvar all 2 19\nsum tg carry all\n\
    var nines 0 0 9 9\nvar tens 0 0 10 10\nsum o nines tens\nsum u tens all\n\
    solve\ncount\n";

#[test]
fn a_puzzle() { let rt = HostRuntime;
    let answers = "ok\nok\nok\nok\nok\nok\nok\nok\nok\nok\nok\nok\nok\nok\nok\nok\n\
        ok\nok\nok\nok\nok\nok\nok\nok\nok\nok\nok\nok\nok\nok\nok\nok\nok\nok\n\
        t 2 o 1 g 8 u 0 t-o 1 t-g -6 t-u 2 o-g -7 o-u 1 g-u 8 zero 0 o2 1 oo 2 carry 0 nine 0 ten 0 tg 10 all 10 nines 9 tens 10\n\
        ok\ncount 1\nok\n";
    check_session(&rt, PUZZLE, answers);
}

// Without variables there is one point, which has no numbers. Names are printed escaped.
#[test]
fn solutions_without_sums() { let rt = HostRuntime;
    let lines =
        "solve\ncount\nvar a\tb -9223372036854775807 -9223372036854775807\nsolve 1000\nshow\n";
    let answers =
        "\nok\ncount 1\nok\nok\na\\tb -9223372036854775807\nok\na\\tb [-9223372036854775807..-9223372036854775807]\nok\n";
    check_session(&rt, lines, answers);
}

// x + c = y and y + c = x have no solution, and x and y have too many numbers to find that out. A search of a line with
// a small limit looks at one choice of domains, and every search leaves the domains and the limit as they were.
#[test]
fn a_limit_ends_a_search() { let rt = HostRuntime;
    let lines =
        "var x 0 9999999999999\nvar y 0 9999999999999\nvar c 1 1\nlimit 0\nsum x c y\nsum y c x\nsolve\n\
        count\nlimit 100\nsolve 1\ngo on\nshow\n";
    let answers =
        "ok\nok\nok\nok\nunfinished\nunfinished\nunfinished\ncount at least 0\nunfinished\nunfinished\nunfinished\n\
        unfinished\nx [100..9999999999900]\ny [99..9999999999899]\nc [1..1]\nunfinished\n";
    check_session(&rt, lines, answers);
    check_session(
        &rt,
        "var x 1 2\nlimit 0\nsolve\ncount\nshow\n",
        "ok\nok\nunfinished\ncount at least 0\nunfinished\nx [1..2]\nok\n",
    );
}

// Spaces, carriage returns and empty lines, and bytes that are no text: bytes, and what is written for them.
const ENDS_OF_LINES: [(&[u8], &str); 4] = [
    (b"", ""),
    (b"\n  \r\n\n", ""),
    (b"  var  x 1 2  \r\nshow\r", "ok\nx [1..2]\nok\n"),
    (b"show \xff\nshow", "error: not UTF-8\nok\n"),
];

#[test]
fn ends_of_lines() { let rt = HostRuntime;
    for (lines, answers) in ENDS_OF_LINES {
        check_bytes(&rt, lines, answers);
    }
}

#[test]
fn outcomes() { let rt = HostRuntime;
    for (ended, status) in [
        (Ok(()), (0, "")),
        (Err(SessionFault::Read), (1, "read failed")),
        (Err(SessionFault::Write), (1, "write failed")),
        (Err(SessionFault::Memory), (1, "out of memory")),
    ] {
        assert_eq!(rt; outcome(&ended), status);
    }
}
