//! The stored run of each program, byte for byte, and the same with each allocation failing in turn.
use intervallum_programs::proved::{ivl_calculator_lines, ivl_lines, ivl_store_lines};
use intervallum_programs::rattle::std::{
    alloc::Global,
    collections::{BTreeMap, hash_map::RandomState},
};
use intervallum_programs::rattle::string::String as Text;
use ivl_lines::SessionFault;
use std::alloc::{GlobalAlloc, Layout, System};
use std::cell::Cell;
use std::io::Write;
use std::process::{Command, Stdio};

struct Failing;

thread_local! {
    static LEFT: Cell<isize> = const { Cell::new(-1) };
    static FAILED: Cell<isize> = const { Cell::new(0) };
}

fn fails() -> bool {
    let left = LEFT.get();
    if left < 0 {
        return false;
    }
    LEFT.set(left - 1);
    if left > 0 {
        return false;
    }
    FAILED.set(FAILED.get() + 1);
    true
}

unsafe impl GlobalAlloc for Failing {
    unsafe fn alloc(&self, layout: Layout) -> *mut u8 {
        if fails() { std::ptr::null_mut() } else { unsafe { System.alloc(layout) } }
    }

    unsafe fn dealloc(&self, at: *mut u8, layout: Layout) {
        unsafe { System.dealloc(at, layout) }
    }

    unsafe fn realloc(&self, at: *mut u8, layout: Layout, size: usize) -> *mut u8 {
        if fails() { std::ptr::null_mut() } else { unsafe { System.realloc(at, layout, size) } }
    }
}

#[global_allocator]
static ALLOCATOR: Failing = Failing;

/// The stored run of a program: its input and its answers.
macro_rules! stored {
    ($name:literal) => {
        (
            include_bytes!(concat!("../../../../crates/", $name, "/stdin")).as_slice(),
            include_str!(concat!("../../../../crates/", $name, "/stdout")),
        )
    };
}

type Stored = (&'static [u8], &'static str);

const PROGRAMS: [(&str, &str, Stored); 6] = [
    (env!("CARGO_BIN_EXE_ivl_run"), "ivl_run", stored!("ivl_run")),
    (env!("CARGO_BIN_EXE_ivl_solve"), "ivl_solve", stored!("ivl_solve")),
    (env!("CARGO_BIN_EXE_ivl_ports"), "ivl_ports", stored!("ivl_ports")),
    (env!("CARGO_BIN_EXE_ivl_blocks"), "ivl_blocks", stored!("ivl_blocks")),
    (env!("CARGO_BIN_EXE_ivl_ranges"), "ivl_ranges", stored!("ivl_ranges")),
    (env!("CARGO_BIN_EXE_ivl_calendar"), "ivl_calendar", stored!("ivl_calendar")),
];

/// What a program writes for this input and these arguments, to standard output and error, and its status.
fn ran(path: &str, words: &[&str], input: &[u8]) -> (String, String, i32) {
    let mut program = Command::new(path);
    program.args(words).stdin(Stdio::piped()).stdout(Stdio::piped()).stderr(Stdio::piped());
    let mut child = program.spawn().unwrap();
    let mut to = child.stdin.take().unwrap();
    let input = input.to_vec();
    let writer = std::thread::spawn(move || to.write_all(&input));
    let ended = child.wait_with_output().unwrap();
    let _ = writer.join();
    let text = |bytes: Vec<u8>| String::from_utf8(bytes).unwrap();
    (text(ended.stdout), text(ended.stderr), ended.status.code().unwrap())
}

#[test]
fn stored_runs() {
    for (path, name, (input, answers)) in PROGRAMS {
        let (told, error, status) = ran(path, &[], input);
        assert!(told == answers, "{name}");
        assert_eq!((error.as_str(), status), ("", 0), "{name}");
    }
}

#[test]
fn arguments() {
    for (path, name, _) in &PROGRAMS {
        let (help, error, status) = ran(path, &["--help"], b"");
        assert!(help.contains("--version prints the version.") && help.contains("\n--keep FILE "), "{name}");
        assert!(error.is_empty() && status == 0, "{name}");
        assert_eq!(
            ran(path, &["--version"], b""),
            (format!("{name} {}\n", env!("CARGO_PKG_VERSION")), String::new(), 0)
        );
        let told = |word: &str| format!("{name}: there is no argument {word}; --help lists the lines\n");
        assert_eq!(ran(path, &["--frob"], b""), (String::new(), told("--frob"), 2));
        assert_eq!(ran(path, &["--help", "x"], b""), (String::new(), told("x"), 2));
    }
}

type Session = fn(Global, &mut &[u8], &mut Vec<u8>) -> Result<(), SessionFault>;

/// Fails each allocation of a session in turn. The answers before are the stored ones; the first that differs is that of a line
/// for which there was no memory, or the session ends there.
fn each_allocation_fails(name: &str, session: Session, input: &[u8], answers: &str, told: &str) {
    let (mut ended, mut refused) = (0, 0);
    for count in 0.. {
        let (mut reader, mut written) = (input, Vec::with_capacity(1 << 16));
        FAILED.set(0);
        LEFT.set(count);
        let end = session(Global, &mut reader, &mut written);
        LEFT.set(-1);
        let written = String::from_utf8(written).unwrap();
        if FAILED.get() == 0 {
            assert_eq!((end, written.as_str()), (Ok(()), answers));
            break;
        }
        let differs = written.lines().zip(answers.lines()).find(|(a, b)| a != b);
        match end {
            Ok(()) => {
                assert!(differs.is_none_or(|(line, _)| line == told), "{name}: allocation {count}: {differs:?}");
                refused += i32::from(differs.is_some());
            }
            Err(fault) => {
                assert_eq!((fault, differs), (SessionFault::Memory, None), "{name}: allocation {count}");
                assert!(answers.starts_with(&written));
                ended += 1;
            }
        }
    }
    println!("{name}: {ended} times the session ended, {refused} times a line was refused");
    assert!(refused > 0, "{name}");
}

#[test]
fn each_allocation_of_the_calculator_fails() {
    let (input, answers) = PROGRAMS[0].2;
    each_allocation_fails(
        "ivl_run",
        |alloc, r, w| ivl_calculator_lines::session(alloc, r, w),
        input,
        answers,
        "refused 4 memory",
    );
}

#[test]
fn each_allocation_of_the_solver_fails() {
    // not the stored run, which is long
    let input =
        b"var x 1 9 20 30\nvar y 1 9\nvar z 11 11\nsum x y z\ncut x 2 5 7 7\nx + 4 <= y\nx <= y + 9\ndifferent x y z\n\
        show\ncut x 2 3\ngo on\nx != y + -6\nsolve\ncount\nsolve 1\nmin y\nmax y\nshow y\n";
    let answers = "ok\nok\nok\nok\nok\nok\nok\nok\nx [2..5]\ny [6..9]\nz [11..11]\nok\nok\nok\nok\n\
        x 2 y 9 z 11\nx 3 y 8 z 11\nok\ncount 2\nok\nx 2 y 9 z 11\nmore possible\nx 3 y 8 z 11\nok\nx 2 y 9 z 11\nok\n\
        y [8..9]\nok\n";
    each_allocation_fails(
        "ivl_solve",
        |alloc, r, w| ivl_store_lines::session(alloc, RandomState::new(&()).unwrap(), r, w),
        input,
        answers,
        "error: out of memory",
    );
}

/// A map with a key more, or, where an allocation fails, as it was; so too the copy of a key.
#[test]
fn each_allocation_of_the_map_fails() {
    let mut map = BTreeMap::new(Global);
    let mut refused = 0;
    for value in 0..3000 {
        let word = ((value * 7919) % 3000).to_string();
        for count in 0.. {
            FAILED.set(0);
            LEFT.set(count);
            let end = Text::from_str(Global, &word).and_then(|key| map.insert(key, value));
            LEFT.set(-1);
            assert_eq!((end.is_ok(), map.values().count()), (FAILED.get() == 0, value + usize::from(end.is_ok())));
            if end.is_ok() {
                break;
            }
            refused += 1;
        }
        assert_eq!(map.get(word.as_str()), Some(&value));
    }
    assert!(refused > 3000);
}
