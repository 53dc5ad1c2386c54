//! How the state of a program is asked for by its own lines, and written as the fewest lines.
use super::Fault;

/// Asks a session a line, and returns its answer without the newline at its end.
pub type Ask<'a> = dyn FnMut(&str) -> Result<String, Fault> + 'a;

/// Returns the lines that lead from the beginning to the state of a session, which has carried these lines out.
pub type State = fn(ask: &mut Ask<'_>, kept: &[Vec<u8>]) -> Result<Vec<String>, Fault>;

fn missing<T>(why: &str) -> Result<T, Fault> {
    Err(Fault::NoLines(why.into()))
}

/// The runs of a set, as `[1..5]` or `{[1..3][5..7]}`.
fn runs_of(set: &str) -> Result<Vec<(i128, i128)>, Fault> {
    let bare = set.trim_matches(['{', '}']);
    let mut runs = Vec::new();
    for run in bare.split(['[', ']']).filter(|run| !run.is_empty()) {
        let ends = run.split_once("..").and_then(|(l, u)| Some((l.parse().ok()?, u.parse().ok()?)));
        runs.push(ends.map_or_else(|| missing(&format!("{run} is no run")), Ok)?);
    }
    Ok(runs)
}

/// The calculator: a line for each set that is not empty.
pub fn registers(ask: &mut Ask<'_>, _: &[Vec<u8>]) -> Result<Vec<String>, Fault> {
    let mut lines = Vec::new();
    for name in 'a'..='z' {
        let runs = runs_of(&ask(&format!("show {name}"))?)?;
        let pairs: String = runs.iter().map(|(l, u)| format!(" {l} {u}")).collect();
        if !runs.is_empty() {
            lines.push(format!("set {name}{pairs}"));
        }
    }
    Ok(lines)
}

/// The solver has no line that tells its rules.
pub fn rules(_: &mut Ask<'_>, _: &[Vec<u8>]) -> Result<Vec<String>, Fault> {
    missing("no line of the solver tells its rules")
}

/// The ports: a line for each run of taken ones.
pub fn ports(ask: &mut Ask<'_>, _: &[Vec<u8>]) -> Result<Vec<String>, Fault> {
    let answer = ask("free")?;
    let (_, free) = answer.split_once(": ").map_or_else(|| missing("free is answered otherwise"), Ok)?;
    let (mut lines, mut next) = (Vec::new(), 1024);
    let mut take = |first: i128, end: i128| {
        if first < end {
            lines.push(format!("take {} at {first}", end - first));
        }
    };
    for (first, last) in runs_of(free)? {
        take(next, first);
        next = last + 1;
    }
    take(next, 65536);
    Ok(lines)
}

/// The blocks have no line that tells which are free.
pub fn blocks(_: &mut Ask<'_>, _: &[Vec<u8>]) -> Result<Vec<String>, Fault> {
    missing("no line of the program tells which blocks are free")
}

/// The check of ranges: the last line of each kind, since it stands for those before it.
pub fn ranges(_: &mut Ask<'_>, kept: &[Vec<u8>]) -> Result<Vec<String>, Fault> {
    let first = |line: &[u8]| line.split(|byte| *byte == b' ').find(|word| !word.is_empty()).map(<[u8]>::to_vec);
    let last = |name: &[u8]| kept.iter().rev().find(|line| first(line).as_deref() == Some(name));
    let lines = [&b"i"[..], b"k", b"length"].into_iter().filter_map(last);
    lines.map(|line| String::from_utf8(line.clone()).or_else(|_| missing("a line is not UTF-8"))).collect()
}

/// The calendar: a line for each room, and for each booking.
pub fn calendar(ask: &mut Ask<'_>, _: &[Vec<u8>]) -> Result<Vec<String>, Fault> {
    let mut lines = Vec::new();
    let rooms = ask("rooms")?;
    // (a room may have this name)
    if rooms == "none" && ask("show none")?.starts_with("error: ") {
        return Ok(lines);
    }
    for room in rooms.split(", ") {
        lines.push(format!("room {room}"));
        let shown = ask(&format!("show {room}"))?;
        for booking in shown.split(", ").filter(|_| shown != "free") {
            let words: Vec<_> = booking.split(' ').collect();
            match words.as_slice() {
                [first, "to", last] => lines.push(format!("book {room} {first} {last}")),
                [first, "to", last, who] => lines.push(format!("book {room} {first} {last} {who}")),
                _ => return missing(&format!("{booking} is no booking")),
            }
        }
    }
    Ok(lines)
}
