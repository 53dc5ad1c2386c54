//! What the program answers without arguments: answers of each measured call, and domains that Gecode finds too.
use std::process::Command;

#[test]
fn each_call_answers_what_is_stored() {
    let stored = include_str!("../answers.txt").lines().filter(|line| cfg!(json) || !line.starts_with("json"));
    let run = Command::new(env!("CARGO_BIN_EXE_ivl_bench")).output().unwrap();
    assert!(run.status.success(), "{}", String::from_utf8_lossy(&run.stderr));
    let answers = String::from_utf8(run.stdout).unwrap();
    assert_eq!(answers.lines().collect::<Vec<_>>(), stored.collect::<Vec<_>>());
}

#[test]
fn other_arguments_are_refused() {
    let run = |words: &[&str]| Command::new(env!("CARGO_BIN_EXE_ivl_bench")).args(words).output().unwrap();
    for words in [&["word"][..], &["time"], &["time", "1"], &["time", "x", "10"], &["store"], &["store", "missing.txt"]]
    {
        let run = run(words);
        assert!(!run.status.success() && run.stdout.is_empty() && !run.stderr.is_empty(), "{words:?}");
    }
    let lines = String::from_utf8(run(&["time", "0.0001", "10"]).stdout).unwrap();
    assert!(lines.lines().count() > 30 && lines.lines().all(|line| line.split(' ').count() >= 4), "{lines}");
}
