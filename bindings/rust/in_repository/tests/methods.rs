//! Each public method of the root says what its contract is, or that it has none, and has an example; and what a caller may not
//! overlook is `must_use`.
use std::fs;
use std::path::Path;

/// A public function of the root: its name, the lines before it, and its own.
struct Method {
    file: String,
    name: String,
    before: Vec<String>,
    line: String,
}

impl Method {
    fn has(&self, text: &str) -> bool {
        self.before.iter().any(|line| line.contains(text))
    }

    fn place(&self) -> String {
        format!("{}: {}", self.file, self.name)
    }
}

/// The public functions of a file, in its order.
fn methods_of(path: &Path) -> Vec<Method> {
    let (mut found, mut before) = (Vec::new(), Vec::new());
    for line in fs::read_to_string(path).unwrap().lines() {
        // a function outside of an `impl` is of the crate alone
        let (is_method, line) = (line.starts_with(' '), line.trim());
        let name = line.strip_prefix("pub fn ").or_else(|| line.strip_prefix("pub const fn "));
        if let Some(name) = name.filter(|_| is_method) {
            let name = name.split(['(', '<']).next().unwrap().to_owned();
            let file = path.file_name().unwrap().to_string_lossy().into_owned();
            found.push(Method { file, name, before: std::mem::take(&mut before), line: line.to_owned() });
        } else if line.starts_with("///") || line.starts_with("#[") || before.last().is_some_and(|line| is_open(line)) {
            before.push(line.to_owned());
        } else {
            before.clear();
        }
    }
    found
}

/// Whether an attribute goes on in the next line.
fn is_open(line: &str) -> bool {
    !line.starts_with("///") && !line.ends_with(']')
}

/// The public functions of sets, maps and models.
fn methods() -> Vec<Method> {
    let root = Path::new(env!("CARGO_MANIFEST_DIR")).join("../src");
    let folders = ["set", "map", "solve"].map(|name| root.join(name));
    let files = folders.iter().filter_map(|folder| fs::read_dir(folder).ok()).flatten();
    let mut files: Vec<_> = files.map(|entry| entry.unwrap().path()).collect();
    files.sort();
    files.iter().flat_map(|path| methods_of(path)).collect()
}

#[test]
fn each_method_says_what_is_proved_of_it() {
    let methods = methods();
    assert!(methods.len() > 110, "{}", methods.len());
    let silent = methods.iter().filter(|method| !method.has("contract!(") && !method.has("Tested and not proved"));
    let silent: Vec<_> = silent.map(Method::place).collect();
    assert!(silent.is_empty(), "neither a contract nor that there is none: {silent:#?}");
}

#[test]
fn each_method_has_an_example() {
    let bare: Vec<_> = methods().iter().filter(|method| !method.has("```")).map(Method::place).collect();
    assert!(bare.is_empty(), "{} without an example: {bare:#?}", bare.len());
}

#[test]
fn what_may_not_be_overlooked_must_be_used() {
    let returns =
        ["Option<()>", "Option<bool>", "Option<Result<", "Iter<", "Runs<", "RunsWithin<", "Range<", "Values<", "Lent<"];
    let is_checked = |method: &Method| method.name.starts_with("checked_");
    let is_lazy = |method: &Method| returns.iter().any(|kind| method.line.contains(&format!("-> {kind}")));
    let methods = methods();
    let asked: Vec<_> = methods.iter().filter(|method| is_checked(method) || is_lazy(method)).collect();
    assert!(asked.len() > 20, "{}", asked.len());
    let lost: Vec<_> = asked.iter().filter(|method| !method.has("#[must_use")).map(|method| method.place()).collect();
    assert!(lost.is_empty(), "{lost:#?}");
    let iterators = ["set/iterators.rs", "map/iterators.rs"]
        .map(|file| fs::read_to_string(format!("{}/../src/{file}", env!("CARGO_MANIFEST_DIR"))).unwrap());
    for text in iterators {
        let mut last = "";
        for line in text.lines() {
            assert!(
                !line.starts_with("pub struct") || last.starts_with("#[must_use") || last.starts_with("#[derive"),
                "{line}"
            );
            last = line;
        }
    }
}
