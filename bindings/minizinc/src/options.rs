//! The arguments of the command.

use std::time::Duration;

pub const HELP: &str = "\
usage: fzn-intervallum [-a | -n COUNT] [-s] [-t MILLISECONDS] MODEL.fzn

Solves a model that MiniZinc compiled. It prints each solution with a line ---------- below; ========== says that these are all, or
that none is better, and =====UNSATISFIABLE===== that there is none. A search that a limit ends says neither.

  -a                all solutions; of a goal, each better one that a stage of a limited search finds
  -n COUNT          so many solutions; one without it
  -s                figures at the end
  -t MILLISECONDS   ends after so long, with what was found, or =====UNKNOWN=====
  -i, -f, -p N, -r N   taken, and without effect but for -i, which is -a of a goal: the search has its own order, one thread, no chance
  --help, --version
";

#[derive(Debug, PartialEq)]
pub struct Options {
    pub file: String,
    pub wanted: usize,
    pub shows_better: bool,
    pub has_figures: bool,
    pub time: Option<Duration>,
}

#[derive(Debug, PartialEq)]
pub enum Request {
    Solve(Options),
    Help,
    Version,
}

/// Reads the arguments after the name of the command.
pub fn read(arguments: impl IntoIterator<Item = String>) -> Result<Request, String> {
    let mut options = Options { file: String::new(), wanted: 1, shows_better: false, has_figures: false, time: None };
    let mut arguments = arguments.into_iter();
    while let Some(argument) = arguments.next() {
        let mut number = || {
            let number = arguments.next().and_then(|number| number.parse::<u64>().ok());
            number.ok_or(format!("{argument} needs a number from 0 up"))
        };
        match argument.as_str() {
            "--help" | "-h" => return Ok(Request::Help),
            "--version" => return Ok(Request::Version),
            "-a" | "--all-solutions" => (options.wanted, options.shows_better) = (usize::MAX, true),
            "-i" | "--intermediate-solutions" => options.shows_better = true,
            "-n" | "--num-solutions" => options.wanted = usize::try_from(number()?).unwrap_or(usize::MAX).max(1),
            "-s" | "--statistics" => options.has_figures = true,
            "-t" | "--time-limit" => {
                options.time = Some(Duration::from_millis(number()?)).filter(|time| !time.is_zero())
            }
            "-f" | "--free-search" | "-v" | "--verbose" => {}
            "-p" | "--parallel" | "-r" | "--random-seed" => drop(number()?),
            file if !file.starts_with('-') && options.file.is_empty() => options.file = argument,
            _ => return Err(format!("unknown argument {argument}")),
        }
    }
    if options.file.is_empty() { Err("no model is named".into()) } else { Ok(Request::Solve(options)) }
}

#[cfg(test)]
mod tests {
    use super::*;

    fn read_words(line: &str) -> Result<Request, String> {
        read(line.split_whitespace().map(String::from))
    }

    #[test]
    fn options_of_minizinc_are_taken() {
        let options = Options {
            file: "m.fzn".into(),
            wanted: 5,
            shows_better: false,
            has_figures: true,
            time: Some(Duration::from_secs(2)),
        };
        assert_eq!(read_words("-n 5 -s -t 2000 -p 4 -f m.fzn"), Ok(Request::Solve(options)));
        assert_eq!(read_words("-a --help"), Ok(Request::Help));
    }

    #[test]
    fn faults_name_the_argument() {
        assert_eq!(read_words("-n five m.fzn"), Err("-n needs a number from 0 up".into()));
        assert_eq!(read_words("m.fzn n.fzn"), Err("unknown argument n.fzn".into()));
        assert_eq!(read_words("-a"), Err("no model is named".into()));
    }
}
