//! Solves a FlatZinc model: reads it, makes domains and rules of it, and gives them to the proved search.

#![forbid(unsafe_code)]

mod arithmetic;
#[cfg(test)]
mod exact;
mod items;
mod lexer;
mod linear;
mod names;
mod network;
mod options;
mod output;
mod posting;
mod search;

use items::{Expression, Goal, Model};
use lexer::Fault;
use names::{Names, Value};
use network::Network;
use options::{Options, Request};
use output::{Output, Shown};
use search::{Aim, Task};
use std::process::ExitCode;
use std::sync::{Arc, Mutex, PoisonError};
use std::time::{Duration, Instant};

fn main() -> ExitCode {
    match options::read(std::env::args().skip(1)) {
        Ok(Request::Help) => print!("{}", options::HELP),
        Ok(Request::Version) => println!("fzn-intervallum {}", env!("CARGO_PKG_VERSION")),
        Ok(Request::Solve(options)) => return solve(&options),
        Err(text) => {
            eprint!("fzn-intervallum: {text}\n{}", options::HELP);
            return ExitCode::from(2);
        }
    }
    ExitCode::SUCCESS
}

fn solve(options: &Options) -> ExitCode {
    let output = Arc::new(Mutex::new(Output { has_solution: false, best: None }));
    if let Some(time) = options.time {
        let output = Arc::clone(&output);
        std::thread::spawn(move || stop_after(time, &output));
    }
    match solve_file(options, &output) {
        Ok(()) => ExitCode::SUCCESS,
        Err(fault) => {
            let place = if fault.line > 0 { format!("{}:{}", options.file, fault.line) } else { options.file.clone() };
            eprintln!("{place}: {}", fault.text);
            let mut output = output.lock().unwrap_or_else(PoisonError::into_inner);
            // (where nobody reads, nothing can be told)
            let _ = output.print(&format!("{}\n", output::ERROR));
            ExitCode::FAILURE
        }
    }
}

/// Ends the process when the time has passed, with what was found; nothing is printed after that.
fn stop_after(time: Duration, output: &Mutex<Output>) {
    std::thread::sleep(time);
    let mut output = output.lock().unwrap_or_else(PoisonError::into_inner);
    let stopped = output.stop();
    std::process::exit(if stopped.is_ok() { 0 } else { 1 });
}

fn solve_file(options: &Options, output: &Mutex<Output>) -> Result<(), Fault> {
    let begun = Instant::now();
    let text = std::fs::read_to_string(&options.file).map_err(|fault| Fault::new(0, fault.to_string()))?;
    let model = items::read(&text)?;
    let mut task = task_of(&model, options)?;
    let ready = begun.elapsed();
    let found = search::search(&mut task, output).map_err(|text| Fault::new(0, text))?;
    if options.has_figures {
        let figures = [
            ("initTime", ready.as_secs_f64().to_string()),
            ("solveTime", (begun.elapsed() - ready).as_secs_f64().to_string()),
            ("solutions", found.to_string()),
            ("variables", task.network.domains.len().to_string()),
            ("propagators", task.network.rules.len().to_string()),
        ];
        let lines: String = figures.iter().map(|(name, figure)| format!("%%%mzn-stat: {name}={figure}\n")).collect();
        let mut output = output.lock().unwrap_or_else(PoisonError::into_inner);
        output.print(&format!("{lines}%%%mzn-stat-end\n")).map_err(|fault| Fault::new(0, fault.to_string()))?;
    }
    Ok(())
}

fn task_of<'a>(model: &Model<'a>, options: &Options) -> Result<Task<'a>, Fault> {
    let mut network = Network::default();
    let names = Names::new(model, &mut network)?;
    for constraint in &model.constraints {
        posting::post(constraint, &names, &mut network)?;
    }
    let shown = output::shown(&model.declarations, &names)?;
    let aim = aim_of(model, &names, &mut network)?;
    let variables = variables_of(model, &names, &shown, aim);
    let is_timed = options.time.is_some();
    Ok(Task { network, aim, variables, shown, wanted: options.wanted, shows_better: options.shows_better, is_timed })
}

fn aim_of(model: &Model, names: &Names, network: &mut Network) -> Result<Aim, Fault> {
    let mut variable = |expression: &Expression| {
        let variable = match names.value(expression)? {
            Value::Variable(variable) => variable,
            value => network.constant(names::number_of(&value).ok_or("the goal is a set")?)?,
        };
        Ok(variable)
    };
    let fault = |text: String| Fault::new(model.goal_line, format!("solve: {text}"));
    match &model.goal {
        Goal::Satisfy => Ok(Aim::Any),
        Goal::Minimize(expression) => variable(expression).map(Aim::Least).map_err(fault),
        Goal::Maximize(expression) => variable(expression).map(Aim::Greatest).map_err(fault),
    }
}

/// The variables in which solutions differ: those that the user declared or sees, and not what the compiler added.
fn variables_of(model: &Model, names: &Names, shown: &[Shown], aim: Aim) -> Vec<usize> {
    let is_added =
        |annotation: &Expression| matches!(annotation, Expression::Word("is_defined_var" | "var_is_introduced"));
    let declared = model
        .declarations
        .iter()
        .filter(|declaration| declaration.is_variable && !declaration.annotations.iter().any(is_added));
    let values = declared.filter_map(|declaration| names.value(&Expression::Word(declaration.name)).ok());
    let mut all: Vec<usize> =
        values.filter_map(|value| if let Value::Variable(variable) = value { Some(variable) } else { None }).collect();
    all.extend(shown.iter().flat_map(Shown::variables));
    if let Aim::Least(variable) | Aim::Greatest(variable) = aim {
        all.push(variable);
    }
    all.sort_unstable();
    all.dedup();
    all
}
