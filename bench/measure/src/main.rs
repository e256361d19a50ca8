//! Measures the proved calls and programs beside the same rule in plain Rust, and prints tables in Markdown.
//!
//! `measure PLAIN_FOLDER SCRATCH_FOLDER [WORD]`, started at the top of the repository: only cases whose name has WORD. Where the
//! two sides do not answer the same it stops with the status 1.

mod answer;
mod calls;
mod cases;
mod days;
mod lent;
mod programs;
mod proved;
mod table;
mod timing;
mod unproved;

use cases::{cases, growing, Case};
use std::path::Path;
use std::process::ExitCode;

fn measure_calls(cases: &[Case]) -> Result<(), String> {
    table::head(&["day"]);
    for case in cases {
        table::compared(&case.name, calls::call(case)?.medians);
    }
    Ok(())
}

fn measure_growth() -> Result<(), String> {
    table::head(&["day", "rounds", "looks"]);
    for case in [34, 1].into_iter().flat_map(growing) {
        let called = calls::call(&case)?;
        table::grown(&case.name, called.answer, called.medians);
    }
    Ok(())
}

fn measure_programs(cases: &[Case], scratch: &Path, plain: &Path) -> Result<(), String> {
    table::head(&["day"]);
    for case in cases {
        let name = format!("program: {}", case.name);
        table::compared(&name, programs::run(case, scratch, plain)?);
    }
    Ok(())
}

fn measure(plain: &Path, scratch: &Path, word: &str) -> Result<(), String> {
    let mut cases = cases().map_err(|error| error.to_string())?;
    let mut compared = 0;
    for case in &cases {
        if case.name == "school day and its changes" {
            compared += calls::compare_refusals(case)?;
        }
    }
    println!("{compared} days and rows, most of them refused, are answered the same.");
    cases.retain(|case| case.name.contains(word));
    measure_calls(&cases)?;
    measure_programs(&cases, scratch, plain)?;
    measure_growth()
}

fn main() -> ExitCode {
    let args: Vec<String> = std::env::args().skip(1).collect();
    let [plain, scratch, word @ ..] = &args[..] else {
        eprintln!("usage: measure PLAIN_FOLDER SCRATCH_FOLDER [WORD]");
        return ExitCode::FAILURE;
    };
    let word = word.first().map_or("", String::as_str);
    match measure(Path::new(plain), Path::new(scratch), word) {
        Ok(()) => ExitCode::SUCCESS,
        Err(difference) => {
            eprintln!("measure: {difference}");
            ExitCode::FAILURE
        }
    }
}
