//! `plain-plan DAY`: what `plan DAY` prints.
use std::io;
use std::process::ExitCode;

fn main() -> io::Result<ExitCode> {
    let Some(day) = std::env::args_os().nth(1) else {
        eprintln!("usage: plain-plan DAY");
        return Ok(ExitCode::FAILURE);
    };
    let bytes = std::fs::read(day)?;
    plain::print(plain::plan_text(&bytes))
}
