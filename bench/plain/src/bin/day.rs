//! `plain-day DAY CHANGES`: what `day DAY CHANGES` prints.
use std::io;
use std::process::ExitCode;

fn main() -> io::Result<ExitCode> {
    let mut args = std::env::args_os().skip(1);
    let (Some(day), Some(changes)) = (args.next(), args.next()) else {
        eprintln!("usage: plain-day DAY CHANGES");
        return Ok(ExitCode::FAILURE);
    };
    let day = std::fs::read(day)?;
    let changes = std::fs::read(changes)?;
    plain::print(plain::changes_text(&day, &changes))
}
