//! Whole programs, compared by what they print and timed from their start to their end.
use crate::cases::Case;
use crate::timing::{in_turn, Medians};
use std::fs;
use std::path::{Path, PathBuf};
use std::process::{Command, Output};

/// A program and the files that it is given.
struct Run {
    program: PathBuf,
    files: Vec<PathBuf>,
}

impl Run {
    fn output(&self) -> Result<Output, String> {
        Command::new(&self.program)
            .args(&self.files)
            .output()
            .map_err(|error| format!("{}: {error}", self.program.display()))
    }
}

/// Writes the case's files, and gives them to our program and to the plain one.
fn runs_of(case: &Case, folder: &Path, plain_folder: &Path) -> Result<(Run, Run), String> {
    let write = |name: &str, bytes: &[u8]| {
        let path = folder.join(name);
        fs::write(&path, bytes)
            .map(|()| path.clone())
            .map_err(|error| format!("{}: {error}", path.display()))
    };
    let mut files = vec![write("case.day", &case.day)?];
    let name = match &case.changes {
        None => "plan",
        Some(changes) => {
            files.push(write("case.changes", changes)?);
            "day"
        }
    };
    let ours = Run {
        program: PathBuf::from(format!("crates/{name}/out/{name}")),
        files: files.clone(),
    };
    let plain = Run {
        program: plain_folder.join(format!("plain-{name}")),
        files,
    };
    Ok((ours, plain))
}

/// Compares what both print, and times them.
pub fn run(case: &Case, folder: &Path, plain_folder: &Path) -> Result<Medians, String> {
    let (ours, plain) = runs_of(case, folder, plain_folder)?;
    let (one, other) = (ours.output()?, plain.output()?);
    if !one.status.success() || one.status != other.status || one.stdout != other.stdout {
        return Err(format!("{}: the programs do not print the same", case.name));
    }
    Ok(in_turn(
        &mut || {
            let _ = ours.output();
        },
        &mut || {
            let _ = plain.output();
        },
    ))
}
