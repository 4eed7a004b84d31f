//! Holding another program's answers against the crate's.

use std::path::{Path, PathBuf};
use std::process::Command;

use crate::case::{Case, Stated};
use crate::making::answers;

/// Reads a case file.
pub fn read(path: &Path) -> Result<Case, String> {
    let text = std::fs::read_to_string(path).map_err(|e| format!("{}: {e}", path.display()))?;
    Case::parse(&text).map_err(|e| format!("{}: {e}", path.display()))
}

/// The files of a folder, by name; a folder in it is a session of its files.
pub fn listed(folder: &Path) -> Result<Vec<PathBuf>, String> {
    let entries = std::fs::read_dir(folder).map_err(|e| format!("{}: {e}", folder.display()))?;
    let mut paths: Vec<PathBuf> = entries
        .filter_map(|entry| entry.ok().map(|entry| entry.path()))
        .filter(|path| path.is_dir() || path.extension().is_some_and(|end| end == "txt"))
        .collect();
    paths.sort();
    Ok(paths)
}

/// The lines that a program prints for an answer.
pub fn printed(stated: &Stated) -> String {
    format!(
        "answer {}\nsponge_after {}\n",
        stated.answer, stated.sponge_after
    )
}

/// Where two texts first part, or nothing.
fn parting(ours: &str, theirs: &str) -> Option<String> {
    let mut other = theirs.lines();
    for line in ours.lines() {
        let found = other.next().unwrap_or("nothing");
        if line != found {
            return Some(format!("  the crate:   {line}\n  the program: {found}"));
        }
    }
    other
        .next()
        .map(|line| format!("  the crate:   nothing\n  the program: {line}"))
}

/// The answer lines of a program's output.
fn answer_lines(command: &mut Command) -> Result<String, String> {
    let output = command.output().map_err(|e| format!("{command:?}: {e}"))?;
    let text = String::from_utf8_lossy(&output.stdout);
    Ok(text
        .lines()
        .filter(|line| line.starts_with("answer ") || line.starts_with("sponge_after "))
        .map(|line| format!("{line}\n"))
        .collect())
}

/// Compares every case and session of a folder with what `program verify FILE` and
/// `program session FILE..` print. The number compared, or the first difference.
pub fn compare(folder: &Path, program: &Path) -> Result<usize, String> {
    let paths = listed(folder)?;
    for path in &paths {
        let (files, call) = if path.is_dir() {
            (listed(path)?, "session")
        } else {
            (vec![path.clone()], "verify")
        };
        let cases = files
            .iter()
            .map(|file| read(file))
            .collect::<Result<Vec<_>, _>>()?;
        let ours: String = answers(&cases).iter().map(printed).collect();
        let theirs = answer_lines(Command::new(program).arg(call).args(&files))?;
        if let Some(parting) = parting(&ours, &theirs) {
            return Err(format!(
                "{} ({}):\n{parting}",
                path.display(),
                cases[0].name
            ));
        }
    }
    Ok(paths.len())
}

/// Compares the answers that the cases of a folder state with the crate's. The number compared,
/// and the differences.
pub fn check(folder: &Path) -> Result<(usize, Vec<String>), String> {
    let mut differences = Vec::new();
    let paths = listed(folder)?;
    for path in &paths {
        let files = if path.is_dir() {
            listed(path)?
        } else {
            vec![path.clone()]
        };
        let cases = files
            .iter()
            .map(|file| read(file))
            .collect::<Result<Vec<_>, _>>()?;
        for ((file, case), found) in files.iter().zip(&cases).zip(answers(&cases)) {
            match &case.stated {
                Some(stated) if *stated == found => {}
                Some(stated) => differences.push(format!(
                    "{} ({}):\n  stated by {} {}  found by  {} {}",
                    file.display(),
                    case.name,
                    stated.by,
                    printed(stated),
                    found.by,
                    printed(&found)
                )),
                None => differences.push(format!("{}: states nothing", file.display())),
            }
        }
    }
    Ok((paths.len(), differences))
}
