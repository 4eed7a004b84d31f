//! The oracle's program. Without arguments it says what it does.

use std::path::{Path, PathBuf};

use konwydrel_oracle::case::Case;
use konwydrel_oracle::compare::{check, compare, printed, read};
use konwydrel_oracle::drafts::{HUGE, LARGE, SMALL, Size, USUAL};
use konwydrel_oracle::judge::{judge, judge_bare, keep_panics};
use konwydrel_oracle::rng::Rng;
use konwydrel_oracle::{differences, making, sample, vectors};

const USAGE: &str = "\
konwydrel-oracle write FOLDER SEED COUNT [SIZE]     write cases with their answers
konwydrel-oracle sessions FOLDER SEED COUNT [SIZE]  write sessions, a folder each
konwydrel-oracle sample FOLDER SEED                 write the stored sample
konwydrel-oracle verify FILE                        answer a case
konwydrel-oracle session FILE..                     answer cases in turn on one sponge
konwydrel-oracle bare FILE                          answer a case by the crate alone
konwydrel-oracle check FOLDER..                     hold stated answers against the crate's
konwydrel-oracle compare FOLDER PROGRAM             hold a program's answers against the crate's
konwydrel-oracle differences SEED                   where rules and crate part, a line each
konwydrel-oracle vectors FILE                       answer a file of small facts anew
SIZE is small, usual (without it), large or huge.";

fn main() {
    keep_panics();
    let words: Vec<String> = std::env::args().skip(1).collect();
    let words: Vec<&str> = words.iter().map(String::as_str).collect();
    if let Err(message) = run(&words) {
        eprintln!("{message}");
        std::process::exit(1);
    }
}

fn run(words: &[&str]) -> Result<(), String> {
    match words {
        ["write", folder, seed, count, size @ ..] => write(folder, seed, count, size),
        ["sessions", folder, seed, count, size @ ..] => sessions(folder, seed, count, size),
        ["sample", folder, seed] => sample::write(Path::new(folder), number(seed)?),
        ["verify", file] => {
            print!("{}", printed(&judge(&read(Path::new(file))?).stated()));
            Ok(())
        }
        ["session", first, rest @ ..] => session(first, rest),
        ["bare", file] => {
            print!("{}", printed(&judge_bare(&read(Path::new(file))?).stated()));
            Ok(())
        }
        ["check", folders @ ..] if !folders.is_empty() => check_all(folders),
        ["compare", folder, program] => {
            let count = compare(Path::new(folder), Path::new(program))?;
            println!("{count} cases and sessions, no difference");
            Ok(())
        }
        ["differences", seed] => {
            for shown in differences::shown(number(seed)?) {
                println!("{}: {} | {}", shown.name, shown.by_rules, shown.by_crate);
            }
            Ok(())
        }
        ["vectors", file] => {
            let text = std::fs::read_to_string(file).map_err(|e| format!("{file}: {e}"))?;
            print!("{}", vectors::again(&text)?);
            Ok(())
        }
        _ => Err(USAGE.into()),
    }
}

fn number(word: &str) -> Result<u64, String> {
    word.parse().map_err(|_| format!("not a number: {word}"))
}

fn size(words: &[&str]) -> Result<Size, String> {
    match words {
        [] | ["usual"] => Ok(USUAL),
        ["small"] => Ok(SMALL),
        ["large"] => Ok(LARGE),
        ["huge"] => Ok(HUGE),
        _ => Err(USAGE.into()),
    }
}

fn write(folder: &str, seed: &str, count: &str, words: &[&str]) -> Result<(), String> {
    let mut rng = Rng::new(number(seed)?);
    let size = size(words)?;
    for i in 0..number(count)? {
        // Every fourth case has rounds.
        let rounds = usize::from(i % 4 == 0);
        let case = making::case(&mut rng, &Size { rounds, ..size });
        save(&Path::new(folder).join(format!("case-{i:06}.txt")), &case)?;
    }
    Ok(())
}

fn sessions(folder: &str, seed: &str, count: &str, words: &[&str]) -> Result<(), String> {
    let mut rng = Rng::new(number(seed)?);
    let size = size(words)?;
    for i in 0..number(count)? {
        let length = rng.from_to(2, 6) as usize;
        for (j, case) in making::session(&mut rng, &size, length).iter().enumerate() {
            let path = Path::new(folder).join(format!("session-{i:06}"));
            save(&path.join(format!("{j}.txt")), case)?;
        }
    }
    Ok(())
}

fn save(path: &Path, case: &Case) -> Result<(), String> {
    let folder = path.parent().ok_or("a file in no folder")?;
    std::fs::create_dir_all(folder)
        .and_then(|()| std::fs::write(path, case.text()))
        .map_err(|e| format!("{}: {e}", path.display()))
}

fn session(first: &str, rest: &[&str]) -> Result<(), String> {
    let files = std::iter::once(&first).chain(rest);
    let cases = files
        .map(|file| read(Path::new(file)))
        .collect::<Result<Vec<_>, _>>()?;
    for stated in making::answers(&cases) {
        print!("{}", printed(&stated));
    }
    Ok(())
}

fn check_all(folders: &[&str]) -> Result<(), String> {
    let mut differences = Vec::new();
    let mut total = 0;
    for folder in folders.iter().map(PathBuf::from) {
        let (count, found) = check(&folder)?;
        total += count;
        differences.extend(found);
    }
    println!(
        "{total} cases and sessions, {} differences",
        differences.len()
    );
    if differences.is_empty() {
        Ok(())
    } else {
        Err(differences.join("\n"))
    }
}
