//! Makes and checks the fixed list of module files and answers.
//!
//! - `fixed make FOLDER` writes `list.bin` and `list.txt` there; the same bytes each time. The answers are the
//!   reference's. Where a file is made from a naga module the release is run on that, and nothing is written
//!   unless it agrees, or differs by the rule of `docs/DIFFERENCES.md` that the entry names.
//! - `fixed check FILE [INDEX]` makes every file of the list again, from its source or seed, holds the reference and
//!   the release against the listed answers, and says where one differs; with `list.txt`, also where that does.
//!
//! [`list`] says how the data file is laid out.

mod agreement;
mod entries;
mod index;
mod list;
mod raise;

use std::path::Path;
use std::process::ExitCode;
use std::{env, fs, io};

use agreement::{agreed, Agreed};
use entries::Entry;
use list::Expected;
use reference::analyse;

fn main() -> ExitCode {
    let arguments: Vec<String> = env::args().skip(1).collect();
    let arguments: Vec<&str> = arguments.iter().map(String::as_str).collect();
    compare::keep_naga_quiet();
    let done = match arguments[..] {
        ["make", folder] => make(Path::new(folder)),
        ["check", file] => check(Path::new(file), None),
        ["check", file, index] => check(Path::new(file), Some(Path::new(index))),
        _ => Err("fixed make FOLDER | fixed check FILE [INDEX]".into()),
    };
    match done {
        Ok(said) => {
            println!("{said}");
            ExitCode::SUCCESS
        }
        Err(said) => {
            eprintln!("{said}");
            ExitCode::FAILURE
        }
    }
}

/// Writes the data file and its index.
fn make(folder: &Path) -> Result<String, String> {
    let entries = entries::all();
    let answers: Vec<Expected> = entries
        .iter()
        .map(|entry| Expected::of(analyse(&entry.file)))
        .collect();
    let agreed = all_agreed(&entries, &answers)?;
    let files = entries.iter().map(|entry| entry.file.as_slice());
    let data = list::write(files.zip(&answers));
    let index = index::text(&entries, &answers, &agreed);
    write(&folder.join("list.bin"), &data)?;
    write(&folder.join("list.txt"), index.as_bytes())?;
    Ok(format!("{}, {} bytes", counts(&agreed), data.len()))
}

fn write(path: &Path, bytes: &[u8]) -> Result<(), String> {
    fs::write(path, bytes).map_err(|error| failed(path, &error))
}

/// Answers every entry again.
fn check(path: &Path, index: Option<&Path>) -> Result<String, String> {
    let data = fs::read(path).map_err(|error| failed(path, &error))?;
    let listed = list::read(&data).ok_or("the list's layout is wrong")?;
    let entries = entries::all();
    if listed.len() != entries.len() {
        return Err(format!("{} entries, not {}", listed.len(), entries.len()));
    }
    let (files, answers): (Vec<_>, Vec<_>) = listed.into_iter().unzip();
    let by_reference =
        entries
            .iter()
            .zip(files)
            .zip(&answers)
            .filter_map(|((entry, file), listed)| {
                let wrong = by_reference(entry, file, listed)?;
                Some(format!("{}: {wrong}\n", entry.name))
            });
    let wrong: String = by_reference.collect();
    let agreed = all_agreed(&entries, &answers).map_err(|more| format!("{wrong}{more}"))?;
    if !wrong.is_empty() {
        return Err(wrong);
    }
    if let Some(path) = index {
        let text = fs::read_to_string(path).map_err(|error| failed(path, &error))?;
        same_index(&text, &index::text(&entries, &answers, &agreed))?;
    }
    Ok(format!("{}, all as listed", counts(&agreed)))
}

/// What is wrong with a listed file or its answer, by the reference.
fn by_reference(entry: &Entry, file: &[u8], listed: &Expected) -> Option<String> {
    if entry.file != file {
        return Some("another file is listed".into());
    }
    listed.differs_from(&analyse(file))
}

/// Who agrees on each listed answer, or every entry on which the release must and doesn't.
fn all_agreed(entries: &[Entry], listed: &[Expected]) -> Result<Vec<Agreed>, String> {
    let mut all = Vec::new();
    let mut wrong = String::new();
    for (entry, listed) in entries.iter().zip(listed) {
        match agreed(entry, listed) {
            Ok(agreed) => all.push(agreed),
            Err(said) => wrong.push_str(&format!("{}: the release: {said}\n", entry.name)),
        }
    }
    if wrong.is_empty() {
        Ok(all)
    } else {
        Err(wrong)
    }
}

fn same_index(found: &str, made: &str) -> Result<(), String> {
    let differing = found
        .lines()
        .zip(made.lines())
        .find(|(found, made)| found != made);
    match differing {
        Some((found, made)) => Err(format!("the index has\n{found}\nand should have\n{made}")),
        None if found == made => Ok(()),
        None => Err("the index has another length".into()),
    }
}

fn counts(agreed: &[Agreed]) -> String {
    let count = |is: fn(&Agreed) -> bool| agreed.iter().filter(|agreed| is(agreed)).count();
    format!(
        "{} entries, {} agreed by reference and release, {} by the reference alone, {} explained differences",
        agreed.len(),
        count(|agreed| *agreed == Agreed::Both),
        count(|agreed| *agreed == Agreed::Reference),
        count(|agreed| matches!(agreed, Agreed::Explained(..))),
    )
}

fn failed(path: &Path, error: &io::Error) -> String {
    format!("{}: {error}", path.display())
}
