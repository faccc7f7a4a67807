//! A scratch repository: a copy of the definitions, and a crate of statements above it.

use std::fs;
use std::path::{Path, PathBuf};
use std::process::Command;

use reference::Answer;

use crate::statement::{name, statement, HEAD};

/// Statements to a file; small files show progress and keep the prover's memory low.
const TO_A_FILE: usize = 25;

pub struct Scratch {
    root: PathBuf,
}

impl Scratch {
    pub fn new() -> Result<Self, String> {
        let root = std::env::temp_dir().join(format!("definitions-{}", std::process::id()));
        let scratch = Scratch { root };
        let crates = scratch.root.join("crates");
        copy(
            &repository().join("crates/definitions/specs"),
            &crates.join("definitions/specs"),
        )?;
        copy(
            &repository().join("crates/definitions/src"),
            &crates.join("definitions/src"),
        )?;
        put(
            &crates.join("cases/src/lib.rt"),
            "#![tactic(auto)]\n\npub fn nothing() {}\n",
        )?;
        put(
            &scratch.root.join("crates.txt"),
            "definitions:\ncases: definitions\n",
        )?;
        Ok(scratch)
    }

    pub fn write(&self, modules: &[Vec<u8>], answers: &[Answer]) -> Result<(), String> {
        let specs = self.root.join("crates/cases/specs");
        let mut lib = String::new();
        let cases: Vec<(&Vec<u8>, &Answer)> = modules.iter().zip(answers).collect();
        for (file, chunk) in cases.chunks(TO_A_FILE).enumerate() {
            let mut text = String::from(HEAD);
            for (i, (module, answer)) in chunk.iter().enumerate() {
                text.push_str(&statement(file * TO_A_FILE + i, module, answer));
            }
            put(&specs.join(format!("Part{file}.antt")), &text)?;
            lib.push_str(&format!("pub mod Part{file}\n"));
        }
        put(&specs.join("Lib.antt"), &lib)
    }

    /// The cases that the prover does not admit.
    pub fn check(&self, count: usize) -> Result<Vec<usize>, String> {
        let said = Command::new("rt")
            .arg("check")
            .current_dir(self.root.join("crates/cases"))
            .output()
            .map_err(|e| format!("cannot run rt: {e}"))?;
        let text = format!(
            "{}{}",
            String::from_utf8_lossy(&said.stdout),
            String::from_utf8_lossy(&said.stderr)
        );
        if said.status.success() {
            fs::remove_dir_all(&self.root)
                .map_err(|e| format!("cannot remove the scratch folder: {e}"))?;
            return Ok(Vec::new());
        }
        let differing: Vec<usize> = (0..count)
            .filter(|&case| text.contains(&format!("`{}`", name(case))))
            .collect();
        if differing.is_empty() {
            return Err(format!("the check failed, and names no case:\n{text}"));
        }
        Ok(differing)
    }

    /// Writes a differing module where it can be looked at.
    pub fn keep(&self, case: usize, module: &[u8]) -> Result<PathBuf, String> {
        let path = self.root.join(format!("case-{case}.module"));
        fs::write(&path, module).map_err(|e| format!("cannot write {}: {e}", path.display()))?;
        Ok(path)
    }
}

fn repository() -> &'static Path {
    Path::new(concat!(env!("CARGO_MANIFEST_DIR"), "/../.."))
}

fn put(path: &Path, text: &str) -> Result<(), String> {
    let folder = path.parent().unwrap_or(Path::new("."));
    fs::create_dir_all(folder)
        .and_then(|()| fs::write(path, text))
        .map_err(|e| format!("cannot write {}: {e}", path.display()))
}

fn copy(from: &Path, to: &Path) -> Result<(), String> {
    let failed = |e: std::io::Error| format!("cannot copy {}: {e}", from.display());
    fs::create_dir_all(to).map_err(failed)?;
    for entry in fs::read_dir(from).map_err(failed)? {
        let entry = entry.map_err(failed)?;
        fs::copy(entry.path(), to.join(entry.file_name())).map_err(failed)?;
    }
    Ok(())
}
