//! A module on which the two differ, kept for a person.

use crate::cases::{Case, Origin};
use crate::judgement::{judge, Analyse, Judgement};
use crate::shrink::shrink;
use convert::{module_file, Settings};
use naga::Module;
use std::io;
use std::path::PathBuf;

pub struct Witness {
    /// The module file's length: what "smallest" means.
    pub length: usize,
    origin: Origin,
    module: Module,
    settings: Settings,
    source: Option<String>,
}

impl Witness {
    pub fn new(case: &Case, length: usize) -> Self {
        Witness {
            length,
            origin: case.origin.clone(),
            module: case.module.clone(),
            settings: case.settings,
            source: case.source.clone(),
        }
    }

    /// The same with as little left of the module as still differs.
    pub fn shrunk(self, analyse: Analyse) -> Self {
        let settings = self.settings;
        let differs = |module: &Module| {
            matches!(judge(module, settings, analyse), Judgement::Unexplained(..))
        };
        Witness {
            module: shrink(self.module, differs),
            ..self
        }
    }

    /// Writes the module file, and all that is known of it as text; answers where.
    pub fn write(&self, analyse: Analyse) -> io::Result<PathBuf> {
        let folder = PathBuf::from("target/compare");
        std::fs::create_dir_all(&folder)?;
        if let Ok(file) = module_file(&self.module, self.settings) {
            std::fs::write(folder.join("difference.module"), file.encode())?;
        }
        std::fs::write(folder.join("difference.txt"), self.text(analyse))?;
        Ok(folder)
    }

    fn text(&self, analyse: Analyse) -> String {
        let difference = match judge(&self.module, self.settings, analyse) {
            Judgement::Unexplained(difference, _) => difference.to_string(),
            _ => "none any more".to_string(),
        };
        let source = self.source.as_deref().unwrap_or("none");
        format!(
            "From: {}\nUnder: {:?}\nDifference: {difference}\n\n\
             The module, shrunk:\n{:#?}\n\nThe program it came from:\n{source}\n",
            self.origin, self.settings, self.module
        )
    }
}
