//! One module file again and again, for a profiler; and files to give it.

use std::hint::black_box;
use std::path::Path;

use crate::analyzer::Lent;
use crate::corpus;
use crate::form::form;

/// Runs the analyzer on a module file so many times.
pub fn analyse(path: &Path, times: usize) -> Result<(), String> {
    let file = read(path)?;
    let mut lent = Lent::exact();
    for _ in 0..times {
        black_box(lent.run(black_box(&file)));
    }
    println!("{:?}", lent.run(&file));
    Ok(())
}

/// Runs the form checks alone.
pub fn check_form(path: &Path, times: usize) -> Result<(), String> {
    let file = read(path)?;
    for _ in 0..times {
        black_box(form(black_box(&file)));
    }
    println!("{:?}", form(&file));
    Ok(())
}

/// Writes accepted module files, the first `count` of each kind and size, and those of a folder of shaders.
pub fn write_samples(folder: &Path, count: usize, shaders: Option<&Path>) -> Result<(), String> {
    compare::keep_naga_quiet();
    std::fs::create_dir_all(folder).map_err(|error| said(folder, error))?;
    for (origin, file) in corpus::first_files(count, shaders)? {
        let name = origin.replace(',', "").replace(' ', "-").to_lowercase();
        let path = folder.join(format!("{name}.module"));
        std::fs::write(&path, &file).map_err(|error| said(&path, error))?;
        println!("{} {} bytes", path.display(), file.len());
    }
    Ok(())
}

fn read(path: &Path) -> Result<Vec<u8>, String> {
    std::fs::read(path).map_err(|error| said(path, error))
}

fn said(path: &Path, error: std::io::Error) -> String {
    format!("{}: {error}", path.display())
}
