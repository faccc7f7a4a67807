//! The command line.

use std::path::PathBuf;

pub const USAGE: &str = "usage: compare [--count N] [--loops N] [--seed S] [--shaders DIR]
  --count N      compare N generated modules (0 if not given)
  --loops N      compare N generated modules that are mostly loops (0 if not given)
  --seed S       the first module's seed (1 if not given)
  --shaders DIR  compare the shaders in a folder: .wgsl, .spv, .vert, .frag, .comp";

pub struct Request {
    /// Comparable modules to be made.
    pub count: usize,
    /// The same of those that are mostly loops.
    pub loops: usize,
    pub seed: u64,
    pub shaders: Option<PathBuf>,
}

pub fn parse(mut words: impl Iterator<Item = String>) -> Result<Request, String> {
    let mut request = Request {
        count: 0,
        loops: 0,
        seed: 1,
        shaders: None,
    };
    while let Some(word) = words.next() {
        let value = match word.as_str() {
            "--count" | "--loops" | "--seed" | "--shaders" => {
                words.next().ok_or(format!("{word} wants a value"))?
            }
            _ => return Err(format!("{word} is no option")),
        };
        let no_number = |_| format!("{value} is no number for {word}");
        match word.as_str() {
            "--count" => request.count = value.parse().map_err(no_number)?,
            "--loops" => request.loops = value.parse().map_err(no_number)?,
            "--seed" => request.seed = value.parse().map_err(no_number)?,
            _ => request.shaders = Some(PathBuf::from(value)),
        }
    }
    if request.count == 0 && request.loops == 0 && request.shaders.is_none() {
        let options = "--count, --loops or --shaders";
        return Err(format!("nothing to compare: none of {options} is given"));
    }
    Ok(request)
}

#[cfg(test)]
mod tests {
    use super::*;

    fn parsed(words: &[&str]) -> Result<Request, String> {
        parse(words.iter().map(|word| word.to_string()))
    }

    #[test]
    fn options_are_read() {
        let words = ["--seed", "9", "--count", "5", "--loops", "7"];
        let request = parsed(&words).expect("it is well formed");
        assert_eq!((request.seed, request.count, request.loops), (9, 5, 7));
        assert!(request.shaders.is_none());
    }

    #[test]
    fn wrong_words_are_named() {
        for (words, message) in [
            (&["--count"][..], "--count wants a value"),
            (&["--count", "x"], "x is no number for --count"),
            (&["--fast"], "--fast is no option"),
        ] {
            assert_eq!(parsed(words).err().as_deref(), Some(message));
        }
        assert!(parsed(&[]).is_err());
    }
}
