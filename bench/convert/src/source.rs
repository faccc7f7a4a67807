//! Shader files, through naga's front ends.

use naga::front::{glsl, spv, wgsl};
use naga::valid::Capabilities;
use naga::{Module, ShaderStage};
use std::panic::{catch_unwind, AssertUnwindSafe};
use std::path::Path;
use std::{fmt, io};

/// Why a shader file gives no module.
#[derive(Debug)]
pub enum SourceError {
    Unreadable(io::Error),
    /// The extension is none of `.wgsl`, `.spv`, `.vert`, `.frag` and `.comp`.
    UnknownExtension,
    NotText,
    /// What the front end says.
    Parse(String),
    /// The front end broke off; it is naga's, so its panic is no reason to end here.
    Panicked,
}

/// The languages that naga reads, told apart by a file's extension.
#[derive(Clone, Copy)]
enum Language {
    Wgsl,
    SpirV,
    Glsl(ShaderStage),
}

/// Reads a shader file: WGSL, SPIR-V, or GLSL of the stage that its extension names.
pub fn read_shader(path: &Path) -> Result<Module, SourceError> {
    let language = language(path).ok_or(SourceError::UnknownExtension)?;
    let bytes = std::fs::read(path).map_err(SourceError::Unreadable)?;
    catch_unwind(AssertUnwindSafe(|| parse(language, &bytes))).unwrap_or(Err(SourceError::Panicked))
}

fn language(path: &Path) -> Option<Language> {
    Some(match path.extension()?.to_str()? {
        "wgsl" => Language::Wgsl,
        "spv" => Language::SpirV,
        "vert" => Language::Glsl(ShaderStage::Vertex),
        "frag" => Language::Glsl(ShaderStage::Fragment),
        "comp" => Language::Glsl(ShaderStage::Compute),
        _ => return None,
    })
}

fn parse(language: Language, bytes: &[u8]) -> Result<Module, SourceError> {
    let text = || std::str::from_utf8(bytes).map_err(|_| SourceError::NotText);
    match language {
        Language::Wgsl => {
            wgsl::parse_str(text()?).map_err(|error| SourceError::Parse(error.to_string()))
        }
        Language::SpirV => spv::parse_u8_slice(bytes, &spv::Options::default())
            .map_err(|error| SourceError::Parse(error.to_string())),
        Language::Glsl(stage) => glsl::Frontend::default()
            .parse(&glsl::Options::from(stage), text()?)
            .map_err(|error| SourceError::Parse(error.to_string())),
    }
}

/// The capabilities of a list such as `sampled,storage-buffers`, or the word that names none.
pub fn capabilities_named(list: &str) -> Result<Capabilities, &str> {
    list.split(',')
        .filter(|word| !word.is_empty())
        .try_fold(Capabilities::empty(), |sum, word| {
            Ok(sum
                | match word {
                    "sampled" => {
                        Capabilities::TEXTURE_AND_SAMPLER_BINDING_ARRAY_NON_UNIFORM_INDEXING
                    }
                    "storage-images" => {
                        Capabilities::STORAGE_TEXTURE_BINDING_ARRAY_NON_UNIFORM_INDEXING
                    }
                    "uniform-buffers" => Capabilities::BUFFER_BINDING_ARRAY_NON_UNIFORM_INDEXING,
                    "storage-buffers" => {
                        Capabilities::STORAGE_BUFFER_BINDING_ARRAY_NON_UNIFORM_INDEXING
                    }
                    _ => return Err(word),
                })
        })
}

impl fmt::Display for SourceError {
    fn fmt(&self, f: &mut fmt::Formatter<'_>) -> fmt::Result {
        match self {
            SourceError::Unreadable(error) => write!(f, "can't be read: {error}"),
            SourceError::UnknownExtension => {
                f.write_str("isn't named .wgsl, .spv, .vert, .frag or .comp")
            }
            SourceError::NotText => f.write_str("isn't UTF-8 text"),
            SourceError::Parse(message) => write!(f, "isn't accepted by naga: {message}"),
            SourceError::Panicked => f.write_str("makes naga's front end panic"),
        }
    }
}

impl std::error::Error for SourceError {}
