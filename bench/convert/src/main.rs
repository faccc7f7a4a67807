//! `convert SHADER [--capabilities LIST] [--no-control-flow] -o FILE`: a shader file in, a module file
//! of document 01 out.

use convert::{capabilities_named, module_file, read_shader, Settings};
use naga::valid::Capabilities;
use std::path::{Path, PathBuf};
use std::process::ExitCode;

const USAGE: &str = "usage: convert SHADER [--capabilities LIST] [--no-control-flow] -o FILE
  SHADER               .wgsl, .spv, .vert, .frag or .comp
  --capabilities LIST  what may be indexed non-uniformly, commas between:
                       sampled, storage-images, uniform-buffers, storage-buffers (none if not given)
  --no-control-flow    control flow isn't checked: refusal 11 can't come
  -o FILE              where the module file goes";

struct Request {
    shader: PathBuf,
    output: PathBuf,
    settings: Settings,
}

fn main() -> ExitCode {
    let request = match parse(std::env::args().skip(1)) {
        Ok(request) => request,
        Err(message) => {
            eprintln!("convert: {message}\n{USAGE}");
            return ExitCode::from(2);
        }
    };
    match convert(&request) {
        Ok(()) => ExitCode::SUCCESS,
        Err(message) => {
            eprintln!("convert: {message}");
            ExitCode::FAILURE
        }
    }
}

fn parse(mut words: impl Iterator<Item = String>) -> Result<Request, String> {
    let mut shader = None;
    let mut output = None;
    let mut settings = Settings {
        capabilities: Capabilities::empty(),
        check_control_flow: true,
    };
    while let Some(word) = words.next() {
        let mut value = || words.next().ok_or(format!("{word} wants a value"));
        match word.as_str() {
            "-o" => output = Some(PathBuf::from(value()?)),
            "--capabilities" => {
                settings.capabilities = capabilities_named(&value()?)
                    .map_err(|name| format!("{name} is no capability"))?;
            }
            "--no-control-flow" => settings.check_control_flow = false,
            option if option.starts_with('-') => return Err(format!("{option} is no option")),
            _ if shader.is_some() => return Err(format!("{word} is a second shader")),
            _ => shader = Some(PathBuf::from(word)),
        }
    }
    Ok(Request {
        shader: shader.ok_or("no shader is named")?,
        output: output.ok_or("no output is named")?,
        settings,
    })
}

fn convert(request: &Request) -> Result<(), String> {
    let named = |path: &Path, message: String| format!("{}: {message}", path.display());
    let module =
        read_shader(&request.shader).map_err(|error| named(&request.shader, error.to_string()))?;
    let file = module_file(&module, request.settings)
        .map_err(|error| named(&request.shader, error.to_string()))?;
    std::fs::write(&request.output, file.encode())
        .map_err(|error| named(&request.output, error.to_string()))
}
