//! The example folder, `examples/wall`: its three files belong together, and the release says the same of its shader.

use convert::{module_file, read_shader, Settings};
use files::ModuleFile;
use naga::valid::Capabilities;
use naga::Module;
use reference::Answer;
use release::{compare, run, Comparison};
use std::path::PathBuf;

/// What `convert` is run with in the example.
const SETTINGS: Settings = Settings {
    capabilities: Capabilities::empty(),
    check_control_flow: true,
};

fn path(name: &str) -> PathBuf {
    PathBuf::from(env!("CARGO_MANIFEST_DIR"))
        .join("../../examples/wall")
        .join(name)
}

fn shipped(name: &str) -> Vec<u8> {
    let path = path(name);
    std::fs::read(&path).unwrap_or_else(|error| panic!("{}: {error}", path.display()))
}

fn converted() -> (Module, ModuleFile) {
    let module = read_shader(&path("wall.wgsl")).expect("the front end takes the shader");
    let file = module_file(&module, SETTINGS).expect("the shader has a module file");
    (module, file)
}

#[test]
fn the_module_file_is_the_shader_s() {
    assert_eq!(shipped("wall.module"), converted().1.encode());
}

#[test]
fn the_report_is_the_reference_s() {
    let answer = reference::analyse(&shipped("wall.module"));
    assert_eq!(answer, Answer::Report(shipped("wall.report")));
}

#[test]
fn the_release_agrees() {
    let (module, file) = converted();
    let answer = Answer::Report(shipped("wall.report"));
    let verdict = run(&module, SETTINGS);
    assert_eq!(compare(&file, &answer, &verdict), Comparison::EqualReports);
}
