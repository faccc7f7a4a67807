//! The accessors, and whole runs, held against reports and refusals that were made elsewhere: by the bench's reference, which the
//! released crate agreed with. What is expected is read off the shader and off the release's own test.

use std::fs;
use std::path::{Path, PathBuf};

use fiuraccju::{
    Analyzer, ArgumentIndex, Cause, End, ExpressionIndex, ExpressionReport, FunctionIndex,
    GlobalIndex, Malformed, MixedPair, Pair, RefusalKind, Report,
};

fn repository() -> PathBuf {
    Path::new(env!("CARGO_MANIFEST_DIR")).join("../..")
}

fn bytes(path: &Path) -> Vec<u8> {
    fs::read(path).unwrap_or_else(|error| panic!("{}: {error}", path.display()))
}

fn wall(name: &str) -> Vec<u8> {
    bytes(&repository().join("examples/wall").join(name))
}

/// A step of the release's own test (`bench/release/tests/uniform_control_flow.rs`).
fn step(name: &str) -> Vec<u8> {
    bytes(&repository().join("bench/uniform_control_flow").join(name))
}

// The globals of examples/wall/wall.wgsl.
const PICTURE: GlobalIndex = GlobalIndex(0);
const LEGEND: GlobalIndex = GlobalIndex(1);
const SMOOTH_SAMPLER: GlobalIndex = GlobalIndex(2);

#[test]
fn the_picture_reaches_its_sampler_through_two_calls() {
    let bytes = wall("wall.report");
    let report = Report::read(&bytes).unwrap();
    assert_eq!(report.globals(), 3);
    let [sampled, tile, show]: [_; 3] = report.functions().collect::<Vec<_>>().try_into().unwrap();

    assert_eq!(sampled.pairs().count(), 0);
    let both_arguments = MixedPair {
        image: End::Argument(ArgumentIndex(0)),
        sampler: End::Argument(ArgumentIndex(1)),
    };
    assert_eq!(sampled.mixed_pairs().collect::<Vec<_>>(), [both_arguments]);

    assert_eq!(tile.pairs().count(), 0);
    let image_alone = MixedPair {
        image: End::Argument(ArgumentIndex(0)),
        sampler: End::Global(SMOOTH_SAMPLER),
    };
    assert_eq!(tile.mixed_pairs().collect::<Vec<_>>(), [image_alone]);

    let bound = Pair {
        image: PICTURE,
        sampler: SMOOTH_SAMPLER,
    };
    assert_eq!(show.index(), FunctionIndex(2));
    assert_eq!(show.pairs().collect::<Vec<_>>(), [bound]);
    assert_eq!(show.mixed_pairs().count(), 0);
    assert_eq!(report.function(FunctionIndex(2)), Some(show));
    assert_eq!(report.function(FunctionIndex(3)), None);
}

#[test]
fn the_wall_reads_picture_and_sampler_and_leaves_the_legend() {
    let bytes = wall("wall.report");
    let report = Report::read(&bytes).unwrap();
    let show = report.functions().last().unwrap();
    assert!(show.uses_of(PICTURE).unwrap().is_read());
    assert!(show.uses_of(LEGEND).unwrap().is_empty());
    assert!(show.uses_of(SMOOTH_SAMPLER).unwrap().is_read());
    assert_eq!(show.uses_of(GlobalIndex(3)), None);
    let used: Vec<_> = show.uses().filter(|(_, uses)| !uses.is_empty()).collect();
    assert_eq!(used.len(), 2);
    assert!(show.requirements().implicit_level() && !show.requirements().barrier());
    assert!(!show.may_kill());
}

/// The step "store, kill and return after a discard". Its expressions: 0 a literal, 1 its derivative, 2 and 3 the non-uniform and
/// the uniform global, 4 the length of 3, 5 an access to 2, 6 a local.
#[test]
fn the_release_s_own_test_is_read() {
    let bytes = step("store_kill_return.report");
    let report = Report::read(&bytes).unwrap();
    let function = report.functions().next().unwrap();
    assert_eq!(function.origin(), Some(ExpressionIndex(2)));
    assert!(function.may_kill());
    assert!(function.requirements().derivative() && !function.requirements().cooperative());
    let [changing, fixed] = [0, 1].map(|global| function.uses_of(GlobalIndex(global)).unwrap());
    assert!(changing.is_read() && changing.is_written() && !changing.is_queried());
    assert!(fixed.is_read() && fixed.is_queried() && !fixed.is_written());
    assert_eq!(
        (changing.to_string(), fixed.to_string()),
        ("read, written".into(), "read, queried".into())
    );

    assert_eq!(function.expressions().len(), 7);
    let literal = function.expression(ExpressionIndex(0)).unwrap();
    assert_eq!(
        (literal.origin, literal.references, literal.assignable),
        (None, 3, None)
    );
    let access: ExpressionReport = function.expression(ExpressionIndex(5)).unwrap();
    assert_eq!(access.origin, Some(ExpressionIndex(2)));
    assert_eq!(access.references, 2);
    assert_eq!(access.assignable, Some(GlobalIndex(0)));
    assert_eq!(function.expression(ExpressionIndex(7)), None);
}

/// Every kept module file gets its kept answer; one analyzer for all, so that nothing of a run is seen in the next.
#[test]
fn runs_give_the_kept_answers() {
    let mut analyzer = Analyzer::new();
    let mut answered = [0, 0];
    for entry in fs::read_dir(repository().join("bench/uniform_control_flow")).unwrap() {
        let path = entry.unwrap().path();
        if path.extension() != Some("module".as_ref()) {
            continue;
        }
        match analyzer.analyse(&bytes(&path)) {
            Ok(report) => {
                assert_eq!(report.bytes(), bytes(&path.with_extension("report")));
                answered[0] += 1;
            }
            Err(refusal) => {
                let (cause, value) = match refusal.cause {
                    None => (0, 0),
                    Some(Cause::Expression(expression)) => (1, expression.0),
                    Some(Cause::Return) => (2, 0),
                    Some(Cause::Discard) => (3, 0),
                };
                let told = format!(
                    "{} {} {} {cause} {value}\n",
                    refusal.kind.number(),
                    refusal.function.0,
                    refusal.place
                );
                assert_eq!(told.as_bytes(), bytes(&path.with_extension("refusal")));
                answered[1] += 1;
            }
        }
    }
    assert_eq!(answered, [6, 2]);
}

#[test]
fn the_wall_s_module_gives_its_report() {
    let mut analyzer = Analyzer::default();
    let report = analyzer.analyse(&wall("wall.module")).unwrap();
    assert_eq!(report.bytes(), wall("wall.report"));
}

#[test]
fn a_refusal_is_an_error_that_says_why() {
    let refusal = Analyzer::new()
        .analyse(&step("return_exit.module"))
        .unwrap_err();
    assert_eq!(refusal.kind, RefusalKind::NonUniform);
    assert_eq!(refusal.cause, Some(Cause::Return));
    let error: Box<dyn std::error::Error> = refusal.into();
    let expected = bytes(&repository().join("library/expected/return_exit.txt"));
    assert_eq!(format!("{error}\n").as_bytes(), expected);
}

#[test]
fn what_is_no_report_is_not_read() {
    let good = wall("wall.report");
    let read = |bytes: &[u8]| Report::read(bytes).map(|_| ());
    let changed = |at: usize, byte: u8| {
        let mut bytes = good.clone();
        bytes[at] = byte;
        bytes
    };
    for cut in 0..good.len() {
        assert_eq!(read(&good[..cut]), Err(Malformed::Length));
        // The same with a length field that is right for what is left.
        if let Some(length) = cut.checked_sub(4) {
            let mut bytes = good[..cut].to_vec();
            bytes[..4].copy_from_slice(&(length as u32).to_be_bytes());
            assert!(read(&bytes).is_err(), "cut at {cut}");
        }
    }
    assert_eq!(read(&changed(4, 2)), Err(Malformed::Version));
    // One function less than there are sections, and one more.
    assert_eq!(
        read(&changed(8, 2)),
        Err(Malformed::Section(FunctionIndex(2)))
    );
    assert_eq!(
        read(&changed(8, 4)),
        Err(Malformed::Section(FunctionIndex(3)))
    );
    // The image tag of function 0's mixed pair: behind 9 bytes of header, 10 of the section's and three uses.
    assert_eq!(read(&changed(22, 2)), Err(Malformed::Tag(FunctionIndex(0))));
}
