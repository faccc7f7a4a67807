//! How long the analyzer and the release take on the same modules, in one process.
//!
//! - ours: one call as a user makes it, lent exactly the published sizes, clearing included;
//! - clearing: the same bytes cleared in the library's own way and nothing else (`Lent::clear_behind`);
//! - the release: `Validator::validate` with no flags (for refused modules, with those that they are refused under), on a
//!   validator that is used again, so that its tables are allocated only once; dropping its answer included;
//! - the floor: the module's bytes read once, and the lent report filled with zeros.
//!
//! No public way leads to the release's analyzer alone: with no flags, handles, types and global variables are still checked
//! (`bench/release` has the list).
//!
//! Each figure is the best of many tries. The sides take turns, and the tries of a module are spread over the whole run, so
//! that other work on the machine meets all of them alike.

use std::hint::black_box;
use std::path::Path;
use std::time::{Duration, Instant};

use naga::valid::Validator;

use crate::analyzer::Lent;
use crate::corpus::{self, Counts, Group, Sample, Wanted, APART};

/// How many modules are timed, and for how long each group of them.
struct Plan {
    wanted: Wanted,
    seconds_each_group: f64,
}

const QUICK: Plan = Plan {
    wanted: Wanted {
        small: 40,
        middling: 20,
        large: 4,
        refused: 60,
    },
    seconds_each_group: 1.0,
};

const WHOLE: Plan = Plan {
    wanted: Wanted {
        small: 200,
        middling: 100,
        large: 20,
        refused: 300,
    },
    seconds_each_group: 20.0,
};

/// Long enough that reading the clock is nothing to it.
const TRY: Duration = Duration::from_micros(20);

const LENT_REPORT: usize = 65_536;

/// Nanoseconds for one module.
#[derive(Clone, Copy)]
struct Times {
    ours: f64,
    clearing: f64,
    release: f64,
    floor: f64,
}

impl Times {
    const NONE: Times = Times {
        ours: f64::INFINITY,
        clearing: f64::INFINITY,
        release: f64::INFINITY,
        floor: f64::INFINITY,
    };

    fn without_clearing(self) -> f64 {
        self.ours - self.clearing
    }

    fn plus(self, other: Times) -> Times {
        Times {
            ours: self.ours + other.ours,
            clearing: self.clearing + other.clearing,
            release: self.release + other.release,
            floor: self.floor + other.floor,
        }
    }
}

/// A group with its times, module by module.
struct Timed {
    group: Group,
    times: Vec<Times>,
    rounds: usize,
    /// Nanoseconds of ours and of the release for the whole group, when its modules come one after the other.
    in_turn: (f64, f64),
}

pub fn print(shaders: Option<&Path>, quick: bool) -> Result<(), String> {
    compare::keep_naga_quiet();
    let plan = if quick { QUICK } else { WHOLE };
    let mut groups = corpus::generated(plan.wanted);
    if let Some(folder) = shaders {
        let (group, files) = corpus::real(folder)?;
        println!(
            "real shaders: {} of {files} files are accepted by both",
            group.samples.len()
        );
        groups.insert(0, group);
    }
    groups.retain(|group| !group.samples.is_empty());
    let time = |group| Timed::new(group, plan.seconds_each_group);
    let accepted: Vec<Timed> = groups.into_iter().map(time).collect();
    let apart = [
        time(corpus::pairs_through_calls()),
        time(corpus::refused(plan.wanted)),
    ];
    let all: Vec<&Timed> = accepted.iter().chain(&apart).collect();

    print_contents(&all);
    print_times(&all);
    print_each(&all);
    print_ratios(&all);
    print_summary(&accepted);
    Ok(())
}

impl Timed {
    fn new(group: Group, seconds: f64) -> Self {
        let mut lent = Lent::exact();
        let mut floor = vec![0; LENT_REPORT];
        let validator = |sample: &Sample| release::validator(sample.settings);
        let mut validators: Vec<Validator> = group.samples.iter().map(validator).collect();
        let mut times = vec![Times::NONE; group.samples.len()];
        let begun = Instant::now();
        let mut rounds = 0;
        while rounds < 5 || begun.elapsed().as_secs_f64() < seconds {
            for ((sample, validator), best) in
                group.samples.iter().zip(&mut validators).zip(&mut times)
            {
                try_all(sample, validator, &mut lent, &mut floor, best);
            }
            rounds += 1;
        }
        let in_turn = in_turn(&group.samples, &mut validators, &mut lent, rounds);
        Timed {
            group,
            times,
            rounds,
            in_turn,
        }
    }

    fn counts(&self) -> Counts {
        let counts = self.group.samples.iter().map(|sample| sample.counts);
        counts.fold(Counts::default(), Counts::plus)
    }

    fn sum(&self) -> Times {
        let zero = Times {
            ours: 0.0,
            clearing: 0.0,
            release: 0.0,
            floor: 0.0,
        };
        self.times.iter().copied().fold(zero, Times::plus)
    }

    /// Nanoseconds of our side for each reference, clearing taken off.
    fn a_reference(&self) -> f64 {
        self.sum().without_clearing() / self.counts().references as f64
    }

    /// The same, when the modules come one after the other.
    fn a_reference_in_turn(&self) -> f64 {
        (self.in_turn.0 - self.sum().clearing) / self.counts().references as f64
    }
}

/// One try of each side; each keeps its best.
fn try_all(
    sample: &Sample,
    validator: &mut Validator,
    lent: &mut Lent,
    floor: &mut [u8],
    best: &mut Times,
) {
    let file = &sample.file[..];
    let kept = sample.report.unwrap_or(0);
    best.ours = best.ours.min(one_try(|| {
        black_box(lent.run(black_box(file)));
    }));
    best.release = best.release.min(one_try(|| {
        drop(black_box(validator.validate(black_box(&sample.module))));
    }));
    best.clearing = best.clearing.min(one_try(|| {
        black_box(lent.clear_behind(black_box(kept)));
    }));
    best.floor = best.floor.min(one_try(|| {
        let read: u64 = black_box(file).iter().map(|&byte| u64::from(byte)).sum();
        black_box(read);
        floor.fill(0);
        black_box(&mut *floor);
    }));
}

/// Nanoseconds of ours and of the release over all samples, each once; the best of so many rounds.
fn in_turn(
    samples: &[Sample],
    validators: &mut [Validator],
    lent: &mut Lent,
    rounds: usize,
) -> (f64, f64) {
    let mut best = (f64::INFINITY, f64::INFINITY);
    for _ in 0..rounds {
        let ours = once(|| {
            for sample in samples {
                black_box(lent.run(black_box(&sample.file)));
            }
        });
        let release = once(|| {
            for (sample, validator) in samples.iter().zip(&mut *validators) {
                drop(black_box(validator.validate(black_box(&sample.module))));
            }
        });
        best = (best.0.min(ours), best.1.min(release));
    }
    best
}

/// Nanoseconds that this takes.
fn once(run: impl FnOnce()) -> f64 {
    let begun = Instant::now();
    run();
    begun.elapsed().as_nanos() as f64
}

/// Nanoseconds of one run, over as many as make up the time of a try. The first runs bring the side's data near.
fn one_try(mut run: impl FnMut()) -> f64 {
    run();
    let mut runs = 0u32;
    let begun = Instant::now();
    loop {
        run();
        runs += 1;
        // Reading the clock takes some 20 ns: it is read after 1, 2, 4, 8 .. runs.
        if runs.is_power_of_two() && begun.elapsed() >= TRY {
            return begun.elapsed().as_nanos() as f64 / f64::from(runs);
        }
    }
}

fn print_contents(all: &[&Timed]) {
    println!(
        "\nwhat is in the modules, all of a group together, and how many tries the best is of"
    );
    println!(
        "{:18}{:>9}{:>11}{:>13}{:>12}{:>12}{:>11}{:>8}",
        "group",
        "modules",
        "functions",
        "expressions",
        "references",
        "statements",
        "bytes",
        "tries"
    );
    for timed in all {
        let counts = timed.counts();
        println!(
            "{:18}{:>9}{:>11}{:>13}{:>12}{:>12}{:>11}{:>8}",
            timed.group.name,
            timed.times.len(),
            counts.functions,
            counts.expressions,
            counts.references,
            counts.statements,
            counts.bytes,
            timed.rounds
        );
    }
}

fn print_times(all: &[&Timed]) {
    println!("\nnanoseconds a module, the mean of the group");
    println!(
        "{:18}{:>12}{:>12}{:>18}{:>12}{:>12}",
        "group", "ours", "clearing", "without clearing", "release", "floor"
    );
    for timed in all {
        let sum = timed.sum();
        let modules = timed.times.len() as f64;
        println!(
            "{:18}{:>12.0}{:>12.0}{:>18.0}{:>12.0}{:>12.0}",
            timed.group.name,
            sum.ours / modules,
            sum.clearing / modules,
            sum.without_clearing() / modules,
            sum.release / modules,
            sum.floor / modules
        );
    }
}

fn print_each(all: &[&Timed]) {
    println!("\nnanoseconds for each expression and for each reference; ours without clearing, ours with it, the release");
    println!(
        "{:18}{:>12}{:>12}{:>12}   {:>12}{:>12}{:>12}",
        "group", "expression", "with", "release", "reference", "with", "release"
    );
    for timed in all {
        let (sum, counts) = (timed.sum(), timed.counts());
        let expressions = counts.expressions as f64;
        let references = counts.references as f64;
        println!(
            "{:18}{:>12.2}{:>12.2}{:>12.2}   {:>12.2}{:>12.2}{:>12.2}",
            timed.group.name,
            sum.without_clearing() / expressions,
            sum.ours / expressions,
            sum.release / expressions,
            timed.a_reference(),
            sum.ours / references,
            sum.release / references
        );
    }
}

fn print_ratios(all: &[&Timed]) {
    println!("\nthe release's time divided by ours, clearing taken off and with it: sums, geometric mean over the modules, smallest");
    println!("(in turn: sums with clearing, when the modules come one after the other and not the same again and again)");
    println!(
        "{:18}{:>10}{:>10}{:>10}   {:>10}{:>10}{:>10}{:>12}",
        "group", "off: sums", "mean", "smallest", "with: sums", "mean", "smallest", "in turn"
    );
    for timed in all {
        let off = ratios(&timed.times, Times::without_clearing);
        let with = ratios(&timed.times, |times| times.ours);
        let sum = timed.sum();
        println!(
            "{:18}{:>10.2}{:>10.2}{:>10.2}   {:>10.2}{:>10.2}{:>10.2}{:>12.2}",
            timed.group.name,
            sum.release / sum.without_clearing(),
            geometric_mean(&off),
            smallest(&off),
            sum.release / sum.ours,
            geometric_mean(&with),
            smallest(&with),
            timed.in_turn.1 / timed.in_turn.0
        );
    }
}

fn print_summary(accepted: &[Timed]) {
    let all: Vec<(&Sample, Times)> = accepted
        .iter()
        .flat_map(|timed| timed.group.samples.iter().zip(timed.times.iter().copied()))
        .collect();
    let times: Vec<Times> = all.iter().map(|(_, times)| *times).collect();
    println!(
        "\nover all accepted modules but those of `{APART}`, the release's time divided by ours"
    );
    println!(
        "  geometric mean, clearing taken off: {:.2}",
        geometric_mean(&ratios(&times, Times::without_clearing))
    );
    println!(
        "  geometric mean, clearing included:  {:.2}",
        geometric_mean(&ratios(&times, |times| times.ours))
    );
    print_smallest(&all, 50);
    print_smallest(&all, 0);
    print_growth(
        accepted,
        "the same module again and again",
        Timed::a_reference,
    );
    print_growth(
        accepted,
        "one module after the other",
        Timed::a_reference_in_turn,
    );
}

/// How much more time a reference takes in the largest files than in middling ones.
fn print_growth(accepted: &[Timed], how: &str, a_reference: fn(&Timed) -> f64) {
    println!(
        "for each reference counted, clearing taken off: large files against middling ones, {how}"
    );
    for kind in ["WGSL", "modules"] {
        let of = |size: &str| {
            let name = format!("{kind} {size}");
            accepted
                .iter()
                .find(|timed| timed.group.name == name)
                .map_or(f64::NAN, a_reference)
        };
        println!(
            "  {kind:8} {:6.2} ns against {:6.2} ns: {:.2} times",
            of("large"),
            of("middling"),
            of("large") / of("middling")
        );
    }
}

/// The module on which ours does worst, among those of so many expressions or more.
fn print_smallest(all: &[(&Sample, Times)], expressions: usize) {
    let ratio = |times: Times| times.release / times.ours;
    let some = all
        .iter()
        .filter(|(sample, _)| sample.counts.expressions >= expressions);
    let Some((sample, times)) = some.min_by(|a, b| ratio(a.1).total_cmp(&ratio(b.1))) else {
        return;
    };
    println!(
        "  smallest with {expressions} expressions or more, clearing included: {:.2}",
        ratio(*times)
    );
    println!(
        "    {}: {} expressions, {} references, {} functions; ours {:.0} ns, clearing {:.0} of them, release {:.0} ns",
        sample.origin,
        sample.counts.expressions,
        sample.counts.references,
        sample.counts.functions,
        times.ours,
        times.clearing,
        times.release
    );
}

fn ratios(times: &[Times], ours: impl Fn(Times) -> f64) -> Vec<f64> {
    times
        .iter()
        .map(|&times| times.release / ours(times))
        .collect()
}

fn geometric_mean(ratios: &[f64]) -> f64 {
    let logarithms: f64 = ratios.iter().map(|ratio| ratio.ln()).sum();
    (logarithms / ratios.len() as f64).exp()
}

fn smallest(ratios: &[f64]) -> f64 {
    ratios.iter().copied().fold(f64::INFINITY, f64::min)
}
