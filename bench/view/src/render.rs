//! The operator's view (docs/VIEW.md), from the reference's reading of a report.

use reference::report::{ExpressionRecord, MixedPair, Report, Section};

use crate::judge::{judge, Fault};

/// The text for any input.
pub fn text(input: &[u8], expressions: bool) -> String {
    if input.starts_with(b"refused ") {
        return refusal(input);
    }
    match judge(input) {
        Err(fault) => format!("not a report: {fault}\n"),
        Ok(()) => report(input, expressions),
    }
}

/// Why an input has no view, if it hasn't.
pub fn fault(input: &[u8]) -> Option<Fault> {
    judge(input).err()
}

fn refusal(input: &[u8]) -> String {
    let line = input.split(|&byte| byte == b'\n').next().unwrap_or(input);
    let visible = |&byte: &u8| match byte {
        b' '..=b'~' => char::from(byte),
        _ => '?',
    };
    let mut text: String = "no report: "
        .chars()
        .chain(line.iter().map(visible))
        .collect();
    text.truncate(160);
    text + "\n"
}

fn report(bytes: &[u8], expressions: bool) -> String {
    let report = Report::read(bytes).expect("judged to be a report");
    let mut text = format!(
        "{:13}{} functions, {} globals, {} bytes\n",
        "report",
        report.functions(),
        report.globals(),
        bytes.len()
    );
    for (number, section) in report.sections().iter().enumerate() {
        text.push('\n');
        for (about, says) in facts(section, expressions) {
            let function = format!("function {number}");
            text += &format!("{function:13}{about:17}{says}\n");
        }
    }
    text
}

/// What a section says: what each fact is about, and the fact.
fn facts(section: &Section, expressions: bool) -> Vec<(String, String)> {
    let records = section.expressions();
    let mut facts = Vec::new();
    let mut say = |about: &str, says: String| facts.push((about.to_owned(), says));
    say(
        "origin",
        section
            .origin()
            .map_or("none".into(), |e| format!("expression {e}")),
    );
    say("requires", requirements(section.requirements()));
    let may_kill = section.may_kill() == 1;
    say("may kill", if may_kill { "yes" } else { "no" }.into());
    for says in or_none(uses(section)) {
        say("use", says);
    }
    for says in or_none(pairs(section)) {
        say("pair", says);
    }
    for says in or_none(section.mixed().iter().map(mixed).collect()) {
        say("mixed", says);
    }
    say("expressions", records.len().to_string());
    if expressions {
        for (number, record) in records.iter().enumerate() {
            say(&format!("expression {number}"), expression(record));
        }
    }
    facts
}

fn or_none(list: Vec<String>) -> Vec<String> {
    if list.is_empty() {
        return vec!["none".into()];
    }
    list
}

fn uses(section: &Section) -> Vec<String> {
    let named = |(number, &mask): (usize, &u8)| {
        let words = bits(mask, ["read", "write", "query", "atomic"]);
        format!("{:20}{words}", format!("global {number}"))
    };
    let used = section.uses().iter().enumerate();
    used.filter(|(_, &mask)| mask != 0).map(named).collect()
}

fn pairs(section: &Section) -> Vec<String> {
    let pair = |p: &reference::report::Pair| ends(("global", p.image), ("global", p.sampler));
    section.pairs().iter().map(pair).collect()
}

fn mixed(pair: &MixedPair) -> String {
    let kind = |tag| if tag == 0 { "global" } else { "argument" };
    ends(
        (kind(pair.image_tag), pair.image),
        (kind(pair.sampler_tag), pair.sampler),
    )
}

fn ends(image: (&str, u16), sampler: (&str, u16)) -> String {
    let image = format!("image {} {}", image.0, image.1);
    format!("{image:20}sampler {} {}", sampler.0, sampler.1)
}

fn expression(record: &ExpressionRecord) -> String {
    let number = |n: Option<u16>| n.map_or("none".into(), |n| n.to_string());
    let count = format!("count {}", record.references);
    let origin = format!("origin {}", number(record.origin));
    let global = format!("global {}", number(record.assignable));
    let requires = requirements(record.requirements);
    format!("{count:18}{origin:13}{global:13}requires {requires}")
}

fn requirements(mask: u8) -> String {
    match mask {
        0 => "nothing".into(),
        _ => bits(
            mask,
            ["barrier", "derivative", "implicit level", "cooperative"],
        ),
    }
}

/// The names of a mask's bits, lowest first.
fn bits(mask: u8, names: [&str; 4]) -> String {
    let set = (0..4).filter(|bit| mask >> bit & 1 == 1);
    let named: Vec<&str> = set.map(|bit| names[bit]).collect();
    named.join(", ")
}
