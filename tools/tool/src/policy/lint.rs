//! What is wrong with a policy's text, and which of its rules never decide.

use super::covering::covering;
use forms::image;
use forms::policy::Section;
use forms::policy_text::{parse_all, show_rule, PolicyText};

/// Something that was found, and its line; without one it is about the whole text.
#[derive(Clone, Debug, PartialEq, Eq)]
pub struct Finding {
    pub line: Option<usize>,
    pub what: String,
}

#[derive(Clone, Debug, PartialEq, Eq)]
pub struct Linted {
    /// How many rules were read.
    pub rules: usize,
    /// By line; what is about the whole text comes last.
    pub findings: Vec<Finding>,
}

pub fn lint(text: &str) -> Linted {
    let (read, faults) = parse_all(text);
    let mut findings: Vec<Finding> =
        faults.into_iter().map(|fault| Finding { line: Some(fault.line), what: fault.what }).collect();
    findings.extend(too_large(&read));
    for section in Section::ALL {
        findings.extend(never_deciding(&read, section));
    }
    findings.sort_by_key(|finding| finding.line.unwrap_or(usize::MAX));
    let rules = Section::ALL.map(|section| read.policy.count(section)).iter().sum();
    Linted { rules, findings }
}

fn is_too_many(read: &PolicyText, section: Section) -> bool {
    read.policy.count(section) > image::most_rules(section)
}

/// Each section that has too many rules, at the first one too many; else that the image would be too long.
fn too_large(read: &PolicyText) -> Vec<Finding> {
    let beyond = |section| {
        let most = image::most_rules(section);
        let what = format!("more than {most} {} rules", section.word());
        Finding { line: read.line(section, most), what }
    };
    let found: Vec<Finding> =
        Section::ALL.into_iter().filter(|section| is_too_many(read, *section)).map(beyond).collect();
    match image::write(&read.policy) {
        Err(what) if found.is_empty() => vec![Finding { line: None, what }],
        _ => found,
    }
}

/// Every rule is held to every other, so a section that is too long is left alone.
fn never_deciding(read: &PolicyText, section: Section) -> Vec<Finding> {
    if is_too_many(read, section) {
        return Vec::new();
    }
    let told = |position| {
        let by = covering(&read.policy, section, position)?;
        let line = read.line(section, by)?;
        let rule = show_rule(&read.policy, section, by);
        let what = format!("never decides: line {line} covers it: {rule}");
        Some(Finding { line: read.line(section, position), what })
    };
    (0..read.policy.count(section)).filter_map(told).collect()
}
