//! A policy's text with exact rules in the place of those for prefixes. All its other lines stay, comments too.

use super::plan::{Fate, Plan};
use forms::policy::Section;
use forms::policy_text::{show_rule, without_comment, PolicyText};
use std::collections::HashMap;

pub fn retired(text: &str, read: &PolicyText, plan: &Plan) -> String {
    let at_line = |(position, fate)| Some((read.line(Section::Own, position)?, fate));
    let fates: HashMap<usize, &Fate> = plan.fates.iter().enumerate().filter_map(at_line).collect();
    let mut new = String::new();
    for (index, line) in text.split_inclusive('\n').enumerate() {
        new += &match fates.get(&(index + 1)) {
            None | Some(Fate::Stays(_)) => line.to_string(),
            Some(Fate::Vanishes) => without_rule(line),
            Some(Fate::Becomes(first, names)) => {
                let rule = |at: usize| show_rule(&plan.policy, Section::Own, first + at);
                with_rules(line, &(0..names.len()).map(rule).collect::<Vec<_>>())
            }
        };
    }
    new
}

/// What stands around the rule of a line: what it is indented by, its comment with the blanks before it, and the line's end.
fn around(line: &str) -> (&str, &str, &str) {
    let body = line.trim_end_matches(['\n', '\r']);
    let rule = without_comment(body);
    let indent = &rule[..rule.len() - rule.trim_start().len()];
    (indent, &body[rule.trim_end().len()..], &line[body.len()..])
}

/// A comment outlives its rule; a line that had none goes.
fn without_rule(line: &str) -> String {
    let (indent, comment, end) = around(line);
    match comment.trim() {
        "" => String::new(),
        comment => format!("{indent}{comment}{end}"),
    }
}

/// The comment stays behind each of the rules: it may say where they come from.
fn with_rules(line: &str, rules: &[String]) -> String {
    let (indent, comment, end) = around(line);
    let between = if end.is_empty() { "\n" } else { end };
    let lines: Vec<String> = rules.iter().map(|rule| format!("{indent}{rule}{comment}")).collect();
    lines.join(between) + end
}
