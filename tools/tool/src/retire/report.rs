//! What a conversion did, for the person who asked for it.

use super::names::Listed;
use super::outcome::{Asked, Outcome};
use super::plan::{is_covered, Fate, Plan};
use forms::policy::{NameMatcher, OwnRule, Policy, Section, Verdict};
use forms::policy_text::show_rule;

/// Each own rule with what became of it, then the names, then the numbers.
pub fn lines(asked: &Asked, done: &Outcome) -> Vec<String> {
    let mut lines = Vec::new();
    for (position, fate) in done.plan.fates.iter().enumerate() {
        let rule = show_rule(done.policy, Section::Own, position);
        lines.push(format!("{}: {rule}", asked.old.place(position)));
        lines.extend(fate_lines(&done.plan, fate));
        lines.extend(opened(&done.policy.own[position]));
    }
    lines.extend(name_lines(asked, done.policy));
    lines.push(count_words(asked, done));
    lines
}

/// A text's image is made anew when it is compiled, so its length is not told.
fn count_words(asked: &Asked, done: &Outcome) -> String {
    let (before, now) = (done.policy.own.len(), done.plan.policy.own.len());
    let rules = format!("own rules: {before} before, {now} now");
    match asked.old.text {
        Some(_) => rules,
        None => format!("{rules}; bytes: {} before, {} now", asked.old.image.len(), done.image_length),
    }
}

fn fate_lines(plan: &Plan, fate: &Fate) -> Vec<String> {
    let exact = |position: usize| {
        let rule = show_rule(&plan.policy, Section::Own, position);
        format!("  becomes own rule {position}: {rule}")
    };
    match fate {
        Fate::Stays(position) => vec![format!("  stays, as own rule {position}")],
        Fate::Becomes(first, names) => (*first..first + names.len()).map(exact).collect(),
        Fate::Vanishes => vec!["  vanishes: it covers none of the names".to_string()],
    }
}

/// A deny that reaches fewer names than before lets other rules decide about the rest, which is easily missed.
fn opened(rule: &OwnRule) -> Option<String> {
    match (&rule.name, rule.verdict) {
        (NameMatcher::Prefix(prefix), Verdict::Deny) => {
            Some(format!("  names under {prefix} that are not listed are no longer denied by it"))
        }
        _ => None,
    }
}

/// The names that were added, and each that no prefix covers with its line: one that was mistyped is among these.
fn name_lines(asked: &Asked, policy: &Policy) -> Vec<String> {
    let (added, uncovered): (Vec<&Listed>, Vec<&Listed>) =
        asked.list.iter().partition(|listed| is_covered(policy, &listed.name));
    let names: Vec<&str> = added.iter().map(|listed| listed.name.as_str()).collect();
    let mut lines = vec![match names.is_empty() {
        true => "no names were added".to_string(),
        false => format!("names added: {}", names.join(" ")),
    }];
    for Listed { line, name } in uncovered {
        let is_exact = |rule: &OwnRule| rule.name == NameMatcher::Name(name.clone());
        let exact = policy.own.iter().any(is_exact);
        let but = if exact { "; a rule of its own stays" } else { "" };
        lines.push(format!("{}:{line}: not added: no prefix covers {name}{but}", asked.list_path));
    }
    lines
}
