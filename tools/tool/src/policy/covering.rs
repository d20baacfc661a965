//! Rules that never decide, because a rule of higher precedence matches whatever they match.
//!
//! Nothing here says what a policy decides: that is asked of the guard.

use forms::names::is_under;
use forms::policy::{
    ConnectRule, Context, NameMatcher, OwnRule, Policy, Section, TransactionRule, Verdict, Who,
};

/// The position of a rule that covers the one at `position`: of several the one of the highest precedence, which nothing
/// covers in its turn.
pub fn covering(policy: &Policy, section: Section, position: usize) -> Option<usize> {
    match section {
        Section::Connect => highest(&policy.connect, position),
        Section::Own => highest(&policy.own, position),
        Section::Transaction => highest(&policy.transaction, position),
    }
}

trait Rule {
    fn context(&self) -> Context;

    /// Whether the rule matches all that the other one matches, as far as it is not about whose question it is.
    fn takes(&self, other: &Self) -> bool;
}

/// Higher contexts go first, and within one context later rules (rule 6.1).
fn highest<R: Rule>(rules: &[R], position: usize) -> Option<usize> {
    let rule = rules.get(position)?;
    let precedence = |at: usize, rule: &R| (rule.context().rank(), at);
    let covers = |at: usize, other: &R| {
        precedence(at, other) > precedence(position, rule)
            && is_about(other.context(), rule.context())
            && other.takes(rule)
    };
    let covering = rules.iter().enumerate().filter(|(at, other)| covers(*at, other));
    covering.map(|(at, other)| precedence(at, other)).max().map(|(_, at)| at)
}

/// Default and mandatory rules are about everybody; others cover only what has their very subject (rule 6.2).
fn is_about(wide: Context, narrow: Context) -> bool {
    matches!(wide, Context::Default | Context::Mandatory) || wide == narrow
}

fn is_any_or_same<T: PartialEq>(wide: &Option<T>, narrow: &Option<T>) -> bool {
    wide.is_none() || wide == narrow
}

impl Rule for ConnectRule {
    fn context(&self) -> Context {
        self.context
    }

    fn takes(&self, other: &ConnectRule) -> bool {
        self.who == Who::Any || self.who == other.who
    }
}

impl Rule for OwnRule {
    fn context(&self) -> Context {
        self.context
    }

    fn takes(&self, other: &OwnRule) -> bool {
        match (&self.name, &other.name) {
            (NameMatcher::Any, _) => true,
            (NameMatcher::Prefix(prefix), NameMatcher::Name(name) | NameMatcher::Prefix(name)) => {
                is_under(name, prefix)
            }
            (wide, narrow) => wide == narrow,
        }
    }
}

impl Rule for TransactionRule {
    fn context(&self) -> Context {
        self.context
    }

    fn takes(&self, other: &TransactionRule) -> bool {
        self.direction == other.direction
            && is_any_or_same(&self.message_type, &other.message_type)
            && is_any_or_same(&self.name, &other.name)
            && is_any_or_same(&self.path, &other.path)
            && is_any_or_same(&self.member, &other.member)
            && takes_interface(self, other)
    }
}

/// A deny that names an interface also takes calls without one, which no allow that names it does (rule 6.8).
fn takes_interface(wide: &TransactionRule, narrow: &TransactionRule) -> bool {
    let takes_bare_calls = |rule: &TransactionRule| rule.verdict == Verdict::Deny;
    match (&wide.interface, &narrow.interface) {
        (None, _) => true,
        (Some(_), None) => false,
        (Some(one), Some(other)) => one == other && (takes_bare_calls(wide) || !takes_bare_calls(narrow)),
    }
}
