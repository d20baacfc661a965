//! Rules at places where a wrong position would show, policies that leave gaps, and messages that
//! a rule matches by one of several names.

use super::random::Random;
use super::{messages, vocabulary};
use crate::guard::{Guard, Peer};
use crate::header::{METHOD_CALL, SIGNAL};
use crate::image::{MAX_CONNECT, MAX_OWN, MAX_TRANSACTION};
use crate::message::Message;
use crate::names::unique_name_of;
use crate::policy::{
    ConnectRule, Context, Direction, NameMatcher, OwnRule, Policy, TransactionRule, Uid, Verdict, Who,
};

/// A user that no peer is of.
pub const NOBODY: Uid = Uid(77);

/// A policy that allows some peers, names or messages, and has no rule about the others.
pub fn half_open(random: &mut Random) -> Policy {
    let (context, verdict) = (Context::Default, Verdict::Allow);
    let mut policy = super::policies::open();
    if random.chance(40) {
        let mut ids = vocabulary::IDS;
        random.shuffle(&mut ids);
        let connect = |id: &u32| ConnectRule { context, verdict, who: Who::Uid(Uid(*id)) };
        policy.connect = ids[..4].iter().map(connect).collect();
    }
    if random.chance(50) {
        let name = NameMatcher::Prefix(random.pick(&["org.foo", "org.a.x", "org.foo.bar"]).to_string());
        policy.own = vec![OwnRule { context, verdict, name }];
    }
    // What send has no rule for never comes to receive, so only one of them leaves a gap.
    let gap = if random.chance(75) { Direction::Receive } else { Direction::Send };
    for rule in policy.transaction.iter_mut().filter(|rule| rule.direction == gap) {
        // Talks are made of calls to path / and member M, and some of them are to go on.
        match random.below(3) {
            0 => rule.message_type = Some(METHOD_CALL),
            1 => rule.member = Some("M".to_string()),
            _ => rule.path = Some("/".to_string()),
        }
    }
    policy
}

/// Moves the rules of a policy to places where a wrong count shows.
pub fn rearrange(random: &mut Random, policy: &mut Policy) {
    if random.chance(40) && policy.transaction.len() >= 2 {
        policy.transaction.swap(0, 1);
    }
    match random.below(100) {
        0..=9 => {
            turn(random, policy);
            pad(policy);
        }
        10..=13 => turn(random, policy),
        _ => {}
    }
}

/// The rule that comes first, and mostly allows everything, may become the last.
fn turn(random: &mut Random, policy: &mut Policy) {
    if random.chance(50) && !policy.connect.is_empty() {
        policy.connect.rotate_left(1);
    }
    if random.chance(50) && !policy.own.is_empty() {
        policy.own.rotate_left(1);
    }
    if random.chance(50) && !policy.transaction.is_empty() {
        policy.transaction.rotate_left(1);
    }
}

/// Fills each section from the front with rules about nobody, up to the limit.
pub fn pad(policy: &mut Policy) {
    let (context, verdict) = (Context::User(NOBODY), Verdict::Deny);
    let connect = ConnectRule { context: Context::Default, verdict, who: Who::Uid(NOBODY) };
    policy.connect.splice(0..0, vec![connect; MAX_CONNECT - policy.connect.len()]);
    let own = OwnRule { context, verdict, name: NameMatcher::Any };
    policy.own.splice(0..0, vec![own; MAX_OWN - policy.own.len()]);
    let transaction = |place: usize| TransactionRule {
        context,
        verdict,
        direction: if place.is_multiple_of(3) { Direction::Send } else { Direction::Receive },
        message_type: None,
        name: None,
        path: None,
        interface: None,
        member: None,
    };
    let missing = MAX_TRANSACTION - policy.transaction.len();
    policy.transaction.splice(0..0, (0..missing).map(transaction));
}

/// A call or signal for a rule whose name is owned, but is not the first of its owner's names;
/// none where there is no such rule.
pub fn message(random: &mut Random, guard: &Guard, policy: &Policy, sender: u32) -> Option<Message> {
    let sender = guard.peer(sender)?;
    let named = policy.transaction.iter().filter_map(|rule| Some((rule, rule.name.as_ref()?)));
    let to_each = |(rule, name)| receivers(guard, sender, rule, name).map(move |to| (rule, to));
    let fitting: Vec<(&TransactionRule, u32)> = named.flat_map(to_each).collect();
    if fitting.is_empty() {
        return None;
    }
    let (rule, to) = random.pick(&fitting);
    let path = rule.path.clone().unwrap_or_else(|| vocabulary::path(random));
    let member = rule.member.clone().unwrap_or_else(|| vocabulary::member(random));
    let message_type = rule.message_type.unwrap_or_else(|| random.pick(&[METHOD_CALL, METHOD_CALL, SIGNAL]));
    let serial = messages::serial(random);
    let message = match (message_type, rule.interface.clone()) {
        (METHOD_CALL, None) => Message::call(serial, &path, &member),
        (METHOD_CALL, Some(interface)) => Message::call(serial, &path, &member).interface(&interface),
        (_, interface) => {
            let interface = interface.unwrap_or_else(|| vocabulary::interface(random));
            Message::signal(serial, &path, &interface, &member)
        }
    };
    Some(message.to(&unique_name_of(to)))
}

/// Whom a message must go to, so that the rule is about it by a later name of the other side.
fn receivers<'a>(
    guard: &'a Guard,
    sender: &'a Peer,
    rule: &'a TransactionRule,
    name: &'a String,
) -> impl Iterator<Item = u32> + 'a {
    let holds_it_later = move |peer: &Peer| peer.names.iter().skip(1).any(|held| held == name);
    let is_fit = move |receiver: &&Peer| match rule.direction {
        Direction::Send => holds_it_later(receiver) && rule.context.fits(sender.credentials()),
        Direction::Receive => holds_it_later(sender) && rule.context.fits(receiver.credentials()),
    };
    guard.peers().filter(is_fit).map(|peer| peer.number)
}
