//! Rules that never decide, held to the guard: it is asked every question of a small vocabulary, and the rules that it shows
//! are those that can decide.

mod numbers;

use forms::message::{self, Message};
use forms::policy::{Gid, Policy, Section, Uid};
use forms::{image, policy_text};
use numbers::Numbers;
use std::collections::BTreeSet;
use tool::guard::{Guard, Place, BY_RULE};
use tool::policy::covering::covering;

fn policy_of(text: &str) -> Policy {
    policy_text::parse(text).expect("good text").policy
}

fn image_of(policy: &Policy) -> Vec<u8> {
    image::write(policy).expect("it has an image")
}

const OPEN: &str = "connect default allow any
    own default allow any
    transaction default allow send any
    transaction default allow receive any";

/// Accounts of which each has something that another one lacks.
const ACCOUNTS: [(u32, &[u32]); 5] = [(7, &[]), (8, &[]), (9, &[5]), (9, &[6]), (9, &[])];

fn enter(guard: &mut Guard, (uid, gids): (u32, &[u32]), names: &[&str]) -> u32 {
    let open = image_of(&policy_of(OPEN));
    let gids: Vec<Gid> = gids.iter().map(|&gid| Gid(gid)).collect();
    let peer = guard.connect(&open, Uid(uid), &gids).value;
    for name in names {
        assert_eq!(guard.own(&open, peer, name.as_bytes()).answer, 0);
    }
    peer
}

/// Two peers, and every message of a small vocabulary from the first to the second. No reply is expected, so that a message
/// leaves nothing behind.
struct Scene {
    guard: Guard,
    sender: u32,
    messages: Vec<Vec<u8>>,
}

fn messages(to: &str) -> Vec<Vec<u8>> {
    let mut all = Vec::new();
    let interfaces = [Some("a.b"), Some("a.c"), None];
    for (kind, count) in [(message::METHOD_CALL, 3), (message::SIGNAL, 2)] {
        for (index, interface) in interfaces.iter().take(count).cycle().take(4 * count).enumerate() {
            let (path, member) = [("/a", "M"), ("/b", "M"), ("/a", "N"), ("/b", "N")][index / count];
            let mut made = Message::new(kind, 1).text(message::PATH, path).text(message::MEMBER, member);
            made = interface.map_or(made.clone(), |interface| made.text(message::INTERFACE, interface));
            all.push(Message { flags: 1, ..made.text(message::DESTINATION, to) }.bytes());
        }
    }
    all
}

/// With each account as the receiver, and senders that own one, another or no name.
fn peer_scenes() -> Vec<Scene> {
    let mut scenes = Vec::new();
    for account in ACCOUNTS {
        for names in [&[][..], &["org.b"], &["org.b", "org.a"]] {
            let mut guard = Guard::new();
            let sender = enter(&mut guard, (1, &[]), names);
            let receiver = enter(&mut guard, account, &[]);
            scenes.push(Scene { guard, sender, messages: messages(&format!(":1.{receiver}")) });
        }
    }
    scenes
}

/// With each account as the sender, and the bus, whose answers show the send rule.
fn bus_scenes() -> Vec<Scene> {
    let scene = |account| {
        let mut guard = Guard::new();
        let sender = enter(&mut guard, account, &[]);
        Scene { guard, sender, messages: messages("org.freedesktop.DBus") }
    };
    ACCOUNTS.into_iter().map(scene).collect()
}

fn shown(place: Place) -> Option<usize> {
    (place.decider == BY_RULE).then_some(place.position as usize)
}

/// Every transaction rule that the guard shows.
fn transaction_deciders(policy: &Policy, scenes: &mut [Scene]) -> BTreeSet<usize> {
    let image = image_of(policy);
    let mut deciders = BTreeSet::new();
    for scene in scenes {
        deciders.extend(
            scene.messages.iter().filter_map(|bytes| shown(scene.guard.piece(&image, scene.sender, bytes))),
        );
    }
    deciders
}

fn connect_deciders(policy: &Policy) -> BTreeSet<usize> {
    let image = image_of(policy);
    let gids: [&[Gid]; 4] = [&[], &[Gid(5)], &[Gid(7)], &[Gid(5), Gid(7)]];
    let asked = (7..=9).flat_map(|uid| gids.map(|gids| Guard::new().connect(&image, Uid(uid), gids)));
    asked.filter_map(shown).collect()
}

fn own_deciders(policy: &Policy, guards: &[Guard]) -> BTreeSet<usize> {
    let image = image_of(policy);
    let names = ["a.b", "a.b.c", "a.b.c.d", "a.bc", "x.y"];
    let ask = |guard: &Guard| names.map(|name| guard.clone().own(&image, 1, name.as_bytes()));
    guards.iter().flat_map(ask).filter_map(shown).collect()
}

/// Of two rules alone, one never decides exactly where the other one covers it.
fn held(policy: &Policy, section: Section, deciders: &BTreeSet<usize>, positions: [usize; 2]) {
    for position in positions {
        let text = policy_text::show(policy);
        assert_eq!(
            covering(policy, section, position).is_none(),
            deciders.contains(&position),
            "{position} of\n{text}"
        );
    }
}

#[test]
fn pairs_of_connect_rules() {
    let mut rules = Vec::new();
    for context in ["default", "mandatory"] {
        for who in ["any", "uid 7", "uid 8", "gid 7", "gid 5"] {
            rules.extend([format!("connect {context} allow {who}"), format!("connect {context} deny {who}")]);
        }
    }
    for first in &rules {
        for second in &rules {
            let policy = policy_of(&format!("{first}\n{second}"));
            held(&policy, Section::Connect, &connect_deciders(&policy), [0, 1]);
        }
    }
}

const CONTEXTS: [&str; 6] = ["default", "group 5", "group 6", "user 7", "user 8", "mandatory"];

#[test]
fn pairs_of_own_rules() {
    let guards = ACCOUNTS.map(|account| {
        let mut guard = Guard::new();
        enter(&mut guard, account, &[]);
        guard
    });
    let matchers = ["any", "name a.b", "name a.b.c", "name a.bc", "prefix a.b", "prefix a.b.c"];
    let rules: Vec<String> = CONTEXTS
        .iter()
        .flat_map(|context| matchers.map(|matcher| format!("{context} allow {matcher}")))
        .collect();
    for first in &rules {
        for second in &rules {
            let policy = policy_of(&format!("own {first}\nown {second}"));
            held(&policy, Section::Own, &own_deciders(&policy, &guards), [0, 1]);
        }
    }
}

/// The parts of a transaction rule, each with what it may be; the direction is put between verdict and type.
const PARTS: [&[&str]; 7] = [
    &CONTEXTS,
    &["allow", "deny"],
    &["any", "call", "signal"],
    &["", " name=org.a"],
    &["", " path=/a"],
    &["", " interface=a.b"],
    &["", " member=M"],
];

type Choice = [usize; 7];

fn rule_of(choice: Choice, direction: &str) -> String {
    let part = |at: usize| PARTS[at][choice[at]];
    let literals: String = (3..7).map(part).collect();
    format!("transaction {} {} {direction} {}{literals}", part(0), part(1), part(2))
}

/// A rule, and one that differs from it in a few parts.
fn near(numbers: &mut Numbers) -> [Choice; 2] {
    let first: Choice = std::array::from_fn(|at| numbers.below(PARTS[at].len()));
    let second = std::array::from_fn(|at| match numbers.below(3) {
        0 => numbers.below(PARTS[at].len()),
        _ => first[at],
    });
    [first, second]
}

/// A deny of signals of one interface is left alone by an allow of the same: that signals have an interface is not looked at.
fn is_left_alone([first, second]: [Choice; 2]) -> bool {
    let deny_signals = |choice: Choice| choice[1] == 1 && choice[2] == 2 && choice[5] == 1;
    let allow = |choice: Choice| choice[1] == 0 && choice[5] == 1;
    (deny_signals(first) && allow(second)) || (allow(first) && deny_signals(second))
}

#[test]
fn pairs_of_receive_rules() {
    let (mut numbers, mut scenes, mut covered) = (Numbers(7), peer_scenes(), 0);
    for _ in 0..3000 {
        let pair = near(&mut numbers);
        if is_left_alone(pair) {
            continue;
        }
        let [first, second] = pair.map(|choice| rule_of(choice, "receive"));
        let policy = policy_of(&format!("transaction mandatory allow send any\n{first}\n{second}"));
        held(&policy, Section::Transaction, &transaction_deciders(&policy, &mut scenes), [1, 2]);
        covered +=
            usize::from((1..3).any(|position| covering(&policy, Section::Transaction, position).is_some()));
    }
    assert!(covered > 500, "{covered}");
}

/// The bus owns one name, so the rules here name none.
#[test]
fn pairs_of_send_rules() {
    let (mut numbers, mut scenes, mut covered) = (Numbers(8), bus_scenes(), 0);
    for _ in 0..3000 {
        let pair = near(&mut numbers).map(|mut choice| {
            choice[3] = 0;
            choice
        });
        if is_left_alone(pair) {
            continue;
        }
        let [first, second] = pair.map(|choice| rule_of(choice, "send"));
        let policy = policy_of(&format!("{first}\n{second}"));
        held(&policy, Section::Transaction, &transaction_deciders(&policy, &mut scenes), [0, 1]);
        covered +=
            usize::from((0..2).any(|position| covering(&policy, Section::Transaction, position).is_some()));
    }
    assert!(covered > 500, "{covered}");
}

/// Among many rules one that is told never decides, and the one that is told to cover it is not told itself.
#[test]
fn rules_among_many() {
    let (mut numbers, mut told) = (Numbers(9), 0);
    let mut scenes: Vec<Scene> = peer_scenes().into_iter().chain(bus_scenes()).collect();
    for _ in 0..500 {
        let rules: Vec<String> =
            (0..8).map(|_| rule_of(near(&mut numbers)[1], ["send", "receive"][numbers.below(2)])).collect();
        let policy = policy_of(&rules.join("\n"));
        let deciders = transaction_deciders(&policy, &mut scenes);
        for position in 0..8 {
            let Some(by) = covering(&policy, Section::Transaction, position) else { continue };
            told += 1;
            assert!(!deciders.contains(&position), "{position} of\n{}", rules.join("\n"));
            assert_eq!(covering(&policy, Section::Transaction, by), None);
        }
    }
    assert!(told > 300, "{told}");
}
