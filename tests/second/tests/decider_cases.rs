//! What coverage sees of the rules that answers show.

mod common;

use common::{Bench, OPEN};
use second::capture::{self, Call};
use second::decider_cases::{cases, is_held, of_call, of_held};
use second::generate::{generate, Mode};
use second::guard::Guard;
use second::header::Header;
use second::message::Message;
use second::policy::{Gid, Policy, Uid};
use second::replay::{lent_policy, run};

/// The cases of one call, all of which must be listed, without those of its answer.
fn shown(bench: &mut Bench, call: Call) -> Vec<String> {
    let held = is_held(&bench.guard, &call);
    let outcome = run(&mut bench.guard, Some(&bench.policy), &call);
    let ended = match &call {
        Call::Piece { peer, bytes } => Header::read(bytes).ok().map(|header| (*peer, header)),
        _ => None,
    };
    let mut found = of_call(Some(&bench.policy), &bench.guard, &call, &outcome, ended.as_ref());
    found.extend(of_held(&outcome).filter(|_| held).map(str::to_string));
    assert!(found.iter().all(|case| cases().contains(case)), "{found:?}");
    found
}

/// The cases that are about a position.
fn positions(found: Vec<String>) -> Vec<String> {
    let of_rule = |case: String| case.strip_prefix("decider, ").map(str::to_string);
    found.into_iter().filter_map(of_rule).filter(|case| !case.starts_with("the other side")).collect()
}

fn connect(rules: &str, uid: u32) -> Vec<String> {
    shown(&mut Bench::new(rules), Call::Connect { uid: Uid(uid), gids: vec![Gid(5)] })
}

fn own(bench: &mut Bench, name: &str) -> Vec<String> {
    shown(bench, Call::Own { peer: 1, name: name.as_bytes().to_vec() })
}

/// The cases of one message from peer 1, who owns org.from and org.then, while peer 2 owns org.to and
/// org.too.
fn sent(rules: &str, message: Message) -> Vec<String> {
    let base = "connect default allow any\nown default allow any";
    let mut bench = Bench::with_peers(&format!("{base}\n{rules}"), 2);
    for (peer, name) in [(1, "org.from"), (1, "org.then"), (2, "org.to"), (2, "org.too")] {
        assert_eq!(bench.own(peer, name), 0);
    }
    shown(&mut bench, Call::Piece { peer: 1, bytes: message.bytes() })
}

fn call() -> Message {
    Message::call(1, "/a", "M").to(":1.2")
}

const SEND: &str = "transaction default allow send any";
const RECEIVE: &str = "transaction default allow receive any";

#[test]
fn the_list_names_each_case_once() {
    let mut all = cases();
    let count = all.len();
    all.sort();
    all.dedup();
    assert_eq!(all.len(), count);
}

#[test]
fn answers() {
    assert_eq!(connect("connect default deny uid 2", 1), ["shown none matched, connect 36"]);
    assert_eq!(connect("connect default deny uid 2", 2)[0], "shown a rule, connect 36");
    let mut bench = Bench::with_peers(OPEN, 2);
    assert_eq!(own(&mut bench, "org.a"), ["shown a rule, own 0", "decider, own at position 0"]);
    assert_eq!(own(&mut bench, "org"), ["shown nothing, own 31"]);
    assert!(own(&mut bench, "org.a").contains(&"shown a rule, a name held already".to_string()));
    for call in
        [Call::Release { peer: 1, name: b"org.a".to_vec() }, Call::Disconnect { peer: 2 }, Call::Start]
    {
        assert!(shown(&mut bench, call).is_empty());
    }
}

#[test]
fn passes() {
    let open = format!("{SEND}\n{RECEIVE}");
    let signal = || Message::signal(1, "/a", "a.b", "M");
    for (message, case) in [
        (Message::call(1, "/a", "M"), "shown a rule, a call passed to the bus"),
        (signal().to("org.freedesktop.DBus"), "shown a rule, a signal passed to the bus"),
        (call(), "shown a rule, a call passed to a peer"),
        (call().flags(1), "shown a rule, a call passed to a peer without a reply"),
        (signal().to(":1.2"), "shown a rule, a signal passed to a peer"),
        (signal(), "shown nothing, a broadcast"),
    ] {
        let found = sent(&open, message);
        assert!(found.contains(&case.to_string()), "{found:?}");
    }
    let mut bench = Bench::with_peers(OPEN, 2);
    assert_eq!(bench.sends(2, Message::call(7, "/", "M").to(":1.1")), 0);
    let reply = Message::method_return(1, 7).to(":1.2").bytes();
    let found = shown(&mut bench, Call::Piece { peer: 1, bytes: reply });
    assert_eq!(found, ["shown nothing, piece 0", "shown nothing, a reply passed"]);
}

#[test]
fn the_other_side() {
    let other = |rules: &str, message: Message| {
        let found = sent(rules, message);
        let of_side =
            |case: &String| case.strip_prefix("decider, the other side's is another, ").map(str::to_string);
        found.iter().find_map(of_side)
    };
    let open = format!("{SEND}\n{RECEIVE}");
    assert_eq!(other(&open, call()).as_deref(), Some("a passed call"));
    assert_eq!(
        other(&open, Message::signal(1, "/a", "a.b", "M").to(":1.2")).as_deref(),
        Some("a passed signal")
    );
    assert_eq!(
        other(&format!("transaction default deny send any\n{RECEIVE}"), call()).as_deref(),
        Some("22")
    );
    assert_eq!(other(SEND, call()).as_deref(), Some("23"));
    // Neither side has a rule; the bus has one side only.
    assert_eq!(other("", call()), None);
    assert_eq!(other(&open, Message::call(1, "/a", "M")), None);
}

#[test]
fn places() {
    let two = "connect mandatory deny uid 1\nconnect default allow any";
    assert_eq!(
        positions(connect(two, 1)),
        [
            "connect at position 0",
            "connect by a mandatory rule",
            "connect before a later match of a lower context"
        ]
    );
    assert_eq!(positions(connect(two, 2)), ["connect at the last position of several"]);
    let behind = "connect default allow any\nconnect default allow gid 5\nconnect default deny uid 9";
    assert_eq!(positions(connect(behind, 1)), ["connect behind an earlier match"]);
    // A match of the same context, or of none, is no case of a lower one.
    let same = "own user 1000 allow any\nown user 1000 deny name org.a\nown default deny name org.b";
    let mut bench = Bench::with_peers(&format!("connect default allow any\n{same}"), 1);
    assert_eq!(positions(own(&mut bench, "org.a")), ["own behind an earlier match"]);
    assert_eq!(
        positions(own(&mut bench, "org.b")),
        ["own at position 0", "own before a later match of a lower context"]
    );
}

#[test]
fn full_sections() {
    let nobody = |count: usize| "own user 77 deny any\n".repeat(count);
    let mut bench =
        Bench::with_peers(&format!("connect default allow any\n{}own default allow any", nobody(255)), 1);
    assert_eq!(
        positions(own(&mut bench, "org.a")),
        ["own at the last position of several", "own at position 255"]
    );
    let rules = format!("{SEND}\n{}{RECEIVE}", "transaction user 77 deny receive any\n".repeat(510));
    assert_eq!(
        positions(sent(&rules, call())),
        [
            "receive at the last position of several",
            "receive at position 511",
            "receive above position 255",
            "receive behind rules of the other direction"
        ]
    );
    assert_eq!(positions(sent(&rules, Message::call(1, "/a", "M"))), ["send at position 0"]);
    let at_255 = format!("{SEND}\n{}{RECEIVE}", "transaction user 77 deny receive any\n".repeat(254));
    assert!(!positions(sent(&at_255, call())).contains(&"receive above position 255".to_string()));
}

#[test]
fn how_a_rule_matched() {
    let with = |rule: &str| positions(sent(&format!("{SEND}\n{RECEIVE}\ntransaction {rule}"), call()));
    let has = |found: Vec<String>, case: &str| found.contains(&case.to_string());
    let no_interface = "by a deny with an interface, the call has none";
    assert!(has(with("default deny send any interface=a.b"), &format!("send {no_interface}")));
    assert!(has(with("default deny receive any interface=a.b"), &format!("receive {no_interface}")));
    assert!(!has(with("default deny send any"), &format!("send {no_interface}")));
    let not_first = "by a name that is not the first owned";
    assert!(has(with("default deny send any name=org.too"), &format!("send {not_first}")));
    assert!(has(with("default allow receive any name=org.then"), &format!("receive {not_first}")));
    assert!(!has(with("default deny send any name=org.to"), &format!("send {not_first}")));
    assert!(!has(with("default allow receive any name=org.from"), &format!("receive {not_first}")));
}

/// Whatever generated captures show is among the listed cases: no answer shows what it must not.
#[test]
fn nothing_else_is_shown() {
    let listed = cases();
    for seed in 1..=20 {
        let reading = capture::read(&generate(seed, 800, Mode::Mixed));
        let policy: Option<Policy> = lent_policy(&reading.capture.image);
        let mut guard = Guard::default();
        for call in &reading.capture.calls {
            let outcome = run(&mut guard, policy.as_ref(), call);
            let found = of_call(policy.as_ref(), &guard, call, &outcome, None);
            assert!(found.iter().all(|case| listed.contains(case)), "{seed}: {found:?}");
        }
    }
}
