//! Which of several rules decides, and the position that it is told by.

mod common;

use common::{policy, Bench};
use second::message::Message;
use second::policy::{Credentials, Decision, Gid, Uid};

fn who(uid: u32, gids: &[Gid]) -> Credentials<'_> {
    Credentials { uid: Uid(uid), gids }
}

const BASE: &str = "connect default allow any\nown default allow any";

/// Two peers of uid 1000 and gid 5 under these transaction rules; peer 1 sends to peer 2. The
/// answer, and the two numbers at the end of its line.
fn shown(rules: &str, message: Message) -> String {
    let mut bench = Bench::with_peers(&format!("{BASE}\n{rules}"), 2);
    let line = bench.message_line(1, message.to(":1.2"));
    let words: Vec<&str> = line.split(' ').collect();
    [words[1], words[6], words[7]].join(" ")
}

fn call() -> Message {
    Message::call(1, "/a", "M")
}

#[test]
fn nothing_matches() {
    let empty = policy("");
    assert_eq!(empty.connect(who(0, &[])), Decision::NoneMatched);
    assert_eq!(empty.own(who(0, &[]), "a.b"), Decision::NoneMatched);
    let others = policy("connect default allow uid 1\nown user 1 allow any\nown default allow name a.c");
    assert_eq!(others.connect(who(2, &[Gid(1)])).position(), None);
    assert_eq!(others.own(who(2, &[Gid(1)]), "a.b").position(), None);
    assert!(!Decision::NoneMatched.allows());
    assert_eq!(shown("", call()), "22 2 0");
    assert_eq!(shown("transaction default allow receive any", call()), "22 2 0");
    assert_eq!(shown("transaction default allow send any", call()), "23 2 0");
}

/// The last of so many alike, and the first of them in a higher context.
fn full(rule: &str, higher: &str, count: usize) -> (String, String) {
    let last = format!("{rule}\n").repeat(count);
    let first = format!("{higher}\n") + &format!("{rule}\n").repeat(count - 1);
    (last, first)
}

#[test]
fn first_and_last_of_full_sections() {
    let (last, first) = full("connect default allow any", "connect mandatory allow any", 256);
    assert_eq!(policy(&last).connect(who(1, &[])).position(), Some(255));
    assert_eq!(policy(&first).connect(who(1, &[])).position(), Some(0));
    let (last, first) = full("own group 5 deny any", "own user 1 deny any", 256);
    assert_eq!(policy(&last).own(who(1, &[Gid(5)]), "a.b").position(), Some(255));
    assert_eq!(policy(&first).own(who(1, &[Gid(5)]), "a.b").position(), Some(0));
    let (last, first) = full("transaction default deny send any", "transaction user 1000 deny send any", 512);
    assert_eq!(shown(&last, call()), "22 1 511");
    assert_eq!(shown(&first, call()), "22 1 0");
}

#[test]
fn both_directions_at_the_end_of_a_full_section() {
    let unused = "transaction user 7 deny send any\n".repeat(510);
    let send = "transaction default allow send any\n";
    let receive = "transaction default allow receive any\n";
    assert_eq!(shown(&format!("{unused}{send}{receive}"), call()), "0 1 511");
    assert_eq!(shown(&format!("{unused}{receive}{send}"), call()), "0 1 510");
    assert_eq!(shown(&format!("{receive}{unused}{send}"), call()), "0 1 0");
    let many = "transaction default allow send any\n".repeat(256);
    assert_eq!(shown(&format!("{many}{receive}"), call()), "0 1 256");
    assert_eq!(shown(&format!("{many}transaction default deny send any"), call()), "22 1 256");
}

#[test]
fn a_higher_context_at_an_earlier_position() {
    let rules = policy(
        "connect mandatory deny uid 1
         connect default allow any
         own mandatory deny name a.mandatory
         own user 1 deny name a.user
         own group 1 deny name a.group
         own default allow any",
    );
    assert_eq!(rules.connect(who(1, &[])).position(), Some(0));
    assert_eq!(rules.connect(who(2, &[])).position(), Some(1));
    let one = [Gid(1)];
    for (name, position) in [("a.mandatory", 0), ("a.user", 1), ("a.group", 2), ("a.other", 3)] {
        assert_eq!(rules.own(who(1, &one), name).position(), Some(position), "{name}");
    }
    let later = "transaction default allow send any\ntransaction default deny send any";
    for context in ["group 5", "user 1000", "mandatory"] {
        let rules = format!("transaction {context} deny send any\n{later}");
        assert_eq!(shown(&rules, call()), "22 1 0", "{context}");
    }
}

#[test]
fn the_last_of_one_context() {
    let rules = policy("own group 2 allow any\nown group 1 deny any\nown group 3 allow any");
    assert_eq!(rules.own(who(0, &[Gid(1), Gid(2)]), "a.b").position(), Some(1));
    assert_eq!(rules.own(who(0, &[Gid(2), Gid(1)]), "a.b").position(), Some(1));
    assert_eq!(rules.own(who(0, &[Gid(2)]), "a.b").position(), Some(0));
    assert_eq!(rules.own(who(0, &[Gid(3), Gid(1)]), "a.b").position(), Some(2));
    // Of two rules that are alike the later one is told.
    let alike = "transaction default allow receive any\n".repeat(3);
    assert_eq!(shown(&format!("{alike}transaction default allow send any"), call()), "0 1 2");
}

#[test]
fn positions_count_both_directions() {
    let rules = "transaction default allow receive any
        transaction default deny send any path=/b
        transaction default deny receive any path=/c
        transaction default allow send any
        transaction default deny receive any path=/d
        transaction mandatory deny send any path=/e";
    let at = |path: &str| shown(rules, Message::call(1, path, "M"));
    assert_eq!(at("/a"), "0 1 0");
    assert_eq!(at("/c"), "23 1 2");
    assert_eq!(at("/d"), "23 1 4");
    assert_eq!(at("/e"), "22 1 5");
    // The default allow of send comes later than the deny of path /b, and receive lets it in.
    assert_eq!(at("/b"), "0 1 0");
    let mut bench = Bench::with_peers(&format!("{BASE}\n{rules}"), 1);
    assert_eq!(bench.message_line(1, call()), "piece 0 48 1 0 0 1 3");
}

#[test]
fn a_deny_with_an_interface_and_a_call_without_one() {
    let open = "transaction default allow send any\ntransaction default allow receive any\n";
    let send = format!("{open}transaction default deny send any interface=a.b");
    assert_eq!(shown(&send, call()), "22 1 2");
    assert_eq!(shown(&send, call().interface("a.b")), "22 1 2");
    assert_eq!(shown(&send, call().interface("a.c")), "0 1 1");
    let receive = format!("{open}transaction default deny receive any interface=a.b");
    assert_eq!(shown(&receive, call()), "23 1 2");
    // The skipped allow is not told, though it stands higher.
    let skipped = format!("{open}transaction mandatory allow receive any interface=a.b");
    assert_eq!(shown(&skipped, call()), "0 1 1");
    assert_eq!(shown(&skipped, call().interface("a.b")), "0 1 2");
    let only = "transaction default allow receive any\ntransaction default allow send any interface=a.b";
    assert_eq!(shown(only, call()), "22 2 0");
}

#[test]
fn any_owned_name_may_match() {
    let rules = "transaction default allow send any name=org.one
        transaction default allow receive any
        transaction default deny send any name=org.two
        transaction default deny receive any name=org.four";
    let mut bench = Bench::with_peers(&format!("{BASE}\n{rules}"), 2);
    let to = |name: &str| call().flags(1).to(name);
    assert_eq!(bench.message_line(1, to(":1.2")), "piece 22 64 0 0 0 2 0");
    assert_eq!(bench.own(2, "org.one"), 0);
    assert_eq!(bench.message_line(1, to("org.one")), "piece 0 64 2 2 0 1 1");
    assert_eq!(bench.own(2, "org.two"), 0);
    for name in ["org.one", "org.two", ":1.2"] {
        assert_eq!(bench.message_line(1, to(name)), "piece 22 64 0 0 0 1 2");
    }
    bench.guard.release(2, b"org.two");
    assert_eq!((bench.own(1, "org.three"), bench.own(1, "org.four")), (0, 0));
    assert_eq!(bench.message_line(1, to(":1.2")), "piece 23 64 0 0 0 1 3");
}
