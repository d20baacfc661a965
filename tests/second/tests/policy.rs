//! Precedence and matching.

mod common;

use common::{policy, Bench};
use second::message::Message;
use second::policy::{Credentials, Gid, Uid};

fn who(uid: u32, gids: &[Gid]) -> Credentials<'_> {
    Credentials { uid: Uid(uid), gids }
}

#[test]
fn no_rule_means_deny() {
    let empty = policy("");
    assert!(!empty.connect(who(0, &[])).allows());
    assert!(!empty.own(who(0, &[]), "a.b").allows());
}

#[test]
fn connect_matchers() {
    let rules = policy("connect default allow uid 7\nconnect default allow gid 8");
    assert!(rules.connect(who(7, &[])).allows());
    assert!(!rules.connect(who(8, &[])).allows());
    assert!(rules.connect(who(1, &[Gid(1), Gid(8)])).allows());
    assert!(!rules.connect(who(1, &[Gid(7)])).allows());
    let later =
        policy("connect mandatory deny any\nconnect mandatory allow uid 1\nconnect default allow any");
    assert!(later.connect(who(1, &[])).allows());
    assert!(!later.connect(who(2, &[])).allows());
}

#[test]
fn contexts_outrank_places() {
    let rules = policy(
        "own mandatory deny name a.mandatory
         own user 1 allow name a.mandatory
         own user 1 deny name a.user
         own group 1 allow name a.user
         own group 1 deny name a.group
         own default allow any",
    );
    let both = [Gid(1)];
    for name in ["a.mandatory", "a.user", "a.group"] {
        assert!(!rules.own(who(1, &both), name).allows(), "{name}");
    }
    assert!(rules.own(who(1, &both), "a.other").allows());
    assert!(rules.own(who(1, &[]), "a.group").allows());
    assert!(rules.own(who(2, &both), "a.user").allows());
    assert!(!rules.own(who(2, &[]), "a.mandatory").allows());
}

#[test]
fn groups_compete_by_image_order() {
    let rules = policy("own group 2 allow any\nown group 1 deny any");
    assert!(!rules.own(who(0, &[Gid(1), Gid(2)]), "a.b").allows());
    assert!(!rules.own(who(0, &[Gid(2), Gid(1)]), "a.b").allows());
    assert!(rules.own(who(1, &[Gid(2)]), "a.b").allows());
}

#[test]
fn uid_and_gid_never_meet() {
    let rules = policy("own user 5 allow any\nown group 6 allow any");
    assert!(!rules.own(who(6, &[Gid(5)]), "a.b").allows());
    assert!(rules.own(who(5, &[]), "a.b").allows());
    assert!(rules.own(who(0, &[Gid(6)]), "a.b").allows());
}

/// Sends one message from peer 1, who owns org.from, to peer 2, who owns org.to.
fn sent(rules: &str, message: Message) -> u32 {
    let base = "connect default allow any\nown default allow any";
    let mut bench = Bench::with_peers(&format!("{base}\n{rules}"), 2);
    assert_eq!(bench.own(1, "org.from"), 0);
    assert_eq!(bench.own(2, "org.to"), 0);
    bench.sends(1, message.to(":1.2"))
}

fn call() -> Message {
    Message::call(1, "/a", "M")
}

fn signal() -> Message {
    Message::signal(1, "/a", "a.b", "M")
}

#[test]
fn literals() {
    let with = |literal: &str, message: Message| {
        sent(
            &format!("transaction default allow send {literal}\ntransaction default allow receive any"),
            message,
        )
    };
    for literal in
        ["any", "call", "any name=org.to", "any path=/a", "any member=M", "call name=org.to path=/a member=M"]
    {
        assert_eq!(with(literal, call()), 0, "{literal}");
    }
    for literal in
        ["signal", "any name=org.from", "any path=/", "any path=/a/b", "any member=m", "any interface=a.b"]
    {
        assert_eq!(with(literal, call()), 22, "{literal}");
    }
    assert_eq!(with("any interface=a.b", call().interface("a.b")), 0);
    assert_eq!(with("any interface=a.b", call().interface("a.c")), 22);
    assert_eq!(with("signal interface=a.b", signal()), 0);
    assert_eq!(with("call interface=a.b", signal()), 22);
}

/// The same where everything may pass but for these rules, which stand last.
fn sent_past(rules: &str, message: Message) -> u32 {
    let open = "transaction default allow send any\ntransaction default allow receive any";
    sent(&format!("{open}\n{rules}"), message)
}

#[test]
fn a_deny_with_an_interface_matches_a_call_without_one() {
    let denied =
        |parts: &str| sent_past(&format!("transaction default deny send {parts} interface=a.b"), call());
    for fitting in
        ["any", "call", "any name=org.to", "any path=/a", "any member=M", "call name=org.to path=/a member=M"]
    {
        assert_eq!(denied(fitting), 22, "{fitting}");
    }
    for other in ["signal", "any name=org.from", "any path=/", "any path=/a/b", "any member=m"] {
        assert_eq!(denied(other), 0, "{other}");
    }
    // One part that differs is enough, however many fit.
    assert_eq!(denied("call name=org.to path=/a member=N"), 0);
    assert_eq!(denied("call name=org.to path=/b member=M"), 0);
    assert_eq!(denied("call name=org.other path=/a member=M"), 0);
}

#[test]
fn such_a_deny_still_asks_for_its_subject() {
    let denied =
        |subject: &str| sent_past(&format!("transaction {subject} deny send any interface=a.b"), call());
    for fitting in ["default", "user 1000", "group 5", "mandatory"] {
        assert_eq!(denied(fitting), 22, "{fitting}");
    }
    for other in ["user 5", "group 1000", "user 1001", "group 6"] {
        assert_eq!(denied(other), 0, "{other}");
    }
}

#[test]
fn an_allow_with_an_interface_skips_a_call_without_one() {
    let receive = "transaction default allow receive any";
    let only = format!("transaction default allow send any interface=a.b\n{receive}");
    assert_eq!(sent(&only, call()), 22);
    assert_eq!(sent(&only, call().interface("a.b")), 0);
    // It neither allows nor stands in the way of what another rule allows.
    assert_eq!(sent_past("transaction mandatory allow send any interface=a.b", call()), 0);
    let reopened = "transaction default deny send any member=M
        transaction mandatory allow send any member=M interface=a.b";
    assert_eq!(sent_past(reopened, call()), 22);
    assert_eq!(sent_past(reopened, call().interface("a.b")), 0);
}

#[test]
fn receive_rules_treat_a_call_without_an_interface_alike() {
    let denied =
        |parts: &str| sent_past(&format!("transaction default deny receive {parts} interface=a.b"), call());
    for fitting in ["any", "call", "any name=org.from", "call path=/a member=M"] {
        assert_eq!(denied(fitting), 23, "{fitting}");
    }
    for other in ["signal", "any name=org.to", "any path=/b", "any member=N"] {
        assert_eq!(denied(other), 0, "{other}");
    }
    let only = "transaction default allow send any\ntransaction default allow receive any interface=a.b";
    assert_eq!(sent(only, call()), 23);
    assert_eq!(sent(only, call().interface("a.b")), 0);
    // Send is asked first.
    let both = "transaction default deny receive any interface=a.b
        transaction default deny send any interface=a.b";
    assert_eq!(sent_past(both, call()), 22);
}

#[test]
fn an_interface_that_is_there_must_be_the_rules_own() {
    let deny = "transaction mandatory deny send any interface=a.b";
    assert_eq!(sent_past(deny, call().interface("a.b")), 22);
    for other in ["a.c", "a.b.c", "A.b"] {
        assert_eq!(sent_past(deny, call().interface(other)), 0, "{other}");
        assert_eq!(sent_past(deny, Message::signal(1, "/a", other, "M")), 0, "{other}");
    }
    assert_eq!(sent_past(deny, signal()), 22);
    let receive = "transaction default allow receive any";
    let allow =
        |interface: &str| format!("transaction default allow send any interface={interface}\n{receive}");
    assert_eq!(sent(&allow("a.b"), signal()), 0);
    assert_eq!(sent(&allow("a.c"), signal()), 22);
}

#[test]
fn a_rule_without_an_interface_matches_with_and_without_one() {
    for message in [call(), call().interface("a.b"), signal()] {
        assert_eq!(sent_past("transaction default deny send any path=/a", message.clone()), 22);
        assert_eq!(sent_past("transaction default deny receive any member=M", message.clone()), 23);
        let reopened = "transaction default deny send any\ntransaction default allow send any member=M";
        assert_eq!(sent_past(reopened, message), 0);
    }
}

#[test]
fn precedence_of_a_deny_with_an_interface() {
    let deny = |context: &str| format!("transaction {context} deny send any interface=a.b");
    // A later or higher allow without an interface wins, and one with an interface does not.
    assert_eq!(sent_past(&format!("{}\ntransaction default allow send call", deny("default")), call()), 0);
    assert_eq!(sent_past(&format!("transaction user 1000 allow send any\n{}", deny("group 5")), call()), 0);
    assert_eq!(sent_past(&format!("transaction group 5 allow send any\n{}", deny("user 1000")), call()), 22);
    for above in ["default", "group 5", "user 1000", "mandatory"] {
        let rules = format!("{}\ntransaction {above} allow send any interface=a.b", deny("default"));
        assert_eq!(sent_past(&rules, call()), 22, "{above}");
        assert_eq!(sent_past(&rules, call().interface("a.b")), 0, "{above}");
    }
}

#[test]
fn receive_asks_for_the_senders_names() {
    let send = "transaction default allow send any";
    assert_eq!(sent(&format!("{send}\ntransaction default allow receive any name=org.from"), call()), 0);
    assert_eq!(sent(&format!("{send}\ntransaction default allow receive any name=org.to"), call()), 23);
    assert_eq!(sent(&format!("{send}\ntransaction default allow receive any"), signal()), 0);
    assert_eq!(sent(send, signal()), 23);
}

#[test]
fn directions_do_not_mix() {
    let rules = "transaction default allow send any
        transaction default allow receive any
        transaction mandatory deny receive any path=/other
        transaction mandatory deny send any path=/third";
    assert_eq!(sent(rules, call()), 0);
    assert_eq!(sent(rules, Message::call(1, "/other", "M")), 23);
    assert_eq!(sent(rules, Message::call(1, "/third", "M")), 22);
}

#[test]
fn transaction_subjects() {
    let base = "connect default allow any
        transaction default allow send any
        transaction default allow receive any
        transaction user 1 deny send any
        transaction group 1 deny receive any";
    let mut bench = Bench::new(base);
    bench.connect(1, &[2]);
    bench.connect(2, &[1]);
    bench.connect(3, &[3]);
    assert_eq!(bench.sends(1, call().to(":1.3")), 22);
    assert_eq!(bench.sends(3, call().to(":1.2")), 23);
    assert_eq!(bench.sends(2, call().to(":1.1")), 0);
    assert_eq!(bench.sends(2, call().to(":1.3")), 0);
}
