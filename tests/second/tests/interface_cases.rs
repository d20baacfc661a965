//! What coverage sees of rules that name an interface.

mod common;

use common::{Bench, OPEN};
use second::guard::Judged;
use second::header::Header;
use second::interface_cases::{cases, CASES};
use second::message::Message;

/// The cases of one message from peer 1, who owns org.from, while peer 2 owns org.to.
fn shown(rules: &str, message: &Message) -> Vec<String> {
    let mut bench = Bench::with_peers(rules, 2);
    assert_eq!((bench.own(1, "org.from"), bench.own(2, "org.to")), (0, 0));
    let bytes = message.bytes();
    let judged: Judged = bench.piece(1, &bytes);
    let header = Header::read(&bytes).expect("the head is good");
    let sender = bench.guard.peer(1).expect("peer 1 is connected");
    let shown = cases(&bench.guard, &bench.policy, sender, &header, judged);
    assert!(shown.iter().all(|case| CASES.contains(&case.as_str())), "{shown:?}");
    shown
}

fn call() -> Message {
    Message::call(1, "/a", "M")
}

fn signal(interface: &str) -> Message {
    Message::signal(1, "/a", interface, "M")
}

#[test]
fn denies() {
    let send = format!("{OPEN}\ntransaction default deny send any interface=a.b");
    assert_eq!(shown(&send, &call().to(":1.2")), ["interface absent, denied to a peer"]);
    assert_eq!(shown(&send, &call()), ["interface absent, denied to the bus"]);
    let receive = format!("{OPEN}\ntransaction default deny receive any interface=a.b");
    assert_eq!(shown(&receive, &call().to("org.to")), ["interface absent, denied on receipt"]);
    assert!(shown(&receive, &call()).is_empty());
    // A deny without an interface shows nothing, nor does one that another rule beats.
    let plain = format!("{send}\ntransaction default deny send any");
    assert!(shown(&plain, &call()).is_empty());
    let beaten = format!("{send}\ntransaction default allow send any");
    assert!(shown(&beaten, &call()).is_empty());
    assert!(shown(&send, &call().interface("a.b")).is_empty());
}

#[test]
fn allows() {
    let only = "connect default allow any
        own default allow any
        transaction default allow send any interface=a.b";
    assert_eq!(shown(only, &call()), ["interface absent, allow skipped to the bus"]);
    // Without a receive rule the call would be refused all the same.
    assert!(shown(only, &call().to(":1.2")).is_empty());
    let both = format!("{only}\ntransaction default allow receive any");
    assert_eq!(shown(&both, &call().to(":1.2")), ["interface absent, allow skipped to a peer"]);
    let receive = format!(
        "{OPEN}
        transaction default deny receive any member=M
        transaction default allow receive any interface=a.b"
    );
    assert_eq!(shown(&receive, &call().to(":1.2")), ["interface absent, allow skipped on receipt"]);
    // An allow that stands below the deciding deny would change nothing.
    let below = format!("{receive}\ntransaction default deny receive any");
    assert!(shown(&below, &call().to(":1.2")).is_empty());
    assert!(shown(&receive, &call().interface("a.c").to(":1.2")).is_empty());
}

#[test]
fn parts_that_differ() {
    let passed = |rule: &str| shown(&format!("{OPEN}\ntransaction {rule} interface=a.b"), &call().to(":1.2"));
    for (rule, part) in [
        ("user 5 deny send any", "subject"),
        ("group 9 deny receive any", "subject"),
        ("default deny send signal", "type"),
        ("default deny send any name=org.from", "name"),
        ("default deny receive any name=org.to", "name"),
        ("default deny send any path=/b", "path"),
        ("default deny receive call member=N", "member"),
    ] {
        assert_eq!(passed(rule), [format!("interface absent, passed a deny of another {part}")], "{rule}");
    }
    // Where two parts differ, neither alone decided.
    assert!(passed("default deny send any path=/b member=N").is_empty());
    assert!(passed("default allow send any path=/b").is_empty());
}

#[test]
fn other_interfaces() {
    let rules = format!("{OPEN}\ntransaction default deny send any interface=a.b");
    for message in [call().interface("a.c"), call().interface("a.c").to("org.to")] {
        assert_eq!(shown(&rules, &message), ["interface present, call passed a deny of another"]);
    }
    assert_eq!(
        shown(&rules, &signal("a.c").to(":1.2")),
        ["interface present, signal passed a deny of another"]
    );
    assert!(shown(&rules, &signal("a.b").to(":1.2")).is_empty());
    assert!(shown(&rules, &signal("a.c")).is_empty());
    let beaten = format!("{rules}\ntransaction default allow send any");
    assert!(shown(&beaten, &call().interface("a.c")).is_empty());
    assert!(shown(&rules, &Message::method_return(1, 1).to(":1.2")).is_empty());
}
