//! Questions in words: each form, what may be left out, and what was expected where one cannot be read.

use forms::policy::{Direction, Gid, MessageType, Uid};
use tool::policy::question::{parse, Account, Other, Question, Transfer};

fn ask(text: &str) -> Result<Question, String> {
    parse(&[text.to_string()])
}

fn account(uid: u32, gids: &[u32]) -> Account {
    Account { uid: Uid(uid), gids: gids.iter().map(|&gid| Gid(gid)).collect() }
}

fn peer(names: &[&str], account: Option<Account>) -> Other {
    Other::Peer { names: names.iter().map(|name| name.to_string()).collect(), account }
}

/// A call M without an interface and without a path.
fn bare_call(direction: Direction, other: Other) -> Transfer {
    Transfer {
        direction,
        who: account(7, &[]),
        owning: Vec::new(),
        message_type: MessageType::Call,
        interface: None,
        member: "M".to_string(),
        path: None,
        other,
    }
}

#[test]
fn connect_and_own() {
    assert_eq!(ask("uid 7 connect"), Ok(Question::Connect(account(7, &[]))));
    assert_eq!(ask("uid 0 gid 4294967295 5 connect"), Ok(Question::Connect(account(0, &[u32::MAX, 5]))));
    assert_eq!(ask("uid 0 gid 5 gid 6 7 connect"), Ok(Question::Connect(account(0, &[5, 6, 7]))));
    assert_eq!(ask("uid 7 own org.a"), Ok(Question::Own(account(7, &[]), "org.a".to_string())));
    assert_eq!(ask("uid 7 own connect"), Ok(Question::Own(account(7, &[]), "connect".to_string())));
}

#[test]
fn messages() {
    let sent = |other| Ok(Question::Transfer(bare_call(Direction::Send, other)));
    assert_eq!(ask("uid 7 send call M to org.a"), sent(peer(&["org.a"], None)));
    assert_eq!(ask("uid 7 send call M to org.a org.b"), sent(peer(&["org.a", "org.b"], None)));
    assert_eq!(ask("uid 7 send call M to nobody"), sent(peer(&[], None)));
    assert_eq!(ask("uid 7 send call M to the bus"), sent(Other::Bus));
    assert_eq!(ask("uid 7 send call M to org.freedesktop.DBus"), sent(Other::Bus));
    let known = peer(&["org.a"], Some(account(5, &[6])));
    assert_eq!(ask("uid 7 send call M to org.a of uid 5 gid 6"), sent(known.clone()));
    assert_eq!(ask("uid 7 send call M of uid 5 gid 6 to org.a"), sent(known.clone()));
    let received = |other| Ok(Question::Transfer(bare_call(Direction::Receive, other)));
    assert_eq!(ask("uid 7 receive call M from org.a of uid 5 gid 6"), received(known));
    assert_eq!(ask("uid 7 receive call M from nobody"), received(peer(&[], None)));
}

#[test]
fn members_paths_and_names() {
    let full = Transfer {
        who: account(7, &[8]),
        owning: vec!["org.x".to_string(), "org.y".to_string()],
        message_type: MessageType::Signal,
        interface: Some("org.a.B".to_string()),
        member: "Stop".to_string(),
        path: Some("/a".to_string()),
        ..bare_call(Direction::Receive, peer(&["org.a"], None))
    };
    for text in [
        "uid 7 gid 8 owning org.x org.y receive signal org.a.B.Stop at /a from org.a",
        "uid 7 gid 8 owning org.x org.y receive signal org.a.B.Stop from org.a at /a",
    ] {
        assert_eq!(ask(text), Ok(Question::Transfer(full.clone())), "{text}");
    }
}

#[test]
fn words_around_a_question() {
    let question = ask("uid 7 connect").expect("a question");
    for text in ["may uid 7 connect?", "  may  uid\t7 connect ?? ", "uid 7 connect?", "may uid 7 connect"] {
        assert_eq!(ask(text).as_ref(), Ok(&question), "{text}");
    }
    let words = ["may", "uid", "7 connect", "?"].map(str::to_string);
    assert_eq!(parse(&words), Ok(question));
}

/// The question as it is printed can be asked again.
#[test]
fn questions_in_full() {
    for (text, shown) in [
        ("uid 7 connect", "may uid 7 connect?"),
        ("uid 7 gid 1 gid 2 own org.a", "may uid 7 gid 1 2 own org.a?"),
        ("uid 7 send call M to nobody", "may uid 7 send call M at / to nobody?"),
        (
            "uid 7 send signal a.b.M at /x to org.freedesktop.DBus",
            "may uid 7 send signal a.b.M at /x to the bus?",
        ),
        (
            "uid 7 owning org.x receive call M from org.a org.b of uid 1 gid 2",
            "may uid 7 owning org.x receive call M at / from org.a org.b of uid 1 gid 2?",
        ),
    ] {
        let question = ask(text).expect(text);
        assert_eq!(question.to_string(), shown);
        assert_eq!(ask(shown).expect(shown).to_string(), shown);
    }
}

#[test]
fn what_was_expected() {
    let wanted = [
        ("", "expected uid and a number, and the question ends"),
        ("may?", "expected uid and a number, and the question ends"),
        ("root connect", "expected uid and a number, not root"),
        ("uid", "expected the number of the uid, and the question ends"),
        ("uid x connect", "expected the number of the uid, not x"),
        ("uid 4294967296 connect", "expected the number of the uid, not 4294967296"),
        ("uid 7 gid connect", "expected the number of the gid, not connect"),
        ("uid 7 gid 5 5x connect", "expected the number of the gid, not 5x"),
        ("uid 7", "expected connect, own, send or receive, and the question ends"),
        ("uid 7 sned", "expected connect, own, send or receive, not sned"),
        ("uid 7 connect now", "expected the end of the question, not now"),
        ("uid 7 own", "expected the name to own, and the question ends"),
        ("uid 7 own org.a org.b", "expected the end of the question, not org.b"),
        ("uid 7 owning send", "expected a name behind owning, not send"),
        ("uid 7 owning org.a connect", "owning goes with send or receive"),
        ("uid 7 owning org.a own org.b", "owning goes with send or receive"),
        (
            "uid 7 owning org.",
            "expected a well-known name, not org.: at its byte 4 wanted another element behind the dot",
        ),
    ];
    for (text, said) in wanted {
        assert_eq!(ask(text), Err(said.to_string()), "{text}");
    }
}

#[test]
fn what_was_expected_of_a_message() {
    let wanted = [
        ("", "expected call or signal, and the question ends"),
        ("return", "expected call or signal, not return"),
        ("call", "expected INTERFACE.MEMBER or MEMBER, and the question ends"),
        ("call M", "expected to and a name, and the question ends"),
        ("call M of uid 5", "expected to and a name, and the question ends"),
        ("call a.M to org.a", "expected an interface, not a: at its byte 1 wanted two elements at least"),
        (
            "call a.b.0 to org.a",
            "expected a member, not 0: at its byte 0 wanted no digit at the start of an element",
        ),
        ("signal M to org.a", "expected INTERFACE.MEMBER of a signal, not M"),
        ("call M at", "expected a path, and the question ends"),
        ("call M at a to org.a", "expected a path, not a: at its byte 0 wanted / at the start"),
        ("call M at / at / to org.a", "at is given twice"),
        ("call M to org.a to org.b", "to is given twice"),
        ("call M to org.a of uid 1 of uid 2", "of is given twice"),
        ("call M from org.a", "expected at, to or of, not from"),
        ("call M to", "expected a name, nobody or the bus, and the question ends"),
        ("call M to Fans", "expected a name, nobody or the bus, not Fans"),
        ("call M to the", "expected bus, and the question ends"),
        ("call M to the fans", "expected bus, not fans"),
        ("call M to the bus of uid 5", "the bus has no uid"),
        ("call M to org.a of 5", "expected uid and a number, not 5"),
        ("call M to :1.7", "expected a well-known name, not :1.7: at its byte 0 wanted a letter, _ or -"),
    ];
    for (text, said) in wanted {
        assert_eq!(ask(&format!("uid 7 send {text}")), Err(said.to_string()), "{text}");
    }
    let from = ask("uid 7 receive call M from the bus");
    assert_eq!(from, Err("expected a name or nobody, not the".to_string()));
    let to = ask("uid 7 receive call M to org.a");
    assert_eq!(to, Err("expected at, from or of, not to".to_string()));
}
