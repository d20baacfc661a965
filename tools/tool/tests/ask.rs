//! Answers to questions: the theatre's, each limit, and random ones held to a plain reading of the rules.

mod numbers;

use forms::policy::{Context, Direction, Gid, MessageType, Policy, Section, TransactionRule, Uid, Verdict};
use forms::policy_text::{self, show_rule, PolicyText};
use numbers::Numbers;
use std::io::Write;
use std::path::Path;
use std::process::{Command, Output, Stdio};
use tool::cli::Fault;
use tool::policy::ask::ask;
use tool::policy::question::{parse, Account, Other, Question, Transfer};

fn answer(policy: &str, question: &str) -> Result<Vec<String>, Fault> {
    let text = policy_text::parse(policy).expect("good text");
    ask("p", &text, &parse(&[question.to_string()]).expect(question))
}

/// The lines behind the question.
fn said(policy: &str, question: &str) -> String {
    answer(policy, question).expect(question)[1..].join("\n")
}

fn theatre() -> String {
    let path = Path::new(env!("CARGO_MANIFEST_DIR")).join("../../examples/theatre/theatre.policy");
    std::fs::read_to_string(path).expect("the policy")
}

const NO_PATH: &str = "the path is /, as none was given";
const BARE: &str =
    "the call has no interface: a deny that names one takes it, an allow that names one does not";
const TO_WHOM: &str =
    "whether it is received depends on the receiver's uid and gids: add \"of uid N [gid N ..]\" to ask that too";
const FROM_WHOM: &str =
    "whether it is sent depends on the sender's uid and gids: add \"of uid N [gid N ..]\" to ask that too";

#[test]
fn connect_and_own() {
    let policy = theatre();
    let yes = "yes: connect is allowed by connect rule 1, p line 10\n    connect default allow gid 20";
    assert_eq!(said(&policy, "uid 7 gid 1 20 connect"), yes);
    let no = "no: connect is denied by connect rule 3, p line 12\n    connect mandatory deny uid 0";
    assert_eq!(said(&policy, "uid 0 gid 20 connect"), no);
    assert_eq!(said("", "uid 0 connect"), "no: no connect rule matches, so connect is denied");
    let yes =
        "yes: own is allowed by own rule 0, p line 15\n    own user 1001 allow prefix org.theatre.Panel";
    assert_eq!(said(&policy, "uid 1001 own org.theatre.Panel.Left"), yes);
    assert_eq!(said(&policy, "uid 1001 own org.theatre.Panels"), "no: no own rule matches, so own is denied");
    let no = "no: own is denied by own rule 0, p line 1\n    own default deny any";
    assert_eq!(said("own default deny any", "uid 7 own org.a"), no);
    for name in ["org", "org.freedesktop.DBus", ":1.1"] {
        let no = "no: the guard answers 31, not a name that a peer can own";
        assert_eq!(said(&policy, &format!("uid 1001 own {name}")), no);
    }
}

#[test]
fn the_theatre() {
    let policy = theatre();
    assert_eq!(
        answer(&policy, "may uid 7 send call org.a.B.Stop to org.theatre.Fans?")
            .expect("an answer")
            .join("\n"),
        format!(
            "may uid 7 send call org.a.B.Stop at / to org.theatre.Fans?
no: send is denied by transaction rule 8, p line 37
    transaction mandatory deny send call name=org.theatre.Fans member=Stop
{NO_PATH}
{TO_WHOM}"
        )
    );
    assert_eq!(
        said(&policy, "uid 1001 gid 20 send call Calibrate at /x to org.theatre.Sensor of uid 1004"),
        format!(
            "no: the guard answers 23, receive denied
yes: send is allowed by transaction rule 2, p line 22
    transaction group 20 allow send call name=org.theatre.Sensor
no: no transaction rule matches, so receive is denied
{BARE}"
        )
    );
    assert_eq!(
        said(&policy, "uid 1002 receive signal org.theatre.Sensor.Overheat at /org/theatre/Sensor from org.theatre.Sensor of uid 1004"),
        "yes: the guard answers 0, passed
yes: send is allowed by transaction rule 5, p line 31
    transaction user 1004 allow send signal path=/org/theatre/Sensor interface=org.theatre.Sensor member=Overheat
yes: receive is allowed by transaction rule 7, p line 33
    transaction user 1002 allow receive signal name=org.theatre.Sensor"
    );
    assert_eq!(
        said(&policy, "uid 7 send call org.a.B.Hello at / to the bus"),
        "yes: send is allowed by transaction rule 0, p line 20
    transaction default allow send call name=org.freedesktop.DBus"
    );
}

/// Every name that the other side owns counts, and of the one who asks none.
#[test]
fn all_names_count() {
    let policy =
        "transaction default allow send any name=org.a\ntransaction default deny send any name=org.b";
    let by = |verdict, position| {
        format!("send is {verdict} by transaction rule {position}, p line {}", position + 1)
    };
    let first = |question: &str| said(policy, question).lines().next().expect("a line").to_string();
    assert_eq!(first("uid 1 send call M to org.a"), format!("yes: {}", by("allowed", 0)));
    assert_eq!(first("uid 1 send call M to org.a org.b"), format!("no: {}", by("denied", 1)));
    assert_eq!(first("uid 1 owning org.b send call M to org.a"), format!("yes: {}", by("allowed", 0)));
    assert_eq!(first("uid 1 send call M to nobody"), "no: no transaction rule matches, so send is denied");
}

/// Each limit and one beyond; beyond it there is no such peer, and of connect the guard says so itself.
#[test]
fn limits_of_peers() {
    let gids = |count: usize| "5 ".repeat(count);
    let open = "connect default allow any\ntransaction default allow send any";
    assert!(said(open, &format!("uid 1 gid {}connect", gids(16))).starts_with("yes: "));
    assert_eq!(
        said(open, &format!("uid 1 gid {}connect", gids(17))),
        "no: the guard answers 37, more than 16 gids"
    );
    let usage = |question: &str| {
        let fault = answer(open, question).expect_err(question);
        assert_eq!(fault.status, 2, "{question}");
        fault.message
    };
    assert!(answer(open, &format!("uid 1 gid {}send call M to org.a", gids(16))).is_ok());
    let no_peer = "there is no such peer: its connect is answered 37, more than 16 gids";
    assert_eq!(usage(&format!("uid 1 gid {}send call M to org.a", gids(17))), no_peer);
    assert_eq!(usage(&format!("uid 1 gid {}own org.a", gids(17))), no_peer);
    assert_eq!(usage(&format!("uid 1 send call M to org.a of uid 1 gid {}", gids(17))), no_peer);
    assert!(answer(open, "uid 1 send call M to a.b a.c a.d a.e").is_ok());
    let four = "there is no such peer: owning a.f is answered 34, peer has 4 names";
    assert_eq!(usage("uid 1 send call M to a.b a.c a.d a.e a.f"), four);
    let both = "there is no such peer: owning a.b is answered 33, another peer owns the name";
    assert_eq!(usage("uid 1 owning a.b send call M to a.b"), both);
    let bus =
        "there is no such peer: owning org.freedesktop.DBus is answered 31, not a name that a peer can own";
    assert_eq!(usage("uid 1 receive call M from org.freedesktop.DBus"), bus);
    let long = format!("uid 1 send call M at /{} to org.a", "a".repeat(2032));
    let too_long = "the guard takes no such message: it answers 5, field array longer than 2,032 bytes";
    assert_eq!(usage(&long), too_long);
    assert_eq!(usage(&long.replace("to org.a", "to org.a of uid 1")), too_long);
}

/// Where no rule is about send, one is put behind the others to ask about receive; 512 leave no room for it.
#[test]
fn policies_without_send_rules() {
    let receive = |count: usize| "transaction default allow receive call\n".repeat(count);
    let yes = "yes: receive is allowed by transaction rule 510, p line 511\n    transaction default allow receive call";
    let asked = "uid 1 receive call a.b.M at / from nobody";
    assert_eq!(said(&receive(511), asked), format!("{yes}\n{FROM_WHOM}"));
    let fault = answer(&receive(512), asked).expect_err("no room");
    assert_eq!(fault.status, 1);
    assert!(fault.message.starts_with("p: nothing can be sent, and there is no room"), "{}", fault.message);
    assert!(answer(&receive(513), asked)
        .expect_err("too many")
        .message
        .ends_with("more than 512 transaction rules"));
}

// ---- random policies and questions

fn random_policy(numbers: &mut Numbers) -> PolicyText {
    let mut text = String::new();
    for _ in 0..numbers.below(12) {
        let context =
            numbers.one(&["default", "default", "group 5", "group 6", "user 7", "user 8", "mandatory"]);
        let verdict = numbers.one(&["allow", "allow", "deny"]);
        let direction = numbers.one(&["send", "receive"]);
        let kind = numbers.one(&["any", "any", "call", "signal"]);
        let name = numbers.one(&["", "", " name=org.a", " name=org.b", " name=org.freedesktop.DBus"]);
        let path = numbers.one(&["", "", "", " path=/a", " path=/"]);
        let interface = numbers.one(&["", "", " interface=a.b", " interface=a.c"]);
        let member = numbers.one(&["", "", "", " member=M", " member=N"]);
        text +=
            &format!("\ntransaction {context} {verdict} {direction} {kind}{name}{path}{interface}{member}\n");
    }
    policy_text::parse(&text).expect("good text")
}

fn random_question(numbers: &mut Numbers) -> Question {
    let who = ["uid 7", "uid 8 gid 5", "uid 9 gid 6 5", "uid 9"];
    let direction = numbers.one(&["send", "receive"]);
    let message =
        numbers.one(&["call M", "call a.b.M", "call a.c.N", "call N", "signal a.b.M", "signal a.c.M"]);
    let path = numbers.one(&["", " at /a", " at /b"]);
    let names = numbers.one(&["nobody", "org.a", "org.b", "org.b org.a", "org.c"]);
    let of = numbers.below(2) == 0;
    let other = match (direction, numbers.below(4)) {
        ("send", 0) => "to the bus".to_string(),
        (direction, _) => {
            let of = if of { format!(" of {}", numbers.one(&who)) } else { String::new() };
            format!("{} {names}{of}", if direction == "send" { "to" } else { "from" })
        }
    };
    let owning = numbers.one(&["", " owning org.d"]);
    parse(&[format!("{}{owning} {direction} {message}{path} {other}", numbers.one(&who))])
        .expect("a question")
}

/// A plain reading of rules 6.1 to 6.8: the rule that decides about one side.
fn decider(
    policy: &Policy,
    direction: Direction,
    who: &Account,
    names: &[String],
    asked: &Transfer,
) -> Option<usize> {
    let fits =
        |literal: &Option<String>, there: &str| literal.as_ref().is_none_or(|literal| literal == there);
    let matches = |rule: &TransactionRule| {
        rule.direction == direction
            && match rule.context {
                Context::Default | Context::Mandatory => true,
                Context::Group(Gid(gid)) => who.gids.contains(&Gid(gid)),
                Context::User(uid) => who.uid == uid,
            }
            && rule.message_type.is_none_or(|kind| kind == asked.message_type)
            && rule.name.as_ref().is_none_or(|name| names.contains(name))
            && fits(&rule.path, asked.path.as_deref().unwrap_or("/"))
            && fits(&rule.member, &asked.member)
            && match &asked.interface {
                Some(interface) => fits(&rule.interface, interface),
                None => rule.interface.is_none() || rule.verdict == Verdict::Deny,
            }
    };
    let candidates = policy.transaction.iter().enumerate().filter(|(_, rule)| matches(rule));
    candidates.max_by_key(|(at, rule)| (rule.context.rank(), *at)).map(|(at, _)| at)
}

/// The lines about one side, and whether it is allowed.
fn side(text: &PolicyText, what: &str, rule: Option<usize>) -> (bool, Vec<String>) {
    let Some(at) = rule else {
        return (false, vec![format!("no: no transaction rule matches, so {what} is denied")]);
    };
    let is_allowed = text.policy.transaction[at].verdict == Verdict::Allow;
    let (answer, verdict) = if is_allowed { ("yes", "allowed") } else { ("no", "denied") };
    let line = text.line(Section::Transaction, at).expect("a line");
    let first = format!("{answer}: {what} is {verdict} by transaction rule {at}, p line {line}");
    (is_allowed, vec![first, format!("    {}", show_rule(&text.policy, Section::Transaction, at))])
}

/// What should be said, without the notes.
fn expected(text: &PolicyText, asked: &Transfer) -> Vec<String> {
    let bus = vec!["org.freedesktop.DBus".to_string()];
    let unknown = Account { uid: Uid(0), gids: Vec::new() };
    let (names, account) = match &asked.other {
        Other::Bus => (&bus, None),
        Other::Peer { names, account } => (names, account.as_ref()),
    };
    let other = account.unwrap_or(&unknown);
    let (sender, sender_names, receiver, receiver_names) = match asked.direction {
        Direction::Send => (&asked.who, &asked.owning, other, names),
        Direction::Receive => (other, names, &asked.who, &asked.owning),
    };
    let decided = |direction, who, names| decider(&text.policy, direction, who, names, asked);
    let (may_send, send) = side(text, "send", decided(Direction::Send, sender, receiver_names));
    let (may_receive, receive) = side(text, "receive", decided(Direction::Receive, receiver, sender_names));
    let whole = match (may_send, may_receive) {
        (false, _) => "no: the guard answers 22, send denied",
        (true, false) => "no: the guard answers 23, receive denied",
        (true, true) => "yes: the guard answers 0, passed",
    };
    match (account, asked.direction) {
        (Some(_), _) => [vec![whole.to_string()], send, receive].concat(),
        (None, Direction::Send) => send,
        (None, Direction::Receive) => receive,
    }
}

#[test]
fn random_questions() {
    let mut numbers = Numbers(3);
    let mut ways = std::collections::BTreeMap::new();
    for _ in 0..6000 {
        let text = random_policy(&mut numbers);
        let question = random_question(&mut numbers);
        let Question::Transfer(asked) = &question else { panic!("a message") };
        let lines = ask("p", &text, &question).expect("an answer");
        let wanted = expected(&text, asked);
        assert_eq!(lines[0], question.to_string());
        assert_eq!(lines[1..=wanted.len()], wanted, "{question}\n{}", policy_text::show(&text.policy));
        let way = (
            asked.message_type == MessageType::Signal,
            asked.interface.is_none(),
            wanted[0].starts_with("yes"),
        );
        *ways.entry((way, asked.direction == Direction::Send, wanted.len())).or_insert(0) += 1;
    }
    assert!(ways.len() > 30 && ways.values().all(|&count| count > 3), "{ways:?}");
}

// ---- the command

fn command(words: &[&str], input: &str) -> (Option<i32>, String, String) {
    let mut command = Command::new(env!("CARGO_BIN_EXE_aygeshunt"));
    command
        .args(["policy", "ask"])
        .args(words)
        .stdin(Stdio::piped())
        .stdout(Stdio::piped())
        .stderr(Stdio::piped());
    let mut child = command.spawn().expect("it runs");
    // A command that refuses its words does not read.
    let _ = child.stdin.take().expect("a pipe").write_all(input.as_bytes());
    let Output { status, stdout, stderr } = child.wait_with_output().expect("it ends");
    let text = |bytes: Vec<u8>| String::from_utf8(bytes).expect("text");
    (status.code(), text(stdout), text(stderr))
}

#[test]
fn the_command() {
    let policy = "connect default deny any\n";
    let no = "may uid 7 connect?\nno: connect is denied by connect rule 0, standard input line 1\n    connect default deny any\n";
    assert_eq!(command(&["-", "may uid 7 connect?"], policy), (Some(0), no.to_string(), String::new()));
    assert_eq!(command(&["-", "uid", "7", "connect"], policy), (Some(0), no.to_string(), String::new()));
    let (status, out, fault) = command(&["-", "uid", "7", "leave"], policy);
    assert_eq!((status, out.as_str()), (Some(2), ""));
    assert!(fault.starts_with("aygeshunt: expected connect, own, send or receive, not leave; "), "{fault}");
    assert_eq!(command(&["-"], policy).0, Some(2));
    let (status, out, fault) = command(&["-", "uid 7 connect"], "\nconnect\n");
    assert_eq!(
        (status, out.as_str(), fault.as_str()),
        (Some(1), "", "aygeshunt: -:2: the context is missing\n")
    );
    assert_eq!(command(&["nothing", "uid 7 connect"], "").0, Some(1));
    assert_eq!(command(&[], "").0, Some(2));
}
