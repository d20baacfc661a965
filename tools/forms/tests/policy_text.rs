//! Policies as text: each kind of line and of fault, and the line of each rule.

use forms::policy::{
    ConnectRule, Context, Direction, Gid, MessageType, NameMatcher, Policy, Section, TransactionRule, Uid,
    Verdict, Who,
};
use forms::policy_text::{named, parse, parse_all, show, show_rule, TextFault};

const POLICY: &str = "connect default allow any
connect mandatory deny uid 1000
connect default allow gid 4294967295
own default deny any
own user 1000 allow name org.a.b
own group 5 deny prefix org.foo
own mandatory allow any
transaction mandatory deny send call name=org.x.y path=/a interface=a.b member=M
transaction default allow send any
transaction group 5 allow receive signal interface=a.b
transaction user 0 allow receive call name=org.a.b
";

#[test]
fn text_of_a_policy_reads_back() {
    let policy = parse(POLICY).expect("good text").policy;
    assert_eq!(show(&policy), POLICY);
    assert_eq!(show(&Policy::default()), "");
    assert_eq!(parse("").expect("good text").policy, Policy::default());
}

#[test]
fn rules_as_values() {
    let policy = parse(POLICY).expect("good text").policy;
    assert_eq!([policy.connect.len(), policy.own.len(), policy.transaction.len()], [3, 4, 4]);
    let highest = Who::Gid(Gid(u32::MAX));
    let connect = ConnectRule { context: Context::Default, verdict: Verdict::Allow, who: highest };
    assert_eq!(policy.connect[2], connect);
    assert_eq!(policy.own[1].context, Context::User(Uid(1000)));
    assert_eq!(policy.own[2].name, NameMatcher::Prefix("org.foo".to_string()));
    let transaction = TransactionRule {
        context: Context::Group(Gid(5)),
        verdict: Verdict::Allow,
        direction: Direction::Receive,
        message_type: Some(MessageType::Signal),
        name: None,
        path: None,
        interface: Some("a.b".to_string()),
        member: None,
    };
    assert_eq!(policy.transaction[2], transaction);
}

/// Literals may stand in any order; they are shown in one.
#[test]
fn order_of_literals() {
    let text = "transaction default allow send any member=M path=/ interface=a.b name=org.a";
    let policy = parse(text).expect("good text").policy;
    assert_eq!(
        show_rule(&policy, Section::Transaction, 0),
        "transaction default allow send any name=org.a path=/ interface=a.b member=M"
    );
}

#[test]
fn comments_blanks_and_lines() {
    let text = "# a comment\n\n  own default allow any # behind a rule\r\nconnect default allow any#close\n\
                \tconnect  mandatory\tdeny any  \nown user 1 deny any";
    let read = parse(text).expect("good text");
    let shown =
        "connect default allow any\nconnect mandatory deny any\nown default allow any\nown user 1 deny any\n";
    assert_eq!(show(&read.policy), shown);
    let lines = |section| (0..3).map(|position| read.line(section, position)).collect::<Vec<_>>();
    assert_eq!(lines(Section::Connect), [Some(4), Some(5), None]);
    assert_eq!(lines(Section::Own), [Some(3), Some(6), None]);
    assert_eq!(lines(Section::Transaction), [None, None, None]);
}

/// A rule on a bad line is no rule, and the lines of the others stay theirs.
#[test]
fn all_faults_at_once() {
    let text = "own default allow any
        limit 5
        own default allow name org
        own default deny any
        connect default allow any more
        connect default deny any
        transaction default allow send any path=/ path=/";
    let (read, faults) = parse_all(text);
    assert_eq!(faults.iter().map(|fault| fault.line).collect::<Vec<_>>(), [2, 3, 5, 7]);
    assert_eq!(show(&read.policy), "connect default deny any\nown default allow any\nown default deny any\n");
    assert_eq!(read.line(Section::Connect, 0), Some(6));
    assert_eq!(read.line(Section::Own, 1), Some(4));
    assert_eq!(parse(text), Err(faults[0].clone()));
    assert_eq!(parse_all(POLICY).1, []);
}

/// The fault of a line.
fn what(line: &str) -> String {
    let TextFault { line: number, what } =
        parse(&format!("own default allow any\n\n{line}\n")).expect_err(line);
    assert_eq!(number, 3, "{line}");
    what
}

#[test]
fn faults_of_the_front() {
    let wanted = [
        ("limit 5", "a rule begins with connect, own or transaction, not limit"),
        ("Connect default allow any", "a rule begins with connect, own or transaction, not Connect"),
        ("connect", "the context is missing"),
        ("connect required allow any", "the context is default, group, user or mandatory, not required"),
        ("connect group 5 allow any", "a connect rule's context is default or mandatory"),
        ("connect user 5 allow any", "a connect rule's context is default or mandatory"),
        ("own user allow any", "the user id must be a number up to 4294967295, not allow"),
        ("own group", "the group id is missing"),
        ("connect default", "the verdict is missing"),
        ("own default maybe any", "the verdict is allow or deny, not maybe"),
    ];
    for (line, fault) in wanted {
        assert_eq!(what(line), fault, "{line}");
    }
}

#[test]
fn faults_of_connect_and_own() {
    let wanted = [
        ("connect default allow", "any, uid or gid is missing"),
        ("connect default allow some", "a connect rule matches any, uid or gid, not some"),
        ("connect default allow uid", "the uid is missing"),
        ("connect default allow uid x", "the uid must be a number up to 4294967295, not x"),
        ("connect default allow uid 4294967296", "the uid must be a number up to 4294967295, not 4294967296"),
        ("connect default allow gid -1", "the gid must be a number up to 4294967295, not -1"),
        ("connect default allow gid +1", "the gid must be a number up to 4294967295, not +1"),
        ("connect default allow any more", "unexpected word more"),
        ("own default allow", "any, name or prefix is missing"),
        ("own default allow some", "an own rule matches any, name or prefix, not some"),
        ("own default allow name", "the name is missing"),
        ("own default allow prefix", "the prefix is missing"),
        (
            "own default allow name org",
            "org is no well-known name: at its byte 3 wanted two elements at least",
        ),
        (
            "own default allow prefix :1.1",
            ":1.1 is no well-known name: at its byte 0 wanted a letter, _ or -",
        ),
        ("own default allow name org.a b", "unexpected word b"),
    ];
    for (line, fault) in wanted {
        assert_eq!(what(line), fault, "{line}");
    }
}

#[test]
fn faults_of_transactions() {
    let wanted = [
        ("", "send or receive is missing"),
        ("both any", "the direction is send or receive, not both"),
        ("send", "any, call or signal is missing"),
        ("send return", "the message type is any, call or signal, not return"),
        ("send any name", "unexpected word name"),
        ("send any name=", "an empty text is no well-known name: at its byte 0 wanted a letter, _ or -"),
        ("send any path=a", "a is no path: at its byte 0 wanted / at the start"),
        ("send any interface=a", "a is no interface: at its byte 1 wanted two elements at least"),
        ("send any member=a.b", "a.b is no member: at its byte 1 wanted a letter, a digit or _"),
        ("send any sender=a.b", "a literal is name, path, interface or member, not sender"),
        ("send any path=/ member=M path=/", "path is given twice"),
    ];
    for (end, fault) in wanted {
        assert_eq!(what(&format!("transaction default allow {end}")), fault, "{end}");
    }
}

/// A complaint is one short line whatever the text holds.
#[test]
fn words_in_complaints() {
    assert_eq!(named("a\u{7}b\u{1b}"), "a\u{fffd}b\u{fffd}");
    assert_eq!(named(&"é".repeat(60)), "é".repeat(60));
    assert_eq!(named(&"é".repeat(61)), "é".repeat(60) + "...");
    let long = "x".repeat(1000);
    for line in [format!("own default allow name {long}"), long.clone(), format!("connect {long}")] {
        assert!(what(&line).len() < 200, "{line}");
    }
}

/// A rule for a gid has the same number in an image as one for a prefix, and is none.
#[test]
fn rules_for_prefixes_are_found_by_their_positions() {
    let text = "connect default allow gid 2
        own default allow prefix a.b
        own default allow name a.b
        own default allow any
        own user 2 deny prefix c.d";
    let policy = parse(text).expect("good text").policy;
    assert_eq!(policy.prefix_rules(), [0, 3]);
    assert_eq!(
        parse("connect default allow gid 2\nown default allow any").expect("good text").policy.prefix_rules(),
        [0; 0]
    );
}
