//! What is told of hand-written policies: faults, rules that never decide, and what is too large.

use std::path::Path;
use std::process::{Command, Output};
use tool::policy::lint::{lint, Finding};

/// The findings of a text, one on a line.
fn found(text: &str) -> String {
    let told = |Finding { line, what }| match line {
        Some(line) => format!("{line}: {what}\n"),
        None => format!("{what}\n"),
    };
    lint(text).findings.into_iter().map(told).collect()
}

#[test]
fn a_covered_rule_is_told_with_the_line_that_covers_it() {
    let text = "# a comment
        transaction default allow send call name=org.a

        transaction user 5 allow send any
        transaction mandatory deny send any   # nothing is sent";
    let by = "never decides: line 5 covers it: transaction mandatory deny send any";
    assert_eq!(found(text), format!("2: {by}\n4: {by}\n"));
    assert_eq!(lint(text).rules, 3);
}

/// Of several that cover it the highest is told, and that one can decide.
#[test]
fn duplicates() {
    let text = "own default allow any\n".repeat(3);
    let by = "never decides: line 3 covers it: own default allow any";
    assert_eq!(found(&text), format!("1: {by}\n2: {by}\n"));
    assert_eq!(found("own default allow any\nown default deny any\nconnect default allow any"), {
        "1: never decides: line 2 covers it: own default deny any\n"
    });
    let both = "own default allow any\nown mandatory deny any\nown default allow any\n";
    let by = "never decides: line 2 covers it: own mandatory deny any";
    assert_eq!(found(both), format!("1: {by}\n3: {by}\n"));
}

/// The line of each rule that never decides.
fn never(text: &str) -> Vec<Option<usize>> {
    lint(text).findings.iter().map(|finding| finding.line).collect()
}

#[test]
fn what_covers() {
    let second_covers = [
        ("connect default allow uid 7", "connect default deny any"),
        ("connect default allow gid 7", "connect mandatory deny gid 7"),
        ("own user 5 allow name a.b", "own user 5 deny prefix a.b"),
        ("own group 5 allow prefix a.b.c", "own group 5 allow prefix a.b"),
        ("own default allow any", "own mandatory allow any"),
        (
            "transaction default deny send call interface=a.b",
            "transaction default deny send any interface=a.b",
        ),
        (
            "transaction default allow send call interface=a.b",
            "transaction default deny send any interface=a.b",
        ),
        (
            "transaction default allow send call interface=a.b",
            "transaction default allow send any interface=a.b",
        ),
        (
            "transaction default deny send call interface=a.b member=M",
            "transaction mandatory allow send call member=M",
        ),
    ];
    for (first, second) in second_covers {
        assert_eq!(never(&format!("{first}\n{second}")), [Some(1)], "{first} {second}");
    }
    assert_eq!(never("own mandatory allow any\nown default deny any"), [Some(2)]);
}

#[test]
fn what_does_not_cover() {
    let second_does_not = [
        ("connect default allow uid 7", "connect default deny gid 7"),
        ("connect default allow any", "connect default deny uid 7"),
        ("own user 5 allow any", "own group 5 allow any"),
        ("own user 5 allow any", "own user 6 allow any"),
        ("own group 5 allow any", "own user 5 allow any"),
        ("own default allow name a.bc", "own default allow prefix a.b"),
        ("own default allow prefix a.b", "own default allow name a.b"),
        ("transaction default allow send any", "transaction default allow receive any"),
        ("transaction default allow send any", "transaction default allow send call"),
        ("transaction default allow send call", "transaction default allow send signal"),
        (
            "transaction default deny send call interface=a.b",
            "transaction default allow send any interface=a.b",
        ),
        (
            "transaction default deny send signal interface=a.b",
            "transaction default allow send any interface=a.b",
        ),
        ("transaction default deny send call", "transaction default deny send call interface=a.b"),
        ("transaction default deny send call path=/", "transaction default deny send call path=/a"),
    ];
    for (first, second) in second_does_not {
        assert_eq!(never(&format!("{first}\n{second}")), [], "{first} {second}");
    }
}

#[test]
fn faults_and_covered_rules_by_line() {
    let text = "own default allow name org\nown default allow any\nlimit 5\nown default deny any";
    assert_eq!(
        found(text),
        "1: org is no well-known name: at its byte 3 wanted two elements at least
2: never decides: line 4 covers it: own default deny any
3: a rule begins with connect, own or transaction, not limit
"
    );
    assert_eq!(lint(text).rules, 2);
}

/// Each limit and one beyond. Sections that are too long are told once, at the first rule too many.
#[test]
fn policies_that_are_too_large() {
    let own = |count: usize| (0..count).map(|uid| format!("own user {uid} allow any\n")).collect::<String>();
    let connect =
        |count: usize| (0..count).map(|uid| format!("connect default deny uid {uid}\n")).collect::<String>();
    let transaction = |count: usize| {
        (0..count).map(|uid| format!("transaction user {uid} deny send any\n")).collect::<String>()
    };
    let full = connect(256) + &own(256) + &transaction(512);
    assert_eq!((found(&full), lint(&full).rules), (String::new(), 1024));
    assert_eq!(
        found(&(own(258) + &connect(257))),
        "257: more than 256 own rules\n515: more than 256 connect rules\n"
    );
    assert_eq!(found(&transaction(513)), "513: more than 512 transaction rules\n");
    let long =
        |length: usize| format!("transaction default allow send any path=/{}\n", "a".repeat(length - 1));
    assert_eq!(found(&long(65_536 - 72)), "");
    assert_eq!(found(&long(65_537 - 72)), "the image would be longer than 65,536 bytes\n");
}

fn command(words: &[&str]) -> (Option<i32>, String, String) {
    let folder = Path::new(env!("CARGO_TARGET_TMPDIR")).join("lint");
    std::fs::create_dir_all(&folder).expect("a folder");
    for (name, text) in [
        ("good.policy", "own default allow any\n"),
        ("twice.policy", "own default allow any\nown default allow any\n"),
        ("bad.policy", "\nown\nown default\n"),
        ("no-text.policy", "own default allow any\n\u{0}"),
    ] {
        std::fs::write(folder.join(name), text).expect("a file");
    }
    let mut command = Command::new(env!("CARGO_BIN_EXE_aygeshunt"));
    let Output { status, stdout, stderr } =
        command.args(["policy", "lint"]).args(words).current_dir(folder).output().expect("it runs");
    let text = |bytes: Vec<u8>| String::from_utf8(bytes).expect("text");
    (status.code(), text(stdout), text(stderr))
}

#[test]
fn the_command() {
    let good = "good.policy: 1 rules, each can decide; no fault\n";
    let twice = "twice.policy:1: never decides: line 2 covers it: own default allow any\n";
    let bad = "bad.policy:2: the context is missing\nbad.policy:3: the verdict is missing\n";
    assert_eq!(command(&["good.policy"]), (Some(0), good.to_string(), String::new()));
    assert_eq!(
        command(&["twice.policy"]),
        (Some(1), twice.to_string(), "aygeshunt: 1 finding\n".to_string())
    );
    let all = command(&["bad.policy", "good.policy", "twice.policy"]);
    assert_eq!(all, (Some(1), format!("{bad}{good}{twice}"), "aygeshunt: 3 findings\n".to_string()));
    assert_eq!(command(&["nothing"]).0, Some(1));
    assert_eq!(command(&[]).0, Some(2));
    assert_eq!(command(&["--all"]).0, Some(2));
}
