//! `aygeshunt head` as it is called.

use std::io::Write;
use std::process::{Command, Output, Stdio};

const CALL: &str =
    "6c01000100000000010000001a00000001016f00010000002f0000000000000003017300010000004d00000000000000";

fn run(words: &[&str], input: &[u8]) -> Output {
    let mut child = Command::new(env!("CARGO_BIN_EXE_aygeshunt"))
        .arg("head")
        .args(words)
        .stdin(Stdio::piped())
        .stdout(Stdio::piped())
        .stderr(Stdio::piped())
        .spawn()
        .unwrap();
    // A command that does not read its input has closed it.
    let _ = child.stdin.take().unwrap().write_all(input);
    child.wait_with_output().unwrap()
}

fn told(words: &[&str], input: &[u8]) -> String {
    let output = run(words, input);
    assert_eq!((output.status.code(), output.stderr.len()), (Some(0), 0), "{output:?}");
    String::from_utf8(output.stdout).unwrap()
}

fn refused(words: &[&str], status: i32, why: &str) {
    let output = run(words, &[]);
    let message = String::from_utf8(output.stderr).unwrap();
    assert_eq!((output.status.code(), output.stdout.len()), (Some(status), 0), "{message}");
    assert!(message.contains(why), "{message}");
}

#[test]
fn good_broken_unfinished() {
    let text = told(&["--hex", CALL], &[]);
    assert!(text.starts_with("call / M, serial 1\na good head of 48 bytes, without a body\n"), "{text}");
    let lost = CALL.replacen("6c01", "6c", 1);
    let text = told(&["--hex", &lost[..20], &lost[20..]], &[]);
    assert!(text.starts_with("answer 2: the version of the protocol is 0, not 1\n"), "{text}");
    assert!(text.contains("byte 3 decides, in the box version: wanted 01\n"), "{text}");
    assert!(
        text.ends_with("with one byte put in at 1 (01), this reads as: call path=/ member=M\n"),
        "{text}"
    );
    assert!(told(&["--hex", "6c 01"], &[])
        .starts_with("unfinished: 2 bytes are there, and the fixed part has 16\n"));
    assert!(told(&["--hex", &CALL[..40]], &[])
        .starts_with("unfinished: 20 bytes are there, and the head has 48\n"));
}

#[test]
fn files_and_standard_input() {
    let bytes = forms::hex::parse(CALL).unwrap();
    let by_hex = told(&["--hex", CALL], &[]);
    assert_eq!(told(&["-"], &bytes), by_hex);
    // What stands behind the message has no part in its head, however much it is.
    let much = [bytes.clone(), vec![b'l'; 3 << 20]].concat();
    assert_eq!(told(&["-"], &much), by_hex);
    let folder = std::env::temp_dir().join(format!("aygeshunt-head-{}", std::process::id()));
    std::fs::create_dir_all(&folder).unwrap();
    let path = |name: &str| folder.join(name).to_str().unwrap().to_string();
    std::fs::write(path("call"), &bytes).unwrap();
    assert_eq!(told(&[&path("call"), "--svg", &path("call.svg")], &[]), by_hex);
    let picture = std::fs::read_to_string(path("call.svg")).unwrap();
    assert_eq!(told(&["--svg=-", "-"], &bytes), picture);
    assert!(picture.starts_with("<svg ") && picture.contains(">call / M, serial 1<"));
    refused(&[&path("call"), "--svg", &path("none/call.svg")], 1, "none/call.svg");
    std::fs::remove_dir_all(&folder).unwrap();
}

#[test]
fn wrong_use() {
    refused(&[], 2, "a file or --hex DIGITS is missing");
    refused(&["--hex"], 2, "a file or --hex DIGITS is missing");
    refused(&["--hex", "6"], 2, "two digits");
    refused(&["--hex", "6c0g"], 2, "0g is no hex byte");
    refused(&["--hex", "+1"], 2, "+1 is no hex byte");
    refused(&["a", "b"], 2, "one file at a time");
    refused(&["--sgv", "a"], 2, "there is no option --sgv");
    refused(&["/no/such/file"], 1, "/no/such/file: ");
    refused(&["/"], 1, "/: ");
}
