//! The command `policy`: texts to images and back, and what it says of wrong use.

use std::path::{Path, PathBuf};
use std::process::{Command, Output};

/// A folder of its own for each test.
fn folder(name: &str) -> PathBuf {
    let folder = Path::new(env!("CARGO_TARGET_TMPDIR")).join(name);
    std::fs::create_dir_all(&folder).expect("a folder");
    folder
}

fn command(folder: &Path, words: &[&str]) -> Output {
    let mut command = Command::new(env!("CARGO_BIN_EXE_aygeshunt"));
    command.arg("policy").args(words).current_dir(folder).output().expect("it runs")
}

fn ended(output: &Output) -> (Option<i32>, String, String) {
    let text = |bytes: &[u8]| String::from_utf8_lossy(bytes).into_owned();
    (output.status.code(), text(&output.stdout), text(&output.stderr))
}

#[test]
fn to_an_image_and_back() {
    let folder = folder("policy_both_ways");
    let rules = "connect default allow any\nown user 5 deny prefix org.a\ntransaction mandatory deny send call member=Stop\n";
    std::fs::write(folder.join("a.policy"), format!("# a comment\n\n{rules}")).expect("a file");
    let nothing = (Some(0), String::new(), String::new());
    assert_eq!(ended(&command(&folder, &["compile", "a.policy", "a.image"])), nothing);
    assert_eq!(ended(&command(&folder, &["show", "a.image"])), (Some(0), rules.to_string(), String::new()));
    let image = std::fs::read(folder.join("a.image")).expect("the image");
    let policy = forms::policy_text::parse(rules).expect("good text").policy;
    assert_eq!(forms::image::read(&image), Ok(policy));
    assert_eq!(command(&folder, &["compile", "a.policy", "-"]).stdout, image);
}

#[test]
fn what_cannot_be_read() {
    let folder = folder("policy_faults");
    std::fs::write(folder.join("bad.policy"), "\nown default allow name org\nlimit\n").expect("a file");
    std::fs::write(folder.join("full.policy"), "own default allow any\n".repeat(257)).expect("a file");
    std::fs::write(folder.join("no.policy"), b"own default allow any\n# \xff\n").expect("a file");
    std::fs::write(folder.join("bad.image"), [33; 33]).expect("a file");
    let refused = |words: &[&str]| {
        let (status, out, fault) = ended(&command(&folder, words));
        assert_eq!((status, out.as_str()), (Some(1), ""), "{words:?}");
        fault
    };
    assert_eq!(
        refused(&["compile", "bad.policy", "out.image"]),
        "aygeshunt: bad.policy:2: org is no well-known name: at its byte 3 wanted two elements at least\n"
    );
    let full = "aygeshunt: full.policy: more than 256 own rules\n";
    assert_eq!(refused(&["compile", "full.policy", "out.image"]), full);
    assert_eq!(refused(&["compile", "no.policy", "out.image"]), "aygeshunt: no.policy:2: this is no text\n");
    assert!(!folder.join("out.image").exists());
    assert_eq!(
        refused(&["show", "bad.image"]),
        "aygeshunt: bad.image: bad image: header: the total length is 555819297, and the image has 33 bytes\n"
    );
    assert!(refused(&["show", "nothing"]).starts_with("aygeshunt: nothing: "));
    assert!(refused(&["compile", "full.policy", "no/such/folder"]).starts_with("aygeshunt: full.policy: "));
}

#[test]
fn wrong_use_and_help() {
    let folder = folder("policy_use");
    let wanted = [
        (&[][..], "policy wants the word compile, show, lint, ask or retire"),
        (&["print", "a"], "policy wants the word compile, show, lint, ask or retire"),
        (&["compile", "a.policy"], "policy compile wants FILE.policy and OUT.image"),
        (&["compile", "a", "b", "c"], "policy compile wants FILE.policy and OUT.image"),
        (&["show"], "policy show wants one FILE.image"),
        (&["show", "a", "b"], "policy show wants one FILE.image"),
        (&["lint"], "policy lint wants at least one FILE.policy"),
        (&["ask"], "policy ask wants FILE.policy and a question"),
        (&["retire", "a", "b"], "policy retire wants OLD, NAMES and NEW"),
        (
            &["retire", "-", "-", "b"],
            "policy retire reads one of OLD and NAMES from standard input, not both",
        ),
        (&["show", "--all", "a"], "there is no option --all"),
    ];
    for (words, what) in wanted {
        let fault = format!("aygeshunt: {what}; aygeshunt policy --help says how it is used\n");
        assert_eq!(ended(&command(&folder, words)), (Some(2), String::new(), fault), "{words:?}");
    }
    for words in [&["--help"][..], &["ask", "--help"], &["lint", "-h"]] {
        let (status, help, fault) = ended(&command(&folder, words));
        assert_eq!((status, fault.as_str()), (Some(0), ""));
        for word in ["compile", "show", "lint", "ask", "retire"] {
            assert!(help.contains(&format!("aygeshunt policy {word} ")), "{word}");
        }
    }
}
