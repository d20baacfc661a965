//! The command `policy retire`: which form it reads and writes, standard input and output, and files that it leaves alone.

use std::io::Write;
use std::path::{Path, PathBuf};
use std::process::{Command, Stdio};

const OLD: &str = "# front\nown default allow any\nown user 7 deny prefix a.b # why\n";
const NEW: &str =
    "# front\nown default allow any\nown user 7 deny name a.b # why\nown user 7 deny name a.b.c # why\n";
const NAMES: &str = "a.b\na.b.c\nx.y\n";
const TOLD: [&str; 9] = [
    "own rule 0, line 2: own default allow any",
    "  stays, as own rule 0",
    "own rule 1, line 3: own user 7 deny prefix a.b",
    "  becomes own rule 1: own user 7 deny name a.b",
    "  becomes own rule 2: own user 7 deny name a.b.c",
    "  names under a.b that are not listed are no longer denied by it",
    "names added: a.b a.b.c",
    "names:3: not added: no prefix covers x.y",
    "own rules: 2 before, 3 now",
];

/// A folder of its own for each test, with an old policy, its image and a list.
fn folder(name: &str) -> PathBuf {
    let folder = Path::new(env!("CARGO_TARGET_TMPDIR")).join(name);
    let _ = std::fs::remove_dir_all(&folder);
    std::fs::create_dir_all(&folder).expect("a folder");
    let policy = forms::policy_text::parse(OLD).expect("good text").policy;
    let image = forms::image::write(&policy).expect("an image");
    for (name, bytes) in [("old.policy", OLD.as_bytes()), ("old.image", &image), ("names", NAMES.as_bytes())]
    {
        std::fs::write(folder.join(name), bytes).expect("a file");
    }
    folder
}

/// The status, and what was said on standard output and standard error.
fn retire(folder: &Path, words: &[&str], stdin: &[u8]) -> (Option<i32>, Vec<u8>, String) {
    let mut command = Command::new(env!("CARGO_BIN_EXE_aygeshunt"));
    command.args(["policy", "retire"]).args(words).current_dir(folder);
    let mut run =
        command.stdin(Stdio::piped()).stdout(Stdio::piped()).stderr(Stdio::piped()).spawn().expect("it runs");
    // Where it reads nothing it may be gone before all is written.
    let _ = run.stdin.take().expect("standard input").write_all(stdin);
    let done = run.wait_with_output().expect("it ends");
    (done.status.code(), done.stdout, String::from_utf8_lossy(&done.stderr).into_owned())
}

fn file(folder: &Path, name: &str) -> Vec<u8> {
    std::fs::read(folder.join(name)).expect(name)
}

fn told(list: &str) -> String {
    TOLD.map(|line| format!("{}\n", line.replace("names:3", &format!("{list}:3")))).concat()
}

#[test]
fn a_text_becomes_a_text() {
    let folder = folder("retire_text");
    let (status, out, errors) = retire(&folder, &["old.policy", "names", "new.policy"], b"");
    assert_eq!((status, out, errors.as_str()), (Some(0), told("names").into_bytes(), ""));
    assert_eq!(file(&folder, "new.policy"), NEW.as_bytes());
    assert_eq!(file(&folder, "old.policy"), OLD.as_bytes());
    // Into its own file; and once more, as nothing is left to be converted.
    for _ in 0..2 {
        assert_eq!(retire(&folder, &["old.policy", "names", "old.policy"], b"").0, Some(0));
        assert_eq!(file(&folder, "old.policy"), NEW.as_bytes());
    }
}

#[test]
fn an_image_becomes_an_image() {
    let folder = folder("retire_image");
    let (status, out, errors) = retire(&folder, &["old.image", "names", "new.image"], b"");
    assert_eq!((status, errors.as_str()), (Some(0), ""));
    // An image has no lines to tell, and its length is told.
    let found = String::from_utf8_lossy(&out).into_owned();
    let found: Vec<&str> = found.lines().collect();
    assert_eq!(
        (found[0], found[2]),
        ("own rule 0: own default allow any", "own rule 1: own user 7 deny prefix a.b")
    );
    assert_eq!(found[3..8], TOLD[3..8]);
    let (before, now) = (file(&folder, "old.image").len(), file(&folder, "new.image").len());
    assert_eq!(found[8], format!("own rules: 2 before, 3 now; bytes: {before} before, {now} now"));
    let read = forms::image::read(&file(&folder, "new.image")).expect("a good image");
    assert_eq!(read, forms::policy_text::parse(NEW).expect("good text").policy);
}

#[test]
fn standard_input_and_output() {
    let folder = folder("retire_dash");
    let (status, out, errors) = retire(&folder, &["-", "names", "-"], OLD.as_bytes());
    assert_eq!((status, out, errors), (Some(0), NEW.as_bytes().to_vec(), told("names")));
    let (status, out, errors) = retire(&folder, &["old.policy", "-", "-"], NAMES.as_bytes());
    assert_eq!((status, out, errors), (Some(0), NEW.as_bytes().to_vec(), told("-")));
    let image = file(&folder, "old.image");
    let (status, out, _) = retire(&folder, &["-", "names", "-"], &image);
    assert_eq!((status, retire(&folder, &["old.image", "names", "new.image"], b"").0), (Some(0), Some(0)));
    assert_eq!(out, file(&folder, "new.image"));
}

#[test]
fn refusals_write_nothing() {
    let folder = folder("retire_refused");
    std::fs::write(folder.join("bad"), "a.b\na.b\n").expect("a file");
    std::fs::write(folder.join("cut.image"), &file(&folder, "old.image")[..40]).expect("a file");
    std::fs::write(
        folder.join("full"),
        (0..300).map(|number| format!("a.b.c{number}\n")).collect::<String>(),
    )
    .expect("a file");
    std::fs::write(folder.join("long"), "# comment\n".repeat(30_000)).expect("a file");
    let long = "aygeshunt: long: longer than 262144 bytes, which is the most that is read\n";
    let cases = [
        (
            ["old.policy", "bad"],
            "aygeshunt: refused with 54, bad list of names\nbad:2: a.b is in line 1 already\n",
        ),
        (["cut.image", "bad"], "aygeshunt: refused with 50, bad policy image\ncut.image: header: "),
        (["old.policy", "full"], "aygeshunt: refused with 53, conversion too large\n301 own rules and "),
        (["old.policy", "long"], long),
        (["old.policy", "none"], "aygeshunt: none: "),
        (["none", "names"], "aygeshunt: none: "),
    ];
    for ([old, list], wanted) in cases {
        let (status, out, errors) = retire(&folder, &[old, list, "new"], b"");
        assert_eq!((status, out.as_slice()), (Some(1), &b""[..]), "{errors}");
        assert!(errors.starts_with(wanted), "{errors}");
        assert!(!folder.join("new").exists(), "{old} {list}");
    }
    assert_eq!(retire(&folder, &["old.policy", "bad", "old.policy"], b"").0, Some(1));
    assert_eq!(file(&folder, "old.policy"), OLD.as_bytes());
}
