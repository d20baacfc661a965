//! Conversion files: their layout, the lines for them, and how the programs are called.

mod common;

use common::image_of;
use second::conversions::{lines, read, write, Conversion};
use std::process::{Command, Output};

fn conversions() -> Vec<Conversion> {
    let image = image_of("own default allow prefix org.a");
    let with = |list: &[u8], room| Conversion { image: image.clone(), list: list.to_vec(), room };
    vec![with(b"", 37), with(b"", 36), with(b"\x00", 2), with(b"\x00", 0), Conversion::default()]
}

/// The rule is gone, and its string is left.
const FIRST: &str = "0 0 37 250000000000000020000000000000002000000000000000\
    20000000200000006f72672e61\n";

#[test]
fn one_line_for_each() {
    let others = format!("1 53 0 {}\n2 54 0 a5a5\n3 54 0 -\n4 50 0 -\n", "a5".repeat(36));
    assert_eq!(lines(&write(&conversions())), (FIRST.to_string() + &others, true));
    assert_eq!(lines(&[]), (String::new(), true));
}

#[test]
fn layout() {
    let file = write(&conversions());
    assert_eq!(read(&file), (conversions(), true));
    let front = [53_u32.to_le_bytes().as_slice(), &conversions()[0].image].concat();
    assert_eq!(file[..front.len()], front);
    assert_eq!(file[front.len()..front.len() + 8], [0, 0, 0, 0, 37, 0, 0, 0]);
    let first = front.len() + 8;
    for cut in [1, 4, 10, front.len(), first - 1, first + 1, file.len() - 1] {
        let (whole, is_whole) = read(&file[..cut]);
        assert!(!is_whole && conversions().starts_with(&whole), "{cut}");
    }
    assert_eq!(lines(&file[..first]), (FIRST.to_string(), true));
    assert_eq!(lines(&file[..first + 1]), (FIRST.to_string(), false));
}

fn run(program: &str, words: &[&str]) -> Output {
    Command::new(program).args(words).output().expect("it runs")
}

#[test]
fn programs() {
    let folder = env!("CARGO_TARGET_TMPDIR");
    let path = format!("{folder}/some.conversions");
    let done = run(env!("CARGO_BIN_EXE_generate"), &["3", "20", &path, "conversions"]);
    assert!(done.status.success());
    let file = std::fs::read(&path).expect("it was written");
    assert_eq!(read(&file).0.len(), 20);
    let printed = run(env!("CARGO_BIN_EXE_second"), &["--convert", &path]);
    assert!(printed.status.success() && printed.stdout == lines(&file).0.into_bytes());
    let missing = run(env!("CARGO_BIN_EXE_second"), &["--convert", &format!("{path}.missing")]);
    assert_eq!((missing.stdout.as_slice(), missing.status.code()), (&b""[..], Some(2)));
    std::fs::write(&path, &file[..file.len() - 1]).expect("it can be written");
    let broken = run(env!("CARGO_BIN_EXE_second"), &["--convert", &path]);
    assert_eq!(broken.status.code(), Some(2));
    assert_eq!(broken.stdout, lines(&file[..file.len() - 1]).0.into_bytes());
    assert!(!run(env!("CARGO_BIN_EXE_coverage"), &["--conversions", &path]).status.success());
    std::fs::write(&path, &file).expect("it can be written");
    // Twenty conversions do not show everything.
    let covered = run(env!("CARGO_BIN_EXE_coverage"), &["--conversions", &path]);
    assert!(!covered.status.success());
    assert!(String::from_utf8_lossy(&covered.stdout).starts_with("20 conversions\n"));
}
