//! Captures as scripts: they compile to the same capture, whatever it holds, and say what the guard answered.

mod numbers;

use forms::capture::{self, Call, Capture, Reading};
use forms::message::{self, ByteOrder, Message};
use forms::policy::{Gid, Uid};
use forms::{hex, image, policy_text, script};
use numbers::Numbers;
use std::path::{Path, PathBuf};
use std::process::{Command, Output};
use tool::guard::Place;
use tool::script_show::{line, show};

fn top() -> PathBuf {
    Path::new(env!("CARGO_MANIFEST_DIR")).join("../..")
}

fn shown(reading: &Reading) -> String {
    let mut text = String::new();
    let pushed = show(reading, &mut |lines| {
        text.push_str(lines);
        Ok(())
    });
    pushed.expect("a string takes everything");
    text
}

fn shown_capture(capture: &Capture) -> String {
    shown(&Reading { capture: capture.clone(), fault: None })
}

fn compiled(text: &str, folder: &Path) -> Capture {
    let files = |path: &Path| std::fs::read(folder.join(path)).map_err(|fault| fault.to_string());
    script::parse(text, &files).expect("a good script")
}

/// Every script of the bench and the theatre, with the capture that it compiles to and the lines of its replay.
fn scripts() -> Vec<(String, Capture, String)> {
    let mut paths: Vec<PathBuf> = std::fs::read_dir(top().join("tests/bench"))
        .expect("the bench")
        .map(|entry| entry.expect("a file").path())
        .filter(|path| path.extension().is_some_and(|end| end == "script"))
        .collect();
    paths.push(top().join("examples/theatre/theatre.script"));
    assert!(paths.len() > 15);
    let read = |path: &Path| std::fs::read_to_string(path).expect("a text");
    let one = |path: PathBuf| {
        let capture = compiled(&read(&path), path.parent().expect("a folder"));
        (path.display().to_string(), capture, read(&path.with_extension("out")))
    };
    paths.into_iter().map(one).collect()
}

#[test]
fn scripts_of_the_bench_come_back() {
    for (name, capture, lines) in scripts() {
        let text = shown_capture(&capture);
        assert!(compiled(&text, Path::new("")) == capture, "{name}");
        let answers: String = text
            .lines()
            .filter_map(|line| line.split_once(" # "))
            .map(|(_, line)| format!("{line}\n"))
            .collect();
        assert!(answers == lines, "{name}");
    }
}

#[test]
fn the_capture_of_the_theatre() {
    let file = std::fs::read(top().join("examples/theatre/theatre.capture")).expect("the capture");
    let text = shown(&capture::read(&file));
    assert_eq!(capture::write(&compiled(&text, Path::new(""))), file);
    let stop = "piece 1 message call serial=3 path=/org/theatre/Fans interface=org.theatre.Fans member=Stop \
                destination=org.theatre.Fans # piece 22 128 0 0 0 1 8";
    assert!(text.lines().any(|line| line == stop));
    assert!(text.starts_with("rule connect default deny any\nrule connect default allow gid 20\n"));
}

/// Whatever a file holds, what was read of it comes back.
#[test]
fn spoiled_captures_come_back() {
    let mut numbers = Numbers(1);
    let mut faults = 0;
    for (name, capture, _) in scripts() {
        let file = capture::write(&capture);
        if file.len() > 100_000 {
            continue;
        }
        for turn in 0..60 {
            let mut spoiled = file.clone();
            for _ in 0..=turn % 3 {
                let at = numbers.below(spoiled.len());
                spoiled[at] ^= 1 << numbers.below(8);
            }
            let reading = capture::read(&spoiled);
            faults += usize::from(reading.fault.is_some());
            let text = shown(&reading);
            assert!(compiled(&text, Path::new("")) == reading.capture, "{name} {turn}");
        }
    }
    assert!(faults > 100, "{faults}");
}

/// The words of a piece, without the guard's line.
fn words_of(bytes: Vec<u8>) -> String {
    let capture = Capture { image: Vec::new(), calls: vec![Call::Piece { peer: 1, bytes }] };
    let text = shown_capture(&capture);
    assert_eq!(compiled(&text, Path::new("")), capture);
    let words = text.strip_prefix("image hex \npiece 1 ").expect("one piece");
    words.strip_suffix(" # piece 50 0 0 0 0 0 0\n").expect("the guard's line").to_string()
}

#[test]
fn messages_in_words() {
    let call = Message::new(message::METHOD_CALL, 1).text(message::MEMBER, "M").text(message::PATH, "/");
    assert_eq!(words_of(call.bytes()), "message call serial=1 member=M path=/");
    let all = Message::new(message::ERROR, 0xffff_ffff)
        .number(message::DESCRIPTORS, 3)
        .text(message::SIGNATURE, "a{sv}")
        .text(message::SENDER, ":1.7")
        .text(message::DESTINATION, "org.a-b.c")
        .number(message::REPLY_SERIAL, 9)
        .text(message::ERROR_NAME, "a.b")
        .text(message::MEMBER, "M")
        .text(message::INTERFACE, "c.d")
        .text(message::PATH, "/x");
    let all = Message { order: ByteOrder::Big, flags: 255, body: vec![0, 1], ..all };
    assert_eq!(
        words_of(all.bytes()),
        "message error order=big serial=4294967295 flags=255 descriptors=3 signature=a{sv} sender=:1.7 \
         destination=org.a-b.c reply=9 error=a.b member=M interface=c.d path=/x body=0001"
    );
    let words = words_of(Message { body: vec![0; 300], ..Message::new(255, 5) }.bytes());
    assert_eq!(words, "message 255 serial=5 body-length=300");
}

#[test]
fn unknown_fields_in_words() {
    let message = Message::new(5, 1)
        .raw(10, b"\x01u\0\x07\0\0\0")
        .text(message::SIGNATURE, "")
        .raw(255, b"\x02ay\0\0\0\0\x02\0\0\0\x01\x02");
    let words = "message 5 serial=1 field=10:u:07000000 signature= field=255:ay:000000020000000102";
    assert_eq!(words_of(message.bytes()), words);
}

/// What is not one whole good message stands in digits.
#[test]
fn pieces_in_digits() {
    let good = Message::new(5, 1).text(message::PATH, "/").bytes();
    let in_digits = |bytes: Vec<u8>| {
        let digits = format!("hex {}", hex::show(&bytes));
        assert_eq!(words_of(bytes), digits);
    };
    in_digits(good[..good.len() - 1].to_vec());
    in_digits([good.as_slice(), &[0]].concat());
    in_digits([good.as_slice(), &good].concat());
    in_digits(Message { version: 2, ..Message::new(5, 1) }.bytes());
    in_digits(Message::new(5, 0).bytes());
    in_digits(Message::new(0, 1).bytes());
    in_digits(Message::new(5, 1).text(message::PATH, "a").bytes());
    in_digits(Message::new(message::SIGNAL, 1).bytes());
    in_digits(vec![b'l']);
    assert_eq!(words_of(Vec::new()), "empty");
    assert_eq!(words_of(good), "message 5 serial=1 path=/");
}

#[test]
fn names_and_gids() {
    let own = |name: &[u8]| Call::Own { peer: 1, name: name.to_vec() };
    let calls = vec![
        Call::Connect { uid: Uid(u32::MAX), gids: vec![Gid(0), Gid(7)] },
        own(b"org.a"),
        own(b"hex"),
        own(b""),
        own(b"a b"),
        own(b"a#b"),
        own("é".as_bytes()),
        own(b"a\n"),
        Call::Release { peer: 2, name: b"\xff".to_vec() },
        Call::Release { peer: 2, name: b":1.7".to_vec() },
        Call::Disconnect { peer: 0 },
        Call::Tick { tick: 5, limit: u64::MAX },
        Call::Tick { tick: 4, limit: 0 },
    ];
    let capture = Capture { image: b"bad".to_vec(), calls };
    let text = shown_capture(&capture);
    assert_eq!(
        text,
        "image hex 626164
connect 4294967295 gid 0 7 # connect 50 0 0 0 0
own 1 org.a # own 50 0 0
own 1 hex # own 50 0 0
own 1 # own 50 0 0
own 1 hex 612062 # own 50 0 0
own 1 hex 612362 # own 50 0 0
own 1 hex c3a9 # own 50 0 0
own 1 hex 610a # own 50 0 0
release 2 hex ff # release 30
release 2 :1.7 # release 30
disconnect 0 # disconnect 30 0
tick 5 18446744073709551615 # tick 0 0
tick 4 0 # tick 41 0
"
    );
    assert_eq!(compiled(&text, Path::new("")), capture);
}

/// Rules stand as rules only where they give the very same image.
#[test]
fn images() {
    let lines = |image: &[u8]| {
        let capture = Capture { image: image.to_vec(), calls: Vec::new() };
        assert_eq!(compiled(&shown_capture(&capture), Path::new("")), capture);
        shown_capture(&capture)
    };
    let text = "own default allow name org.a\n";
    let written = image::write(&policy_text::parse(text).expect("good text").policy).expect("an image");
    assert_eq!(lines(&written), format!("rule {text}"));
    let mut longer = [written.as_slice(), &[0]].concat();
    longer[0] += 1;
    assert!(image::read(&longer).is_ok());
    assert_eq!(lines(&longer), format!("image hex {}\n", hex::show(&longer)));
    let none = image::write(&Default::default()).expect("an image");
    assert_eq!(lines(&none), format!("image hex {}\n", hex::show(&none)));
    assert_eq!(lines(&[]), "image hex \n");
}

#[test]
fn lines_of_calls() {
    let place = Place { answer: 1, taken: 2, kind: 3, value: 4, count: 5, decider: 6, position: 7 };
    let said = |call: Call| line(&call, &place);
    assert_eq!(said(Call::Start), "start 1");
    assert_eq!(said(Call::Connect { uid: Uid(9), gids: Vec::new() }), "connect 1 4 5 6 7");
    assert_eq!(said(Call::Own { peer: 9, name: Vec::new() }), "own 1 6 7");
    assert_eq!(said(Call::Release { peer: 9, name: Vec::new() }), "release 1");
    assert_eq!(said(Call::Piece { peer: 9, bytes: Vec::new() }), "piece 1 2 3 4 5 6 7");
    assert_eq!(said(Call::Disconnect { peer: 9 }), "disconnect 1 4");
    assert_eq!(said(Call::Tick { tick: 9, limit: 9 }), "tick 1 4");
}

/// The command with these words, in a folder of its own.
fn command(folder: &Path, words: &[&str]) -> Output {
    std::fs::create_dir_all(folder).expect("a folder");
    let mut command = Command::new(env!("CARGO_BIN_EXE_aygeshunt"));
    command.arg("script").args(words).current_dir(folder).output().expect("it runs")
}

fn text(bytes: &[u8]) -> String {
    String::from_utf8_lossy(bytes).into_owned()
}

#[test]
fn the_command() {
    let folder = Path::new(env!("CARGO_TARGET_TMPDIR")).join("script_show");
    std::fs::create_dir_all(folder.join("inner")).expect("a folder");
    std::fs::write(folder.join("inner/a.policy"), "connect default allow any\n").expect("a file");
    std::fs::write(folder.join("inner/a.script"), "policy a.policy\nconnect 7\n").expect("a file");
    let made = command(&folder, &["compile", "inner/a.script", "a.capture"]);
    assert_eq!((made.status.code(), text(&made.stderr)), (Some(0), String::new()));
    let shown = command(&folder, &["show", "a.capture"]);
    assert_eq!(text(&shown.stdout), "rule connect default allow any\nconnect 7 # connect 0 1 0 1 0\n");
    assert_eq!(shown.status.code(), Some(0));
    let piped = command(&folder, &["compile", "inner/a.script", "-"]);
    assert_eq!(piped.stdout, std::fs::read(folder.join("a.capture")).expect("the capture"));
}

#[test]
fn faults_of_the_command() {
    let folder = Path::new(env!("CARGO_TARGET_TMPDIR")).join("script_faults");
    std::fs::create_dir_all(&folder).expect("a folder");
    std::fs::write(folder.join("bad.script"), "image hex\nstart\nbegin\n").expect("a file");
    std::fs::write(folder.join("bad.capture"), b"\0\0\0\0\0\0\0\0\0\0\0\0\x09\0\0\0\0\0\0\0")
        .expect("a file");
    let bad = command(&folder, &["compile", "bad.script", "out.capture"]);
    assert_eq!(text(&bad.stderr), "aygeshunt: bad.script:3: not a call: begin\n");
    assert_eq!(bad.status.code(), Some(1));
    assert!(!folder.join("out.capture").exists());
    let broken = command(&folder, &["show", "bad.capture"]);
    let fault = "bad capture at byte 12: call 2: there is no kind 9";
    assert_eq!(text(&broken.stdout), format!("image hex \nstart # start 0\n# {fault}\n"));
    assert_eq!(text(&broken.stderr), format!("aygeshunt: bad.capture: {fault}\n"));
    assert_eq!(broken.status.code(), Some(1));
    for words in
        [&["compile", "bad.script"][..], &["show"], &["show", "a", "b"], &["draw", "a"], &[], &["--all"]]
    {
        assert_eq!(command(&folder, words).status.code(), Some(2), "{words:?}");
    }
    assert_eq!(command(&folder, &["show", "nothing"]).status.code(), Some(1));
    let help = command(&folder, &["show", "--help"]);
    assert!(text(&help.stdout).contains("aygeshunt script show FILE.capture"));
}
