//! The command itself: where the capture goes, what is said, and the status.

use crate::capture::ALL;
use crate::recording::Recording;
use forms::capture;
use std::path::PathBuf;
use std::process::{Command, Output};

/// A folder of its own for a test, with a recording, a policy and a map in it.
struct Folder {
    path: PathBuf,
}

impl Folder {
    fn new(name: &str) -> Folder {
        let path = std::env::temp_dir().join(format!("aygeshunt-import-{name}-{}", std::process::id()));
        std::fs::create_dir_all(&path).unwrap();
        let folder = Folder { path };
        folder.write("a.pcap", &Recording::new().comes(":1.7").file);
        folder.write("all.policy", ALL.as_bytes());
        folder
    }

    fn write(&self, name: &str, bytes: &[u8]) {
        std::fs::write(self.path.join(name), bytes).unwrap();
    }

    fn run(&self, words: &[&str]) -> (i32, String, String) {
        let mut command = Command::new(env!("CARGO_BIN_EXE_aygeshunt"));
        let Output { status, stdout, stderr } =
            command.arg("import").args(words).current_dir(&self.path).output().unwrap();
        let text = |bytes: Vec<u8>| String::from_utf8_lossy(&bytes).into_owned();
        (status.code().unwrap(), text(stdout), text(stderr))
    }
}

impl Drop for Folder {
    fn drop(&mut self) {
        let _ = std::fs::remove_dir_all(&self.path);
    }
}

#[test]
fn a_capture_stands_beside_its_recording() {
    let folder = Folder::new("beside");
    let (status, out, told) = folder.run(&["a.pcap", "--policy", "all.policy"]);
    assert_eq!((status, out.as_str()), (0, ""));
    let wanted = "nobody said the uid of :1.7: 65534 is taken\n\
                  2 packets: 1 message of 1 peer kept in a.capture, the guard passes 1\n\
                  left out: 1 of the bus itself, which are the host's\n";
    assert_eq!(told, wanted);
    let written = capture::read(&std::fs::read(folder.path.join("a.capture")).unwrap());
    assert_eq!((written.fault, written.capture.calls.len()), (None, 3));
    let (status, _, told) = folder.run(&["a.pcap", "--policy", "all.policy"]);
    assert_eq!((status, told.as_str()), (1, "aygeshunt: a.capture is there already; -o writes over it\n"));
    assert_eq!(folder.run(&["a.pcap", "--policy", "all.policy", "-o", "a.capture"]).0, 0);
}

#[test]
fn the_list_is_a_map() {
    let folder = Folder::new("list");
    let (status, map, told) = folder.run(&["a.pcap", "--list"]);
    assert_eq!((status, told.as_str()), (0, ""));
    assert!(map.ends_with(":1.7 uid 65534  # nobody said its uid\n"), "{map}");
    folder.write("a.map", map.as_bytes());
    let (status, _, told) = folder.run(&["a.pcap", "--policy", "all.policy", "--peers", "a.map"]);
    assert_eq!((status, told.lines().count()), (0, 2), "{told}");
    assert!(!folder.path.join("a.map.capture").exists());
}

#[test]
fn wrong_use_and_wrong_files_are_told() {
    let folder = Folder::new("wrong");
    folder.write("cut.pcap", &Recording::new().bytes(b"abc").file[..42]);
    folder.write("empty.pcap", b"");
    folder.write("bad.map", b":1.7 uid\n:1.7 uid 1\n");
    folder.write("bad.policy", b"connect\n");
    for words in [
        &[][..],
        &["a.pcap"],
        &["a.pcap", "b.pcap", "--list"],
        &["a.pcap", "--list", "--policy", "all.policy"],
        &["a.pcap", "--list", "-o", "x"],
        &["-", "--policy", "all.policy"],
        &["a.pcap", "--policy", "all.policy", "--wrong"],
    ] {
        let (status, _, told) = folder.run(words);
        assert!(status == 2 && told.contains("aygeshunt import --help"), "{words:?}: {told}");
    }
    for (words, wanted) in [
        (&["cut.pcap", "--list"][..], "cut.pcap: bad recording at byte 40: a record has 3 bytes, and only 2 are left"),
        (&["empty.pcap", "--list"], "empty.pcap: bad recording at byte 0: the first number of a recording has 4 bytes, and only 0 are left"),
        (&["absent.pcap", "--list"], "absent.pcap: No such file or directory (os error 2)"),
        (&["a.pcap", "--list", "--peers", "bad.map"], "bad.map:1: the uid is missing\nbad.map:2: :1.7 stands in line 1 already"),
        (&["a.pcap", "--policy", "bad.policy"], "bad.policy:1: the context is missing"),
        (&["a.pcap", "--policy", "all.policy", "-o", "no/where"], "no/where: No such file or directory (os error 2)"),
    ] {
        let (status, out, told) = folder.run(words);
        assert_eq!((status, out.as_str(), told.trim_end()), (1, "", format!("aygeshunt: {wanted}").as_str()));
    }
}
