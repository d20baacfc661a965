//! The command `import`.

use crate::cli::{read_file, read_text, write_file, Done, Fault, Out, Words, MOST_CAPTURE};
use crate::import::pcap::PcapFault;
use crate::import::peers::{parse_map, Peer, Peers};
use crate::import::{counted, import, Imported};
use crate::rules::Rules;
use forms::capture;
use forms::policy_text::TextFault;
use std::io::Write;
use std::path::Path;

pub const HELP: &str = "usage: aygeshunt import PCAP --policy FILE [--peers MAP] [-o CAPTURE]
       aygeshunt import PCAP --list [--peers MAP]

Turns traffic of a real bus, as `dbus-monitor --pcap` and `busctl capture` record it, into a capture: the calls that a host would have made
on the guard under a policy. `explain`, `compare` and `replay` take it then. PCAP may be - for standard input.

  --policy FILE  the policy's text
  --peers MAP    who the peers are, where the recording does not say it; a line of the map says all of its peer
  --list         only prints the map of what is known, ready to be edited
  -o CAPTURE     where the capture goes; else PCAP with the ending .capture, which must not be there yet

Peers connect when they come (Hello, NameOwnerChanged), those that were there before the recording first of all, and they leave when
NameOwnerChanged or NameLost says so. Names come from RequestName and its reply, NameAcquired and NameOwnerChanged, and go with
ReleaseName, NameLost and NameOwnerChanged; a peer that replies to a call to a name, or is its owner by GetNameOwner, had that name before.
Uids and gids come from GetConnectionCredentials and GetConnectionUnixUser, wherever in the recording; a peer of which nobody said a uid
has 65534, and is told. A map has a line for each peer:

  :1.42 uid 1000 gid 20 100 name org.theatre.Fans   # its name as soon as it connects

Unique names of the recording become those that the guard gives; one that is nobody's becomes :0. and its rest, which the guard gives to
nobody. Everything else of a message stays byte for byte. Messages of the bus itself are the host's and are left out; so are messages cut
by the recording (busctl capture keeps 4096 bytes, --size=134217728 keeps all), broken ones, and those of peers that the guard refuses. What
is left out is counted on standard error. A broken recording is refused with the byte; `head -c BYTE` keeps the records before it.

  dbus-monitor --system --pcap > evening.pcap
  aygeshunt import evening.pcap --list > evening.map
  aygeshunt import evening.pcap --peers evening.map --policy theatre.policy
  aygeshunt explain evening.capture --dropped
";

pub fn run(words: &[String], out: &mut Out) -> Done {
    let words = Words::parse(words, &["--list"], &["--policy", "--peers", "-o"])?;
    let [path] = words.rest.as_slice() else {
        return Err(Fault::usage("one recording is wanted"));
    };
    if words.has("--list") && (words.value("--policy").is_some() || words.value("-o").is_some()) {
        return Err(Fault::usage("--list makes no capture, so it takes neither --policy nor -o"));
    }
    let target = if words.has("--list") { None } else { Some(Target::of(&words, path)?) };
    let file = read_file(path, MOST_CAPTURE)?;
    let told = |fault: PcapFault| {
        Fault::input(format!("{path}: bad recording at byte {}: {}", fault.at, fault.what))
    };
    let mut peers = Peers::of(&file).map_err(told)?;
    if let Some(map) = words.value("--peers") {
        peers.overlay(read_map(map)?);
    }
    let Some(target) = target else { return out.text(&peers.show()) };
    let imported = import(&file, &peers, &target.rules, &target.image).map_err(told)?;
    write_file(&target.file, &capture::write(&imported.capture))?;
    tell(&imported, &target.file);
    Ok(())
}

/// Where the capture goes, and the policy that it gets.
struct Target {
    file: String,
    rules: Rules,
    image: Vec<u8>,
}

impl Target {
    fn of(words: &Words, path: &str) -> Result<Target, Fault> {
        let policy =
            words.value("--policy").ok_or_else(|| Fault::usage("--policy FILE is wanted, or --list"))?;
        let file = match words.value("-o") {
            Some(file) => file.to_string(),
            None => beside(path)?,
        };
        let (rules, image) = Rules::of_text(policy)?;
        Ok(Target { file, rules, image })
    }
}

/// The recording's name with another ending. What is there is not written over unasked.
fn beside(path: &str) -> Result<String, Fault> {
    if path == "-" {
        return Err(Fault::usage("-o says where the capture of standard input goes"));
    }
    let file = Path::new(path).with_extension("capture");
    match file.exists() {
        true => Err(Fault::input(format!("{} is there already; -o writes over it", file.display()))),
        false => Ok(file.to_string_lossy().into_owned()),
    }
}

fn read_map(path: &str) -> Result<Vec<Peer>, Fault> {
    parse_map(&read_text(path)?).map_err(|faults| {
        let line = |fault: &TextFault| format!("{path}:{}: {}", fault.line, fault.what);
        Fault::input(faults.iter().map(line).collect::<Vec<_>>().join("\n"))
    })
}

/// What a person has to know goes to standard error; where that is closed, the capture is there all the same.
fn tell(imported: &Imported, file: &str) {
    let mut lines = imported.told.clone();
    lines.push(format!(
        "{}: {} of {} kept in {file}, the guard passes {}",
        counted(imported.packets, "packet"),
        counted(imported.kept, "message"),
        counted(imported.peers, "peer"),
        imported.passed
    ));
    for (why, count) in &imported.left_out {
        lines.push(format!("left out: {count} {}", why.words()));
    }
    let _ = writeln!(std::io::stderr(), "{}", lines.join("\n"));
}
