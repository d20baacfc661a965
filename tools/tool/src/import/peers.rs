//! Who the peers of a recording are: what its messages say of them, and what a map says.

use super::pcap::{Packets, PcapFault};
use super::traffic::{is_unique, Event, Heard, World};
use crate::book::BUS_NAME;
use forms::names::{self, Form};
use forms::policy::{Gid, Uid};
use forms::policy_text::{named, without_comment, TextFault};
use std::collections::HashMap;

/// Who is nobody on most machines: taken where nobody said a uid.
pub const NOBODY: Uid = Uid(65_534);

#[derive(Clone, Debug, Default, PartialEq, Eq)]
pub struct Peer {
    /// Its unique name on the recorded bus.
    pub unique: String,
    pub uid: Option<Uid>,
    pub gids: Vec<Gid>,
    /// Names that are its own as soon as it connects.
    pub names: Vec<String>,
    /// Names that it is seen to come by.
    pub later: Vec<String>,
    pub seen: bool,
    /// It is seen to come; any other was there before the recording.
    pub comes: bool,
}

impl Peer {
    /// Whether it connects before the first message.
    pub fn is_there(&self) -> bool {
        !self.comes && (self.seen || !self.names.is_empty())
    }
}

/// All peers, in the order in which they are seen; those of a map that are not seen come last.
#[derive(Clone, Debug, Default)]
pub struct Peers {
    pub peers: Vec<Peer>,
    /// How many packets were looked at.
    pub packets: usize,
    places: HashMap<String, usize>,
}

impl Peers {
    /// What the messages of a recording say. A broken recording is found here.
    pub fn of(file: &[u8]) -> Result<Peers, PcapFault> {
        let mut peers = Peers::default();
        let mut world = World::default();
        for packet in Packets::open(file)? {
            peers.packets += 1;
            if let Ok(heard) = Heard::of(&packet?) {
                world.hear(&heard).into_iter().for_each(|event| peers.learn(event));
            }
        }
        Ok(peers)
    }

    pub fn find(&self, unique: &str) -> Option<&Peer> {
        self.places.get(unique).and_then(|place| self.peers.get(*place))
    }

    fn entry(&mut self, unique: &str) -> &mut Peer {
        let end = self.peers.len();
        let place = *self.places.entry(unique.to_string()).or_insert(end);
        if place == end {
            self.peers.push(Peer { unique: unique.to_string(), ..Peer::default() });
        }
        &mut self.peers[place]
    }

    fn learn(&mut self, event: Event) {
        match event {
            Event::There { peer, comes } => {
                let peer = self.entry(&peer);
                peer.comes |= comes && !peer.seen;
                peer.seen = true;
            }
            Event::HadBefore { peer, name } => add(&mut self.entry(&peer).names, name),
            Event::Owned { peer, name } => add(&mut self.entry(&peer).later, name),
            Event::Said { peer, credentials } => {
                let peer = self.entry(&peer);
                peer.uid = credentials.uid.or(peer.uid);
                peer.gids = credentials.gids.unwrap_or(std::mem::take(&mut peer.gids));
            }
            Event::Left { .. } | Event::Lost { .. } => {}
        }
    }

    /// A line of a map says all of its peer, whatever the messages say.
    pub fn overlay(&mut self, map: Vec<Peer>) {
        for line in map {
            let peer = self.entry(&line.unique);
            (peer.uid, peer.gids, peer.names) = (line.uid, line.gids, line.names);
        }
    }

    /// The map that says what is known, ready to be edited.
    pub fn show(&self) -> String {
        let mut text =
            "# PEER uid UID [gid GID ..] [name NAME ..]: a name is the peer's as soon as it connects.\n"
                .to_string();
        for peer in &self.peers {
            text += &show_peer(peer);
            text.push('\n');
        }
        text
    }
}

fn add(names: &mut Vec<String>, name: String) {
    if !names.contains(&name) {
        names.push(name);
    }
}

fn show_peer(peer: &Peer) -> String {
    let mut words = vec![peer.unique.clone(), "uid".to_string(), peer.uid.unwrap_or(NOBODY).0.to_string()];
    if !peer.gids.is_empty() {
        words.push("gid".to_string());
        words.extend(peer.gids.iter().map(|gid| gid.0.to_string()));
    }
    if !peer.names.is_empty() {
        words.push("name".to_string());
        words.extend(peer.names.iter().cloned());
    }
    let mut notes = Vec::new();
    notes.extend(peer.uid.is_none().then(|| "nobody said its uid".to_string()));
    notes.extend(peer.is_there().then(|| "was there before".to_string()));
    notes.extend((!peer.later.is_empty()).then(|| format!("comes by {}", peer.later.join(" "))));
    match notes.is_empty() {
        true => words.join(" "),
        false => format!("{}  # {}", words.join(" "), notes.join("; ")),
    }
}

/// Reads a map. All faults are told.
pub fn parse_map(text: &str) -> Result<Vec<Peer>, Vec<TextFault>> {
    let (mut peers, mut faults) = (Vec::new(), Vec::new());
    for (index, line) in text.lines().enumerate() {
        let words: Vec<&str> = without_comment(line).split_ascii_whitespace().collect();
        match parse_peer(&words) {
            Ok(found) => peers.extend(found),
            Err(what) => faults.push(TextFault { line: index + 1, what }),
        }
    }
    faults.extend(repeated(text));
    faults.sort_by_key(|fault| fault.line);
    match faults.is_empty() {
        true => Ok(peers),
        false => Err(faults),
    }
}

/// Peers that have two lines, and names that have two peers.
fn repeated(text: &str) -> Vec<TextFault> {
    let mut lines = HashMap::new();
    let mut faults = Vec::new();
    for (index, line) in text.lines().enumerate() {
        let words = without_comment(line).split_ascii_whitespace();
        for word in words.filter(|word| word.contains('.')) {
            if let Some(first) = lines.insert(word, index + 1) {
                let what = format!("{} stands in line {first} already", named(word));
                faults.push(TextFault { line: index + 1, what });
            }
        }
    }
    faults
}

fn parse_peer(words: &[&str]) -> Result<Option<Peer>, String> {
    let Some((unique, mut rest)) = words.split_first() else { return Ok(None) };
    if !is_unique(unique) {
        return Err(format!("a line begins with a unique name, not {}", named(unique)));
    }
    let mut peer = Peer { unique: unique.to_string(), ..Peer::default() };
    let mut key = "";
    while let Some((word, behind)) = rest.split_first() {
        rest = behind;
        match (key, *word) {
            (_, "uid" | "gid" | "name") => key = word,
            ("uid", word) if peer.uid.is_none() => peer.uid = Some(Uid(parse_id(word)?)),
            ("gid", word) => peer.gids.push(Gid(parse_id(word)?)),
            ("name", word) => peer.names.push(parse_name(word)?),
            (_, word) => return Err(format!("unexpected word {}", named(word))),
        }
    }
    match peer.uid {
        Some(_) => Ok(Some(peer)),
        None => Err("the uid is missing".to_string()),
    }
}

fn parse_id(word: &str) -> Result<u32, String> {
    word.parse().map_err(|_| format!("{} is no number up to 4294967295", named(word)))
}

fn parse_name(word: &str) -> Result<String, String> {
    match names::fault(Form::WellKnown, word.as_bytes()) {
        _ if word == BUS_NAME => Err(format!("{BUS_NAME} is the bus's own name")),
        None => Ok(word.to_string()),
        Some(fault) => Err(format!(
            "{} is no well-known name: at its byte {} wanted {}",
            named(word),
            fault.at,
            fault.wanted
        )),
    }
}
