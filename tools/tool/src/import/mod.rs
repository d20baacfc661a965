//! Recorded traffic of a real bus as a capture: the calls that a host would have made on the guard.

pub mod body;
pub mod pcap;
pub mod pcapng;
pub mod peers;
pub mod rewrite;
pub mod traffic;

use crate::answers;
use crate::guard::{Guard, Place, BY_RULE};
use crate::progress::Progress;
use crate::rules::Rules;
use forms::capture::{Call, Capture};
use forms::policy::Section;
use pcap::{Packets, PcapFault};
use peers::{Peer, Peers, NOBODY};
use std::collections::{BTreeMap, HashMap, HashSet};
use traffic::{Event, Heard, LeftOut, World};

/// What came of a recording.
#[derive(Default)]
pub struct Imported {
    pub capture: Capture,
    pub packets: usize,
    pub kept: usize,
    /// Of the messages that were kept those that the guard passes.
    pub passed: usize,
    /// How many peers connected.
    pub peers: usize,
    pub left_out: BTreeMap<LeftOut, usize>,
    /// What a person has to know, a sentence for each.
    pub told: Vec<String>,
}

/// What became of a peer of the recording.
enum Standing {
    Connected(u32),
    /// With the place of its refusal among all.
    Refused(usize),
    Gone,
}

/// A connect that the guard refused.
struct Refusal {
    peer: Peer,
    place: Place,
    messages: usize,
}

/// The guard runs along, since it gives the numbers.
struct Importer<'a> {
    peers: &'a Peers,
    rules: &'a Rules,
    guard: Guard,
    standings: HashMap<String, Standing>,
    refusals: Vec<Refusal>,
    /// Names that the guard granted, with the number of their peer.
    granted: HashSet<(u32, String)>,
    imported: Imported,
}

/// The capture of a recording under a policy; the peers are those that `Peers::of` found, and a map may have changed.
pub fn import(file: &[u8], peers: &Peers, rules: &Rules, image: &[u8]) -> Result<Imported, PcapFault> {
    let capture = Capture { image: image.to_vec(), calls: Vec::new() };
    let mut importer = Importer {
        peers,
        rules,
        guard: Guard::new(),
        standings: HashMap::new(),
        refusals: Vec::new(),
        granted: HashSet::new(),
        imported: Imported { capture, ..Imported::default() },
    };
    let mut world = World::default();
    importer.begin(&mut world);
    let mut progress = Progress::new("packets", peers.packets);
    for packet in Packets::open(file)? {
        importer.imported.packets += 1;
        progress.step(importer.imported.packets);
        match Heard::of(&packet?) {
            Ok(heard) => importer.hear(&heard, &mut world),
            Err(why) => importer.leave_out(why),
        }
    }
    Ok(importer.end())
}

impl Importer<'_> {
    fn call(&mut self, call: Call) -> Place {
        let place = self.guard.make(&self.imported.capture.image, &call);
        self.imported.capture.calls.push(call);
        place
    }

    fn leave_out(&mut self, why: LeftOut) {
        *self.imported.left_out.entry(why).or_default() += 1;
    }

    /// An empty guard, and the peers that were there before.
    fn begin(&mut self, world: &mut World) {
        self.call(Call::Start);
        for peer in &self.peers.peers {
            for name in &peer.names {
                world.own(&peer.unique, name);
            }
            if peer.is_there() {
                self.connect(&peer.unique);
            } else if !peer.seen {
                let told =
                    format!("{} of the map is not seen and has no name: it does not connect", peer.unique);
                self.imported.told.push(told);
            }
        }
    }

    /// What a message shows comes first, so that its sender is there.
    fn hear(&mut self, heard: &Heard, world: &mut World) {
        for event in world.hear(heard) {
            self.follow(event);
        }
        match heard.is_of_bus() {
            true => self.leave_out(LeftOut::OfBus),
            false => self.offer(heard),
        }
    }

    fn follow(&mut self, event: Event) {
        match event {
            Event::There { peer, .. } if !self.standings.contains_key(&peer) => self.connect(&peer),
            Event::Left { peer } => self.disconnect(&peer),
            Event::Owned { peer, name } => self.own(&peer, &name),
            Event::Lost { peer, name } => self.release(&peer, &name),
            Event::There { .. } | Event::HadBefore { .. } | Event::Said { .. } => {}
        }
    }

    fn connect(&mut self, unique: &str) {
        let peer = self.peers.find(unique).cloned().unwrap_or_default();
        if peer.uid.is_none() {
            let told = format!("nobody said the uid of {unique}: {} is taken", NOBODY.0);
            self.imported.told.push(told);
        }
        let place = self.call(Call::Connect { uid: peer.uid.unwrap_or(NOBODY), gids: peer.gids.clone() });
        let names = peer.names.clone();
        let standing = match place.answer {
            0 => Standing::Connected(place.value),
            _ => {
                self.refusals.push(Refusal { peer, place, messages: 0 });
                Standing::Refused(self.refusals.len() - 1)
            }
        };
        self.imported.peers += usize::from(place.answer == 0);
        self.standings.insert(unique.to_string(), standing);
        for name in names {
            self.own(unique, &name);
        }
    }

    fn number(&self, unique: &str) -> Option<u32> {
        match self.standings.get(unique) {
            Some(Standing::Connected(number)) => Some(*number),
            _ => None,
        }
    }

    fn disconnect(&mut self, unique: &str) {
        if let Some(peer) = self.number(unique) {
            self.call(Call::Disconnect { peer });
            self.standings.insert(unique.to_string(), Standing::Gone);
        }
    }

    fn own(&mut self, unique: &str, name: &str) {
        let Some(peer) = self.number(unique) else { return };
        let place = self.call(Call::Own { peer, name: name.as_bytes().to_vec() });
        if place.answer == 0 {
            self.granted.insert((peer, name.to_string()));
        } else {
            let told =
                format!("{unique} owns {name}, and the guard does not grant it: {}", meaning(place.answer));
            self.imported.told.push(told);
        }
    }

    /// A host gives up what was granted; the guard is not asked about the rest.
    fn release(&mut self, unique: &str, name: &str) {
        let Some(peer) = self.number(unique) else { return };
        if self.granted.remove(&(peer, name.to_string())) {
            self.call(Call::Release { peer, name: name.as_bytes().to_vec() });
        }
    }

    /// A peer's message goes to the guard, with the guard's names in it.
    fn offer(&mut self, heard: &Heard) {
        let peer = match self.standings.get(&heard.sender) {
            Some(Standing::Connected(number)) => *number,
            Some(Standing::Refused(place)) => {
                if let Some(refusal) = self.refusals.get_mut(*place) {
                    refusal.messages += 1;
                }
                return self.leave_out(LeftOut::Refused);
            }
            Some(Standing::Gone) | None => return self.leave_out(LeftOut::Gone),
        };
        let Some(bytes) = rewrite::rewritten(heard, peer, |name| self.number(name)) else {
            return self.leave_out(LeftOut::HeadTooLong);
        };
        let place = self.call(Call::Piece { peer, bytes });
        self.imported.kept += 1;
        self.imported.passed += usize::from(place.answer == 0);
        if (1..=10).contains(&place.answer) {
            let told = format!(
                "a message of {} is read otherwise by the guard: {}",
                heard.sender,
                meaning(place.answer)
            );
            self.imported.told.push(told);
        }
    }

    fn end(mut self) -> Imported {
        let told = self.refusals.iter().map(|refusal| self.refusal_words(refusal)).collect::<Vec<_>>();
        self.imported.told.extend(told);
        self.imported
    }

    fn refusal_words(&self, refusal: &Refusal) -> String {
        let Refusal { peer, place, messages } = refusal;
        let rule = self.rules.named(Section::Connect, place.position as usize);
        let rule = rule.filter(|_| place.decider == BY_RULE).map(|rule| format!(", by {}", rule.place()));
        let uid = peer.uid.unwrap_or(NOBODY).0;
        format!(
            "{} (uid {uid}) was not let connect: {}{}; {} left out",
            peer.unique,
            meaning(place.answer),
            rule.unwrap_or_default(),
            counted(*messages, "message"),
        )
    }
}

/// "1 message", "2 messages".
pub fn counted(count: usize, what: &str) -> String {
    format!("{count} {what}{}", if count == 1 { "" } else { "s" })
}

/// "36, connect denied".
fn meaning(answer: u32) -> String {
    format!("{answer}, {}", answers::meaning(answer))
}
