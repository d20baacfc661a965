//! A capture's calls under another policy, with the peers' numbers that the capture has.

use crate::answers;
use crate::book::{Book, Destination, Ending, Pending, Wait};
use crate::explain::ask::Asked;
use crate::explain::story::{Receiver, Story};
use crate::explain::why::expiry_words;
use crate::guard::{Guard, Place, BY_RULE, NO_RULE, TO_BUS, TO_PEER, TO_SLOTS};
use crate::rules::{Named, Rules};
use forms::capture::Call;
use forms::policy::{ConnectRule, Context, Gid, Policy, Section, Uid, Verdict, Who};
use std::collections::{BTreeMap, HashMap};

/// What a call came to.
#[derive(Clone, Debug, PartialEq, Eq)]
pub struct Made {
    pub place: Place,
    pub receiver: Receiver,
    /// The waits that a tick ended.
    pub expired: Vec<Pending>,
}

impl Made {
    /// Whether two policies judge alike. Which rule decided is not asked, nor which slot a peer has.
    pub fn is_like(&self, other: &Made) -> bool {
        let waits = |made: &Made| made.expired.iter().map(|pending| pending.wait).collect::<Vec<Wait>>();
        self.place.answer == other.place.answer
            && self.receiver == other.receiver
            && waits(self) == waits(other)
    }
}

pub struct World<'a> {
    rules: &'a Rules,
    image: &'a [u8],
    /// An image under which anybody connects.
    anybody: Vec<u8>,
    guard: Guard,
    /// The number of the peer that had a slot last.
    seats: BTreeMap<u32, u32>,
    /// Peers of the capture that were not let connect, names that a peer did not get, and calls that were not passed: each
    /// with the call in which that was.
    strangers: HashMap<u32, usize>,
    unowned: HashMap<Vec<u8>, (u32, usize)>,
    dropped: HashMap<Wait, usize>,
    /// What is awaited here.
    book: Book,
}

impl<'a> World<'a> {
    pub fn new(rules: &'a Rules, image: &'a [u8]) -> World<'a> {
        let rule = ConnectRule { context: Context::Default, verdict: Verdict::Allow, who: Who::Any };
        let policy = Policy { connect: vec![rule], ..Policy::default() };
        World {
            rules,
            image,
            anybody: forms::image::write(&policy).unwrap_or_default(),
            guard: Guard::new(),
            seats: BTreeMap::new(),
            strangers: HashMap::new(),
            unowned: HashMap::new(),
            dropped: HashMap::new(),
            book: Book::default(),
        }
    }

    /// Makes a call here that was told of the capture's own policy.
    pub fn make(&mut self, story: &Story) -> Made {
        let place = match story.call {
            Call::Connect { uid, gids } => self.connect(*uid, gids, story),
            call => self.guard.make(self.image, call),
        };
        let expired = match (story.call, place.answer) {
            (Call::Tick { tick, limit }, 0) => self.book.expiring(*tick, *limit),
            _ => Vec::new(),
        };
        let made = Made { place, receiver: self.receiver(story.call, &place), expired };
        self.follow(story, &place);
        made
    }

    /// The capture's numbers are those that its own policy gave, so here too each goes to the same peer or to nobody.
    fn connect(&mut self, uid: Uid, gids: &[Gid], story: &Story) -> Place {
        let before = self.guard.clone();
        let place = self.guard.connect(self.image, uid, gids);
        match (story.place.answer, place.answer) {
            (0, 0) => {
                self.seats.insert(place.count, place.value);
            }
            (0, _) => {
                self.strangers.insert(story.place.value, story.number);
                // Whoever is connected here is connected there too, so a slot is free and the number is used up.
                let used_up = self.guard.connect(&self.anybody, uid, gids);
                self.guard.disconnect(used_up.value);
            }
            // Of a peer that the capture's own policy turned away there is nothing in the capture.
            (_, 0) => self.guard = before,
            _ => {}
        }
        place
    }

    /// Whom a message goes to, by the numbers of peers, since slots may differ.
    fn receiver(&self, call: &Call, place: &Place) -> Receiver {
        match (call, place.kind) {
            (Call::Piece { .. }, TO_BUS) => Receiver::Bus,
            (Call::Piece { .. }, TO_PEER) => Receiver::Peer(place.value),
            (Call::Piece { .. }, TO_SLOTS) => {
                let is_set = |(slot, _): &(&u32, &u32)| place.value >> **slot & 1 == 1;
                let mut peers: Vec<u32> = self.seats.iter().filter(is_set).map(|(_, peer)| *peer).collect();
                peers.sort_unstable();
                Receiver::Peers(peers)
            }
            _ => Receiver::Nobody,
        }
    }

    fn follow(&mut self, story: &Story, place: &Place) {
        match story.call {
            Call::Start => *self = World::new(self.rules, self.image),
            Call::Own { peer, name } if place.answer != 0 => {
                self.unowned.insert(name.clone(), (*peer, story.number));
            }
            Call::Piece { peer, .. } if !matches!(place.answer, 0 | 10) => self.follow_drop(story, *peer),
            Call::Piece { peer, .. } if place.kind == TO_PEER => {
                if let Some(head) = story.head() {
                    self.book.passed(*peer, place.value, head, story.number);
                }
            }
            Call::Disconnect { peer } if place.answer == 0 => self.book.disconnect(*peer, story.number),
            Call::Tick { tick, limit } if place.answer == 0 => self.book.tick(*tick, *limit, story.number),
            _ => {}
        }
    }

    fn follow_drop(&mut self, story: &Story, caller: u32) {
        if let (Some(head), Some(callee)) = (story.head(), destination_peer(story)) {
            self.dropped.insert(Wait { caller, callee, serial: head.serial }, story.number);
        }
    }

    /// What earlier call a refusal comes of, where it is one that went otherwise than in the capture.
    pub fn because(&self, story: &Story, answer: u32) -> Option<String> {
        let stranger = |peer: u32| {
            let call = self.strangers.get(&peer)?;
            Some(format!("because peer {peer} was not let connect in #{call}"))
        };
        let to = destination_peer(story);
        let unowned = |name: &[u8]| {
            let (peer, call) = self.unowned.get(name)?;
            Some(format!("because peer {peer} did not get that name in #{call}"))
        };
        match (answer, story.call) {
            (30, call) => stranger(call.peer()?),
            (35, Call::Release { name, .. }) => unowned(name),
            (21, _) => {
                let name = story.head()?.destination.clone()?;
                to.and_then(stranger).or_else(|| unowned(name.as_bytes()))
            }
            (24, _) => {
                let serial = story.head()?.reply_serial?;
                self.unawaited(&Wait { caller: to?, callee: story.sender(), serial })
            }
            _ => None,
        }
    }

    /// Why a reply is not awaited here: its call was not passed, or its wait expired, whichever was later.
    fn unawaited(&self, wait: &Wait) -> Option<String> {
        match (self.dropped.get(wait), self.book.ending(wait)) {
            (dropped, Some(Ending::Expired(expiry))) if dropped.is_none_or(|call| *call < expiry.call) => {
                Some(format!("because the wait {}", expiry_words(&expiry)))
            }
            (dropped, _) => dropped.map(|call| format!("because the call #{call} was not passed")),
        }
    }

    /// Who decided: the rule with its line, or that there was none.
    pub fn decided(&self, section: Section, place: &Place) -> String {
        match (place.decider, self.rules.named(section, place.position as usize)) {
            (BY_RULE, Some(rule)) => format!(", by {}", rule_words(&rule)),
            (NO_RULE, _) => format!(": no {} rule matched", section.word()),
            _ => String::new(),
        }
    }

    fn asked<'b>(&'b self, story: &'b Story) -> Option<Asked<'b>> {
        Asked::of(&self.guard, self.image, self.rules, story)
    }

    /// The send rule of a message that passed to a peer, since the guard shows the receiver's.
    pub fn send_rule(&self, story: &Story, made: &Made) -> Option<String> {
        self.asked(story)?.send_rule(&made.place).map(|rule| rule_words(&rule))
    }

    /// Whether one peer gets a signal to everybody, and by which rule.
    pub fn gets(&self, story: &Story, peer: u32) -> Option<String> {
        let place = self.asked(story)?.to_one(peer)?;
        let decided = self.decided(Section::Transaction, &place);
        Some(match (place.answer, self.strangers.get(&peer)) {
            (0, _) => format!("peer {peer} gets it{decided}"),
            (_, Some(call)) => format!("peer {peer} was not let connect in #{call}"),
            (answer, None) => {
                format!("peer {peer} does not: {answer}, {}{decided}", answers::meaning(answer))
            }
        })
    }
}

/// The peer that a message's destination means in the capture.
fn destination_peer(story: &Story) -> Option<u32> {
    match story.destination {
        Some((_, Destination::Peer(peer))) => Some(peer),
        _ => None,
    }
}

/// "transaction rule 8, theatre.policy line 37: transaction mandatory deny ..".
fn rule_words(rule: &Named) -> String {
    format!("{}: {}", rule.place(), rule.text)
}
