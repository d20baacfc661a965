//! What messages say of the bus that they were recorded on: who is there, and who owns which name.

use super::body::{Body, Credentials};
use super::pcap::Packet;
use crate::book::{self, BUS_NAME};
use crate::head::{self, Head};
use forms::message::{METHOD_CALL, METHOD_RETURN, SIGNAL};
use forms::names::{self, Form};
use forms::policy::Uid;
use std::collections::HashMap;

/// A whole message with a good head, and the name of its sender.
pub struct Heard<'a> {
    pub head: Box<Head>,
    pub sender: String,
    pub bytes: &'a [u8],
}

/// Why a message is not in the capture.
#[derive(Clone, Copy, Debug, PartialEq, Eq, PartialOrd, Ord)]
pub enum LeftOut {
    OfBus,
    Cut,
    Broken,
    NotWhole,
    NoSender,
    HeadTooLong,
    Refused,
    Gone,
}

impl LeftOut {
    /// What stands behind a count.
    pub fn words(self) -> &'static str {
        match self {
            LeftOut::OfBus => "of the bus itself, which are the host's",
            LeftOut::Cut => "cut by the recording; a reply to one of them is awaited by nobody",
            LeftOut::Broken => "with a broken head",
            LeftOut::NotWhole => "longer or shorter than their head says",
            LeftOut::NoSender => "without a peer's name as their sender",
            LeftOut::HeadTooLong => "whose head is too long with the guard's names",
            LeftOut::Refused => "of peers that were not let connect",
            LeftOut::Gone => "of peers that had left",
        }
    }
}

impl<'a> Heard<'a> {
    pub fn of(packet: &Packet<'a>) -> Result<Heard<'a>, LeftOut> {
        if packet.bytes.len() as u64 != u64::from(packet.length) {
            return Err(LeftOut::Cut);
        }
        let head = head::good(packet.bytes).ok_or(LeftOut::Broken)?;
        if head.head_length as u64 + u64::from(head.body_length) != u64::from(packet.length) {
            return Err(LeftOut::NotWhole);
        }
        let is_known = |name: &String| name == BUS_NAME || is_unique(name);
        let sender = head.sender.clone().filter(is_known).ok_or(LeftOut::NoSender)?;
        Ok(Heard { head, sender, bytes: packet.bytes })
    }

    pub fn body(&self) -> Body<'a> {
        Body::new(self.head.order, self.bytes.get(self.head.head_length..).unwrap_or_default())
    }

    pub fn is_of_bus(&self) -> bool {
        self.sender == BUS_NAME
    }

    fn has_member(&self, message_type: u8, member: &str) -> bool {
        let interface = self.head.interface.as_deref().unwrap_or(BUS_NAME);
        let is_it = self.head.message_type == message_type && interface == BUS_NAME;
        is_it && self.head.member.as_deref() == Some(member)
    }
}

pub fn is_unique(name: &str) -> bool {
    name.starts_with(':') && names::is(Form::Unique, name.as_bytes())
}

fn is_well_known(name: &str) -> bool {
    name != BUS_NAME && names::is(Form::WellKnown, name.as_bytes())
}

/// What a message shows.
#[derive(Clone, Debug, PartialEq, Eq)]
pub enum Event {
    /// A peer is there; it comes now, or was there before.
    There {
        peer: String,
        comes: bool,
    },
    Left {
        peer: String,
    },
    Owned {
        peer: String,
        name: String,
    },
    Lost {
        peer: String,
        name: String,
    },
    /// A peer has a name, and nobody saw it come by it.
    HadBefore {
        peer: String,
        name: String,
    },
    Said {
        peer: String,
        credentials: Credentials,
    },
}

/// What a peer asked of the bus.
enum Question {
    RequestName(String),
    ReleaseName(String),
    NameOwner(String),
    UnixUser(String),
    Credentials(String),
}

/// A caller and the serial of its call.
type CallKey = (String, u32);

#[derive(Default)]
pub struct World {
    /// Who owns a name; none where it was given up. A name that is not here was not heard of yet.
    owners: HashMap<String, Option<String>>,
    questions: HashMap<CallKey, Question>,
    /// The names that calls went to, since a reply shows whose they are.
    called: HashMap<CallKey, String>,
    /// What was said of the owners of names that are not known yet.
    said: HashMap<String, Credentials>,
}

impl World {
    /// A name is known from the start.
    pub fn own(&mut self, peer: &str, name: &str) {
        self.owners.insert(name.to_string(), Some(peer.to_string()));
    }

    /// What a message shows, in the order in which it happened.
    pub fn hear(&mut self, heard: &Heard) -> Vec<Event> {
        match (heard.is_of_bus(), heard.head.message_type) {
            (false, _) => self.hear_peer(heard),
            (true, SIGNAL) => self.hear_signal(heard).unwrap_or_default(),
            (true, METHOD_RETURN) => self.hear_answer(heard).unwrap_or_default(),
            (true, _) => Vec::new(),
        }
    }

    fn hear_peer(&mut self, heard: &Heard) -> Vec<Event> {
        let comes = heard.has_member(METHOD_CALL, "Hello");
        let peer = heard.sender.clone();
        let mut events = vec![Event::There { peer: peer.clone(), comes }];
        let head = &heard.head;
        let destination = head.destination.as_deref().unwrap_or(BUS_NAME);
        if book::awaits(head) && is_well_known(destination) {
            self.called.insert((peer, head.serial), destination.to_string());
        } else if book::awaits(head) && destination == BUS_NAME {
            let question = question(heard);
            self.questions.extend(question.map(|question| ((peer, head.serial), question)));
        } else if let (true, Some(serial)) = (book::is_reply(head), head.reply_serial) {
            let name = self.called.remove(&(destination.to_string(), serial));
            events.extend(name.into_iter().flat_map(|name| self.had_before(&peer, &name)));
        }
        events
    }

    /// A peer turns out to have a name of which nothing was heard yet.
    fn had_before(&mut self, peer: &str, name: &str) -> Vec<Event> {
        if self.owners.contains_key(name) {
            return Vec::new();
        }
        self.own(peer, name);
        let peer = peer.to_string();
        let said = self.said.remove(name).map(|credentials| Event::Said { peer: peer.clone(), credentials });
        said.into_iter().chain([Event::HadBefore { peer, name: name.to_string() }]).collect()
    }

    fn hear_signal(&mut self, heard: &Heard) -> Option<Vec<Event>> {
        let mut body = heard.body();
        let name = body.text()?;
        let to = heard.head.destination.as_deref().filter(|to| is_unique(to));
        if heard.has_member(SIGNAL, "NameOwnerChanged") {
            let (old, new) = (body.text()?, body.text()?);
            return Some(self.owner_changed(name, unique(old), unique(new)));
        }
        if heard.has_member(SIGNAL, "NameAcquired") && is_well_known(name) {
            return Some(self.change(name, None, Some(to?)));
        }
        if heard.has_member(SIGNAL, "NameLost") && is_unique(name) {
            return Some(vec![Event::Left { peer: name.to_string() }]);
        }
        if heard.has_member(SIGNAL, "NameLost") && is_well_known(name) {
            return Some(self.give_up(name, to?));
        }
        None
    }

    fn owner_changed(&mut self, name: &str, old: Option<&str>, new: Option<&str>) -> Vec<Event> {
        let peer = name.to_string();
        match new {
            _ if is_well_known(name) => self.change(name, old, new),
            Some(_) if is_unique(name) => vec![Event::There { peer, comes: true }],
            None if is_unique(name) => vec![Event::Left { peer }],
            _ => Vec::new(),
        }
    }

    /// A name goes from one peer to another; who had it is said, or known, or nobody.
    fn change(&mut self, name: &str, said: Option<&str>, new: Option<&str>) -> Vec<Event> {
        let there = |peer: &str| Event::There { peer: peer.to_string(), comes: false };
        let mut events = Vec::new();
        if let Some(old) = said {
            events.push(there(old));
            events.extend(self.had_before(old, name));
        }
        let old = self.owners.insert(name.to_string(), new.map(str::to_string)).flatten();
        if old.as_deref() != new {
            let name = || name.to_string();
            events.extend(old.map(|peer| Event::Lost { peer, name: name() }));
            events.extend(new.map(there));
            events.extend(new.map(|peer| Event::Owned { peer: peer.to_string(), name: name() }));
        }
        events
    }

    /// A peer has a name no more; somebody else may have it already.
    fn give_up(&mut self, name: &str, peer: &str) -> Vec<Event> {
        match self.owners.get(name) {
            Some(owner) if owner.as_deref() != Some(peer) => Vec::new(),
            _ => self.change(name, Some(peer), None),
        }
    }

    /// The bus answers a question that was heard.
    fn hear_answer(&mut self, heard: &Heard) -> Option<Vec<Event>> {
        let asker = heard.head.destination.clone()?;
        let question = self.questions.remove(&(asker.clone(), heard.head.reply_serial?))?;
        let mut body = heard.body();
        match question {
            // 1: it owns the name now; 4: it owned it already.
            Question::RequestName(name) if matches!(body.number()?, 1 | 4) => {
                Some(self.change(&name, None, Some(&asker)))
            }
            // 1: given up.
            Question::ReleaseName(name) if body.number()? == 1 => Some(self.give_up(&name, &asker)),
            Question::RequestName(_) | Question::ReleaseName(_) => None,
            Question::NameOwner(name) => {
                let owner = unique(body.text()?)?;
                let there = Event::There { peer: owner.to_string(), comes: false };
                Some([there].into_iter().chain(self.had_before(owner, &name)).collect())
            }
            Question::UnixUser(name) => {
                let credentials = Credentials { uid: Some(Uid(body.number()?)), gids: None };
                Some(self.said_of(name, credentials))
            }
            Question::Credentials(name) => Some(self.said_of(name, body.credentials())),
        }
    }

    /// The bus said who the peer of a bus name is.
    fn said_of(&mut self, name: String, credentials: Credentials) -> Vec<Event> {
        let peer = match self.owners.get(&name) {
            _ if is_unique(&name) => Some(name),
            Some(owner) => owner.clone(),
            None => {
                self.said.insert(name, credentials);
                return Vec::new();
            }
        };
        peer.map(|peer| Event::Said { peer, credentials }).into_iter().collect()
    }
}

/// A unique name, where a text is one; an empty text stands for nobody.
fn unique(text: &str) -> Option<&str> {
    Some(text).filter(|text| is_unique(text))
}

/// What a call asks of the bus, where the answer says something here.
fn question(heard: &Heard) -> Option<Question> {
    let asked = |member| heard.has_member(METHOD_CALL, member);
    let name = heard.body().text()?;
    let is_name = is_well_known(name);
    let name = name.to_string();
    match () {
        _ if asked("RequestName") && is_name => Some(Question::RequestName(name)),
        _ if asked("ReleaseName") && is_name => Some(Question::ReleaseName(name)),
        _ if asked("GetNameOwner") && is_name => Some(Question::NameOwner(name)),
        _ if asked("GetConnectionUnixUser") => Some(Question::UnixUser(name)),
        _ if asked("GetConnectionCredentials") => Some(Question::Credentials(name)),
        _ => None,
    }
}
