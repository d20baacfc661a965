//! Questions to copies of the guard: what it would answer to a message that is a little different.

use super::story::{Message, Story};
use super::why::peer_words;
use super::Teller;
use crate::book::Peer;
use crate::guard::{Guard, Place, BY_RULE, TO_PEER};
use crate::head::Head;
use crate::policy::turned::all_sends_denied;
use crate::rules::{Named, Rules};
use forms::message::{field_kind, DESTINATION};
use forms::policy::Section;

/// A guard behind a call, the policy under which the call was made, and the call.
pub struct Asked<'a> {
    pub guard: &'a Guard,
    pub image: &'a [u8],
    pub rules: &'a Rules,
    pub sender: u32,
    pub message: &'a Message,
    pub head: &'a Head,
}

impl<'a> Asked<'a> {
    /// None where the call brought no whole message.
    pub fn of(guard: &'a Guard, image: &'a [u8], rules: &'a Rules, story: &'a Story) -> Option<Asked<'a>> {
        let message = story.message.as_ref()?;
        Some(Asked { guard, image, rules, sender: story.sender(), message, head: message.head()? })
    }

    /// The head alone: the same bytes, with 0 for the body's length. Policy does not see bodies.
    fn without_body(&self) -> Option<Vec<u8>> {
        let mut bytes = self.message.bytes.get(..self.head.head_length)?.to_vec();
        bytes.get_mut(4..8)?.fill(0);
        Some(bytes)
    }

    /// The head with a destination as its last field; none where it would be too long.
    fn addressed(&self, peer: u32) -> Option<Vec<u8>> {
        let (order, text) = (self.head.order, format!(":1.{peer}"));
        let mut bytes = self.without_body()?;
        bytes.extend([DESTINATION, 1, field_kind(DESTINATION)?.letter, 0]);
        bytes.extend(order.bytes(text.len() as u32));
        bytes.extend(text.as_bytes());
        bytes.push(0);
        let array_length = bytes.len() - 16;
        bytes[12..16].copy_from_slice(&order.bytes(array_length as u32));
        bytes.resize(bytes.len().next_multiple_of(8), 0);
        (array_length <= 2_032).then_some(bytes)
    }

    /// The rule that let a message be sent to a peer. A pass shows the receiver's rule (rule 7.12), so the guard is asked again
    /// under an image whose send rules all deny: the same rules match, and the one that decides is told with 22.
    pub fn send_rule(&self, place: &Place) -> Option<Named> {
        if place.kind != TO_PEER || place.decider != BY_RULE {
            return None;
        }
        let image = all_sends_denied(self.image, self.head.interface.is_some())?;
        let denied = self.guard.clone().piece(&image, self.sender, &self.without_body()?);
        let rule = self.rules.named(Section::Transaction, denied.position as usize)?;
        (denied.answer == 22 && denied.decider == BY_RULE).then_some(rule)
    }

    /// What a signal to everybody comes to for one peer: the same signal is addressed to that peer alone. Rules do not see
    /// destinations (rule 6.5), so the decisions are the same.
    pub fn to_one(&self, peer: u32) -> Option<Place> {
        Some(self.guard.clone().piece(self.image, self.sender, &self.addressed(peer)?))
    }
}

fn asked<'a>(teller: &'a Teller, story: &'a Story) -> Option<Asked<'a>> {
    Asked::of(&teller.guard, &teller.capture.image, teller.rules, story)
}

/// For a signal to everybody the rule that let it through to each peer or stopped it.
pub fn each_receiver(teller: &Teller, story: &Story) -> Vec<String> {
    let Some(asked) = asked(teller, story) else { return Vec::new() };
    let told = |peer: &Peer| {
        let who = peer_words(peer);
        let Some(place) = asked.to_one(peer.number) else {
            return format!("{who}: not asked, the head has no room for a destination");
        };
        let verdict = match place.answer {
            0 => "gets it",
            22 => "does not get it, send denied",
            23 => "does not get it, receive denied",
            answer => return format!("{who}: answer {answer}"),
        };
        let rule = teller.rules.named(Section::Transaction, place.position as usize);
        match rule.filter(|_| place.decider == BY_RULE) {
            Some(rule) => format!("{who}: {verdict}, by {}", rule.place()),
            None => format!("{who}: {verdict}, no rule matched"),
        }
    };
    teller.book.peers.iter().map(told).collect()
}

/// The rule that let a message be sent, as a sentence.
pub fn send_rule(teller: &Teller, story: &Story) -> Option<String> {
    let rule = asked(teller, story)?.send_rule(&story.place)?;
    Some(format!("sent by {}: {}", rule.place(), rule.text))
}
