//! A capture's calls, made on the proved guard and told one by one.

pub mod agree;
pub mod ask;
pub mod figure;
pub mod json;
pub mod story;
pub mod why;
pub mod words;

use crate::answers::{is_broken, is_dropped};
use crate::book::{Book, Stream};
use crate::guard::{Guard, Place, TO_PEER};
use crate::head::{self, Outcome, Reading};
use crate::rules::Rules;
use forms::capture::{Call, Capture};
use story::{Message, Story};

/// A guard that is fed a capture, and what is known beside it.
pub struct Teller<'a> {
    pub capture: &'a Capture,
    pub rules: &'a Rules,
    pub guard: Guard,
    pub book: Book,
    /// How many calls were made.
    pub made: usize,
}

impl<'a> Teller<'a> {
    pub fn new(capture: &'a Capture, rules: &'a Rules) -> Teller<'a> {
        Teller { capture, rules, guard: Guard::new(), book: Book::default(), made: 0 }
    }

    /// Makes the next call and tells it. The book is the one before the call while it is told, and follows then.
    pub fn step(&mut self) -> Option<Story<'a>> {
        let call = self.capture.calls.get(self.made)?;
        self.made += 1;
        let place = self.guard.make(&self.capture.image, call);
        let message = self.message(call, &place);
        let story = Story::of(self, call, place, message);
        self.follow(call, &place, story.message.as_ref());
        Some(story)
    }

    /// The message that a piece ended or broke, or is still in: what was taken of it, this piece's part included.
    fn message(&self, call: &Call, place: &Place) -> Option<Message> {
        let Call::Piece { peer, bytes } = call else { return None };
        let mut stream: Stream = self.book.peer(*peer)?.stream.clone();
        if stream.closed.is_some() || place.answer >= 30 {
            return None;
        }
        stream.take(bytes.get(..place.taken as usize).unwrap_or(bytes));
        let reading = head::read(&stream.bytes);
        let known =
            if is_broken(place.answer) { self.known_stream(*peer, &stream, place) } else { Vec::new() };
        Some(Message { bytes: stream.bytes, taken: stream.taken, reading, known })
    }

    /// What the capture has of a broken message's stream, from the message's first byte on: also what was not taken.
    fn known_stream(&self, peer: u32, stream: &Stream, place: &Place) -> Vec<u8> {
        let mut known = stream.bytes.clone();
        let calls = &self.capture.calls[self.made - 1..];
        let mut skipped = place.taken as usize;
        for call in calls {
            match call {
                Call::Piece { peer: other, bytes } if *other == peer => {
                    known.extend(bytes.iter().skip(skipped).take(NEIGHBOUR_ROOM.saturating_sub(known.len())));
                    skipped = 0;
                }
                Call::Disconnect { peer: other } if *other == peer => break,
                Call::Start => break,
                _ => {}
            }
            if known.len() >= NEIGHBOUR_ROOM {
                break;
            }
        }
        known
    }

    /// What the host knows behind a call.
    fn follow(&mut self, call: &Call, place: &Place, message: Option<&Message>) {
        let number = self.made;
        match call {
            Call::Start if place.answer == 0 => self.book = Book::default(),
            Call::Connect { uid, gids } if place.answer == 0 => {
                self.book.connect(place.value, place.count, *uid, gids);
            }
            Call::Own { peer, name } if place.answer == 0 => {
                self.book.own(*peer, &String::from_utf8_lossy(name));
            }
            Call::Release { peer, name } if place.answer == 0 => {
                self.book.release(*peer, &String::from_utf8_lossy(name), number);
            }
            Call::Disconnect { peer } if place.answer == 0 => self.book.disconnect(*peer, number),
            Call::Tick { tick, limit } if place.answer == 0 => self.book.tick(*tick, *limit, number),
            Call::Piece { peer, bytes } => self.follow_piece(*peer, bytes, place, message),
            _ => {}
        }
    }

    fn follow_piece(&mut self, number: u32, bytes: &[u8], place: &Place, message: Option<&Message>) {
        let made = self.made;
        let Some(peer) = self.book.peer_mut(number) else { return };
        peer.stream.take(bytes.get(..place.taken as usize).unwrap_or(bytes));
        if is_broken(place.answer) {
            peer.stream.closed = Some((made, place.answer));
        } else if place.answer == 0 || is_dropped(place.answer) {
            peer.stream.begin();
        }
        if let (0, TO_PEER, Some(Reading { outcome: Outcome::Good(head), .. })) =
            (place.answer, place.kind, message.map(|message| &message.reading))
        {
            self.book.passed(number, place.value, head, made);
        }
    }
}

/// How many bytes of a stream are looked at for a neighbour: a head, one byte more, and the first of what follows.
const NEIGHBOUR_ROOM: usize = 4_096;
