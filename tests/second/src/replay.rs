//! Running calls on a guard, the one line that each of them prints, and what its waits come to.

use crate::answer::{Answer, Receiver};
use crate::batch::{self, Offered};
use crate::capture::{self, Call};
use crate::guard::{Connected, Disconnected, Guard, Judged, LentPolicy, Owned, Ticked};
use crate::image;
use crate::policy::{Decision, Policy};
use crate::tally::{Counts, Tally};

/// What one call came back with.
#[derive(Clone, Copy, Debug, PartialEq, Eq)]
pub enum Outcome {
    Start(Answer),
    Connect(Connected),
    Own(Owned),
    Release(Answer),
    Piece(Judged),
    Disconnect(Disconnected),
    Tick(Ticked),
}

pub const BAD_CAPTURE: &str = "bad capture";

pub fn run(guard: &mut Guard, policy: LentPolicy, call: &Call) -> Outcome {
    match call {
        Call::Start => Outcome::Start(guard.start()),
        Call::Connect { uid, gids } => Outcome::Connect(guard.connect(policy, *uid, gids)),
        Call::Own { peer, name } => Outcome::Own(guard.own(policy, *peer, name)),
        Call::Release { peer, name } => Outcome::Release(guard.release(*peer, name)),
        Call::Piece { peer, bytes } => Outcome::Piece(guard.piece(policy, *peer, bytes)),
        Call::Disconnect { peer } => Outcome::Disconnect(guard.disconnect(*peer)),
        Call::Tick { tick, limit } => Outcome::Tick(guard.tick(*tick, *limit)),
    }
}

impl Outcome {
    pub fn answer(&self) -> Answer {
        match self {
            Outcome::Start(answer) | Outcome::Release(answer) => *answer,
            Outcome::Own(owned) => owned.answer,
            Outcome::Connect(connected) => connected.answer,
            Outcome::Piece(judged) => judged.answer,
            Outcome::Disconnect(disconnected) => disconnected.answer,
            Outcome::Tick(ticked) => ticked.answer,
        }
    }

    pub fn call_name(&self) -> &'static str {
        match self {
            Outcome::Start(_) => "start",
            Outcome::Connect(_) => "connect",
            Outcome::Own(_) => "own",
            Outcome::Release(_) => "release",
            Outcome::Piece(_) => "piece",
            Outcome::Disconnect(_) => "disconnect",
            Outcome::Tick(_) => "tick",
        }
    }

    /// What the answer shows of the rules; some calls are never decided by one.
    pub fn decider(&self) -> Option<Decision> {
        match self {
            Outcome::Start(_) | Outcome::Release(_) | Outcome::Disconnect(_) | Outcome::Tick(_) => None,
            Outcome::Connect(connected) => connected.decider,
            Outcome::Own(owned) => owned.decider,
            Outcome::Piece(judged) => judged.decider,
        }
    }

    pub fn line(&self) -> String {
        let start = format!("{} {}", self.call_name(), self.answer().number());
        let (shown, position) = decider_numbers(self.decider());
        match self {
            Outcome::Start(_) | Outcome::Release(_) => start,
            Outcome::Connect(connected) => {
                format!("{start} {} {} {shown} {position}", connected.number, connected.slot)
            }
            Outcome::Own(_) => format!("{start} {shown} {position}"),
            Outcome::Piece(judged) => piece_line(&piece_numbers(judged)),
            Outcome::Disconnect(disconnected) => format!("{start} {}", disconnected.bytes),
            Outcome::Tick(ticked) => format!("{start} {}", ticked.ended),
        }
    }
}

/// The seven numbers of a piece call's report.
pub fn piece_numbers(judged: &Judged) -> [u32; 7] {
    let (kind, value, count) = receiver_numbers(judged.receiver);
    let (shown, position) = decider_numbers(judged.decider);
    [judged.answer.number(), judged.taken as u32, kind, value, count, shown, position as u32]
}

fn piece_line(numbers: &[u32; 7]) -> String {
    let words: Vec<String> = numbers.iter().map(u32::to_string).collect();
    format!("piece {}", words.join(" "))
}

/// Nothing shown, a rule with its position, or that none matched.
fn decider_numbers(decider: Option<Decision>) -> (u32, usize) {
    match decider {
        None => (0, 0),
        Some(Decision::Rule { position, .. }) => (1, position),
        Some(Decision::NoneMatched) => (2, 0),
    }
}

fn receiver_numbers(receiver: Receiver) -> (u32, u32, u32) {
    match receiver {
        Receiver::Nobody => (0, 0, 0),
        Receiver::Bus => (1, 0, 0),
        Receiver::Peer(number) => (2, number, 0),
        Receiver::Slots(mask) => (3, u32::from(mask), mask.count_ones()),
    }
}

/// The policy that a capture lends to its calls; none for a bad image.
pub fn lent_policy(image: &[u8]) -> Option<Policy> {
    image::read(image).ok()
}

/// All lines for a capture file's bytes.
pub fn replay(file: &[u8]) -> String {
    let (lines, _) = both_parts(file);
    lines
}

/// The same lines and behind them, unless the capture is broken, one for each peer that is
/// connected at its end: its number, its waits, and what its tally says of them.
pub fn replay_with_waits(file: &[u8]) -> String {
    let (lines, waits) = both_parts(file);
    lines + &waits
}

/// The lines of a capture whose pieces are each offered in batches of `places`.
pub fn replay_in_batches(file: &[u8], places: usize) -> String {
    let reading = capture::read(file);
    let policy = lent_policy(&reading.capture.image);
    let mut guard = Guard::default();
    let mut lines = String::new();
    for call in &reading.capture.calls {
        match call {
            Call::Piece { peer, bytes } => {
                let offered = batch::offer(&mut guard, policy.as_ref(), *peer, bytes, places);
                lines.extend(offered.iter().map(batch_lines));
            }
            _ => lines += &(run(&mut guard, policy.as_ref(), call).line() + "\n"),
        }
    }
    match reading.is_whole {
        true => lines,
        false => lines + BAD_CAPTURE + "\n",
    }
}

/// What a batch reports, and behind it a line for each place that it wrote.
fn batch_lines(offered: &Offered) -> String {
    let mut lines = format!("batch {} {}\n", offered.batch.written, offered.batch.taken);
    lines.extend(offered.places.iter().map(|numbers| piece_line(numbers) + "\n"));
    lines
}

/// The lines of the calls, and the lines about waits.
fn both_parts(file: &[u8]) -> (String, String) {
    let reading = capture::read(file);
    let policy = lent_policy(&reading.capture.image);
    let mut guard = Guard::default();
    let mut tally = Tally::default();
    let mut lines = String::new();
    for call in &reading.capture.calls {
        let outcome = run(&mut guard, policy.as_ref(), call);
        tally.see(call, &outcome);
        lines.push_str(&outcome.line());
        lines.push('\n');
    }
    if !reading.is_whole {
        return (lines + BAD_CAPTURE + "\n", String::new());
    }
    let waits = guard.peers().map(|peer| waits_line(&guard, &tally, peer.number)).collect();
    (lines, waits)
}

fn waits_line(guard: &Guard, tally: &Tally, number: u32) -> String {
    let count = guard.waits().iter().filter(|wait| wait.caller == number).count();
    let Counts { admitted, replied, otherwise } = tally.of(number);
    format!("waits {number} {count} {admitted} {replied} {otherwise}\n")
}
