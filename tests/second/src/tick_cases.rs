//! What ticks do to waiting calls, and what comes behind them: the cases that a capture shows.

use crate::answer::{Answer, Receiver};
use crate::capture::Call;
use crate::guard::{Guard, Judged, Peer, Ticked, MAX_WAITS, SLOTS};
use crate::header::{Header, METHOD_CALL};
use crate::replay::Outcome;
use crate::wait::Wait;
use std::collections::{BTreeMap, BTreeSet};

const ENDED_NOTHING: &str = "ticks, ended nothing though calls waited";
const ENDED_SOME: &str = "ticks, ended some and left some";
const ENDED_SOME_OF_ONE: &str = "ticks, ended some and left some of one caller";
const ENDED_ALL: &str = "ticks, ended all that waited";
const SEVERAL_CALLERS: &str = "ticks, ended calls of several callers";
const LAST_SLOT: &str = "ticks, ended calls of the peer in the last slot";
const EQUAL: &str = "ticks, equal to the last, which was not 0";
const FAR: &str = "ticks, more than 32 bits above the last";
const EXACT: &str = "ticks, a call just as old as the limit";
const YOUNGER: &str = "ticks, a call one tick younger than the limit";
const LIMIT_0: &str = "ticks, limit 0 that ended something";
const LIMIT_1: &str = "ticks, limit 1 that ended something";
const LAST_LIMIT: &str = "ticks, the largest limit that ended something";
const LAST_LIMIT_LEFT: &str = "ticks, the largest limit at the largest tick that left something";
const LAST_TICK: &str = "ticks, set to the largest";
const CUT: &str = "ticks, set while a message was cut";
const EMPTY: &str = "ticks, set on an empty guard";
const BAD_IMAGE: &str = "ticks, set under a bad image";
const LOWER: &str = "ticks, 41 while calls waited that the limit would have ended";
const LOWER_THAN_REFUSED: &str = "ticks, 41 though not below one that was refused before";
const LOWER_AFTER_LEAVING: &str = "ticks, 41 behind a disconnect";
const LOWER_ALONE: &str = "ticks, 41 on a guard without peers";
const START: &str = "ticks, a start behind them";
const AFTER_START: &str = "ticks, good though below one from before the start";
const LATE: &str = "ticks, 24 for a reply to a call that they ended";
const AGAIN: &str = "ticks, a call that they ended waits again";
const FREED: &str = "ticks, a call admitted in the place of one of sixteen that they ended";
const SAME_LATER: &str = "ticks, 25 at a later one than the first call's";
const REPLY_LATER: &str = "ticks, a reply passed at a later one than its call's";
const CUT_CALL: &str = "ticks, a call admitted at a later one than it began at";
const ALL_FATES: &str = "ticks, a peer at the end with calls replied to, ended by them and open";

/// Every case; a good set of captures meets each of them often.
pub const CASES: [&str; 31] = [
    ENDED_NOTHING,
    ENDED_SOME,
    ENDED_SOME_OF_ONE,
    ENDED_ALL,
    SEVERAL_CALLERS,
    LAST_SLOT,
    EQUAL,
    FAR,
    EXACT,
    YOUNGER,
    LIMIT_0,
    LIMIT_1,
    LAST_LIMIT,
    LAST_LIMIT_LEFT,
    LAST_TICK,
    CUT,
    EMPTY,
    BAD_IMAGE,
    LOWER,
    LOWER_THAN_REFUSED,
    LOWER_AFTER_LEAVING,
    LOWER_ALONE,
    START,
    AFTER_START,
    LATE,
    AGAIN,
    FREED,
    SAME_LATER,
    REPLY_LATER,
    CUT_CALL,
    ALL_FATES,
];

/// What a call may change: the waiting calls and the last tick, as they were before it.
pub struct Before {
    waits: Vec<Wait>,
    tick: u64,
}

impl Before {
    pub fn of(guard: &Guard) -> Before {
        Before { waits: guard.waits().to_vec(), tick: guard.last_tick() }
    }

    fn find(&self, triple: (u32, u32, u32)) -> Option<&Wait> {
        self.waits.iter().find(|wait| wait.triple() == triple)
    }
}

/// What became of a peer's calls so far.
#[derive(Clone, Copy, Default)]
struct Fates {
    replied: bool,
    expired: bool,
}

/// Follows one capture, call by call.
#[derive(Default)]
pub struct TickCases {
    /// Calls that a tick ended and that have not been made again.
    expired: BTreeSet<(u32, u32, u32)>,
    /// Callers that had as many as may wait when a tick ended some, and how many it ended.
    freed: BTreeMap<u32, usize>,
    /// The tick at which a message began that is not yet whole.
    began: BTreeMap<u32, u64>,
    fates: BTreeMap<u32, Fates>,
    /// The lowest tick that was refused since one was set.
    refused: Option<u64>,
    has_somebody_left: bool,
    before_start: u64,
}

impl TickCases {
    /// The cases that a call shows. The guard is as the call left it; the message is the one
    /// that the call ended, with its sender.
    pub fn see(
        &mut self,
        before: &Before,
        guard: &Guard,
        call: &Call,
        outcome: &Outcome,
        message: Option<&(u32, Header)>,
    ) -> Vec<&'static str> {
        match (call, outcome) {
            (Call::Start, _) => self.start(before),
            (Call::Tick { tick, limit }, Outcome::Tick(ticked)) => {
                self.tick(before, guard, *tick, *limit, ticked)
            }
            (Call::Disconnect { peer }, outcome) if outcome.answer() == Answer::Done => {
                self.began.remove(peer);
                self.fates.remove(peer);
                self.has_somebody_left = true;
                Vec::new()
            }
            (Call::Piece { peer, .. }, Outcome::Piece(judged)) => {
                let cases = message.map(|(_, header)| self.message(before, guard, *peer, header, judged));
                self.follow_stream(guard, *peer);
                cases.unwrap_or_default()
            }
            _ => Vec::new(),
        }
    }

    fn start(&mut self, before: &Before) -> Vec<&'static str> {
        *self = TickCases { before_start: before.tick, ..TickCases::default() };
        if before.tick > 0 {
            vec![START]
        } else {
            Vec::new()
        }
    }

    fn tick(
        &mut self,
        before: &Before,
        guard: &Guard,
        tick: u64,
        limit: u64,
        ticked: &Ticked,
    ) -> Vec<&'static str> {
        if ticked.answer != Answer::Done {
            return self.refused_tick(before, guard, tick, limit);
        }
        let ended: Vec<Wait> = before.waits.iter().filter(|wait| wait.age(tick) >= limit).copied().collect();
        let mut cases = of_ends(before, guard, &ended);
        cases.extend(of_numbers(before, tick, limit, ended.len()));
        let is_cut = |peer: &Peer| peer.stream.count() > 0 && !peer.stream.is_closed();
        let is_empty = before.tick == 0 && guard.last_number() == 0;
        let with_guard =
            [(CUT, guard.peers().any(is_cut)), (EMPTY, is_empty), (AFTER_START, tick < self.before_start)];
        cases.extend(those(&with_guard));
        self.remember_ends(before, &ended);
        (self.refused, self.has_somebody_left) = (None, false);
        cases
    }

    fn refused_tick(&mut self, before: &Before, guard: &Guard, tick: u64, limit: u64) -> Vec<&'static str> {
        let cases = those(&[
            (LOWER, before.waits.iter().any(|wait| wait.age(before.tick) >= limit)),
            (LOWER_THAN_REFUSED, self.refused.is_some_and(|refused| refused <= tick)),
            (LOWER_AFTER_LEAVING, self.has_somebody_left),
            (LOWER_ALONE, guard.peers().next().is_none()),
        ]);
        self.refused = Some(self.refused.map_or(tick, |refused| refused.min(tick)));
        cases
    }

    fn remember_ends(&mut self, before: &Before, ended: &[Wait]) {
        for wait in ended {
            self.expired.insert(wait.triple());
            self.fates.entry(wait.caller).or_default().expired = true;
            if of_caller(&before.waits, wait.caller) == MAX_WAITS {
                self.freed.insert(wait.caller, of_caller(ended, wait.caller));
            }
        }
    }

    /// A message that was judged. What it found waiting is seen in what stood before.
    fn message(
        &mut self,
        before: &Before,
        guard: &Guard,
        sender: u32,
        header: &Header,
        judged: &Judged,
    ) -> Vec<&'static str> {
        let to = header.destination.as_deref().and_then(|name| guard.resolve(name)).map(|peer| peer.number);
        let Some(to) = to else { return Vec::new() };
        let call = (sender, to, header.fixed.serial);
        let reply = (to, sender, header.reply_serial.unwrap_or(0));
        let is_call = header.fixed.message_type == METHOD_CALL;
        let is_later = |triple| before.find(triple).is_some_and(|wait| wait.tick < before.tick);
        match (judged.answer, judged.receiver) {
            (Answer::AlreadyWaits, _) => those(&[(SAME_LATER, is_later(call))]),
            (Answer::ReplyNotAwaited, _) => those(&[(LATE, self.expired.contains(&reply))]),
            (Answer::Done, Receiver::Peer(_)) if is_call && header.fixed.expects_reply() => {
                self.admitted(before, guard, call)
            }
            (Answer::Done, Receiver::Peer(_)) if before.find(reply).is_some() && !is_call => {
                self.fates.entry(to).or_default().replied = true;
                those(&[(REPLY_LATER, is_later(reply))])
            }
            _ => Vec::new(),
        }
    }

    fn admitted(&mut self, before: &Before, guard: &Guard, call: (u32, u32, u32)) -> Vec<&'static str> {
        // Without what the tick ended there would now be more than may wait.
        let freed = self.freed.get(&call.0).copied().unwrap_or(0);
        let began = self.began.get(&call.0).copied();
        those(&[
            (AGAIN, self.expired.remove(&call)),
            (FREED, of_caller(guard.waits(), call.0) + freed > MAX_WAITS),
            (CUT_CALL, began.is_some_and(|began| began < before.tick)),
        ])
    }

    fn follow_stream(&mut self, guard: &Guard, peer: u32) {
        let unfinished = guard.peer(peer).is_some_and(|peer| peer.stream.count() > 0);
        match unfinished {
            true => drop(self.began.entry(peer).or_insert(guard.last_tick())),
            false => drop(self.began.remove(&peer)),
        }
    }

    /// The cases of the peers that are left when the capture ends.
    pub fn at_end(&self, guard: &Guard) -> Vec<&'static str> {
        let has_all = |number: u32| {
            let fates = self.fates.get(&number).copied().unwrap_or_default();
            fates.replied && fates.expired && of_caller(guard.waits(), number) > 0
        };
        guard.peers().filter(|peer| has_all(peer.number)).map(|_| ALL_FATES).collect()
    }

    /// A tick that needs no image.
    pub fn under_bad_image(outcome: &Outcome) -> Option<&'static str> {
        matches!(outcome, Outcome::Tick(Ticked { answer: Answer::Done, .. })).then_some(BAD_IMAGE)
    }
}

fn those(cases: &[(&'static str, bool)]) -> Vec<&'static str> {
    cases.iter().filter(|(_, holds)| *holds).map(|(case, _)| *case).collect()
}

fn of_caller(waits: &[Wait], caller: u32) -> usize {
    waits.iter().filter(|wait| wait.caller == caller).count()
}

/// What a good tick ended and left.
fn of_ends(before: &Before, guard: &Guard, ended: &[Wait]) -> Vec<&'static str> {
    let callers: BTreeSet<u32> = ended.iter().map(|wait| wait.caller).collect();
    let left = before.waits.len() - ended.len();
    let is_split = |caller: &u32| of_caller(ended, *caller) < of_caller(&before.waits, *caller);
    let last = guard.peer_in(SLOTS - 1).map(|peer| peer.number);
    those(&[
        (ENDED_NOTHING, ended.is_empty() && left > 0),
        (ENDED_SOME, !ended.is_empty() && left > 0),
        (ENDED_SOME_OF_ONE, callers.iter().any(is_split)),
        (ENDED_ALL, !ended.is_empty() && left == 0),
        (SEVERAL_CALLERS, callers.len() > 1),
        (LAST_SLOT, last.is_some_and(|number| callers.contains(&number))),
    ])
}

/// What a good tick's own numbers were.
fn of_numbers(before: &Before, tick: u64, limit: u64, ended: usize) -> Vec<&'static str> {
    let ages: Vec<u64> = before.waits.iter().map(|wait| wait.age(tick)).collect();
    let is_last = tick == u64::MAX && limit == u64::MAX;
    those(&[
        (EQUAL, tick == before.tick && tick > 0),
        (FAR, tick - before.tick > u64::from(u32::MAX)),
        (EXACT, limit > 0 && ages.contains(&limit)),
        (YOUNGER, limit > 0 && ages.contains(&(limit - 1))),
        (LIMIT_0, limit == 0 && ended > 0),
        (LIMIT_1, limit == 1 && ended > 0),
        (LAST_LIMIT, limit == u64::MAX && ended > 0),
        (LAST_LIMIT_LEFT, is_last && ages.len() > ended),
        (LAST_TICK, tick == u64::MAX),
    ])
}
