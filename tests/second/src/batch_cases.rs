//! What batches come to: how far their lists were filled, what ended them, and what stood in them.

use crate::answer::ends_an_offer;
use crate::batch::{self, Offered};
use crate::capture::{self, Call};
use crate::guard::Guard;
use crate::replay::{lent_policy, run};

/// The lists with which captures are compared. A list of one place is always full behind a call.
pub const LISTS: [usize; 4] = [1, 2, 7, 64];

/// Answers behind which an offer goes on; those that pass a message, by its receiver.
const PASSED: [&str; 5] =
    ["0 to the bus", "0 to a peer", "0 for a reply", "0 to a mask", "0 to an empty mask"];

/// Answers that end an offer.
const ENDS: [u32; 12] = [1, 2, 3, 4, 5, 6, 7, 8, 9, 30, 40, 50];

const FILLED: [&str; 2] = ["filled with nothing left", "filled with bytes left"];
const ENDED: [&str; 4] = ["ended by 1 to 9", "ended by 30", "ended by 40", "ended by 50"];
const NOT_FILLED: [&str; 2] =
    ["not filled, the last message whole", "not filled, the last message unfinished"];
const TOGETHER: [&str; 2] =
    ["a rule shown behind the first place", "a call to oneself and behind it a reply to oneself"];

/// Every case; a good set of captures meets each of them often.
pub fn cases() -> Vec<String> {
    let mut cases = Vec::new();
    let several_times =
        PASSED.map(str::to_string).into_iter().chain((20..=26).map(|number| number.to_string()));
    let of_several: Vec<String> = several_times.map(|kind| format!("{kind} several times")).collect();
    for list in LISTS {
        let of_each = FILLED.iter().chain(&ENDED).copied();
        cases.extend(of_each.map(|what| format!("batches of {list}, {what}")));
        if list > 1 {
            let further =
                NOT_FILLED.iter().chain(&TOGETHER).copied().chain(of_several.iter().map(String::as_str));
            cases.extend(further.map(|what| format!("batches of {list}, {what}")));
        }
    }
    cases.extend(ENDS.map(|answer| format!("batches, {answer} with places and bytes left")));
    cases.extend([10, 30, 40, 50].map(|answer| format!("batches, {answer} for an empty piece")));
    cases
}

/// The cases of a capture whose pieces are offered by lists of each length.
pub fn of_capture(file: &[u8]) -> Vec<String> {
    let reading = capture::read(file);
    let policy = lent_policy(&reading.capture.image);
    let mut cases = Vec::new();
    for list in LISTS {
        let mut guard = Guard::default();
        for call in &reading.capture.calls {
            match call {
                Call::Piece { peer, bytes } => {
                    let offered = batch::offer(&mut guard, policy.as_ref(), *peer, bytes, list);
                    cases.extend(offered.iter().flat_map(|one| of_batch(list, *peer, one)));
                }
                _ => drop(run(&mut guard, policy.as_ref(), call)),
            }
        }
    }
    cases
}

/// The cases of one batch of peer `sender`, by a list of that many places.
pub fn of_batch(list: usize, sender: u32, offered: &Offered) -> Vec<String> {
    let mut cases = Vec::new();
    let answer = offered.places.last().map_or(0, |numbers| numbers[0]);
    let is_full = offered.places.len() == list;
    // Whatever is offered and not taken is left, so there was nothing to begin with.
    let is_empty = offered.batch.taken == 0 && offered.left == 0;
    let mut add = |what: &str| cases.push(format!("batches of {list}, {what}"));
    match (answer, is_full, offered.left) {
        (1..=9, ..) => add(ENDED[0]),
        (30..=51, ..) => add(&format!("ended by {answer}")),
        (_, true, 0) => add(FILLED[0]),
        (_, true, _) => add(FILLED[1]),
        (10, false, _) if is_empty => {}
        (10, false, _) => add(NOT_FILLED[1]),
        (_, false, _) => add(NOT_FILLED[0]),
    }
    if list > 1 {
        of_places(sender, &offered.places).iter().for_each(|what| add(what));
    }
    if ends_an_offer(answer) && !is_full && offered.left > 0 {
        cases.push(format!("batches, {answer} with places and bytes left"));
    }
    if is_empty {
        cases.push(format!("batches, {answer} for an empty piece"));
    }
    cases
}

/// What several places of one list show together.
fn of_places(sender: u32, places: &[[u32; 7]]) -> Vec<String> {
    let kinds: Vec<String> = places.iter().filter_map(kind_of).collect();
    let mut cases: Vec<String> = Vec::new();
    for (index, kind) in kinds.iter().enumerate() {
        // Each kind counts once, where it comes for the second time.
        if kinds[..index].iter().filter(|earlier| *earlier == kind).count() == 1 {
            cases.push(format!("{kind} several times"));
        }
    }
    if places.iter().skip(1).any(|numbers| numbers[5] == 1) {
        cases.push(TOGETHER[0].to_string());
    }
    let passed_to_oneself = |numbers: &[u32; 7], kind: &str| {
        numbers[3] == sender && kind_of(numbers).is_some_and(|other| other == kind)
    };
    let call = places.iter().position(|numbers| passed_to_oneself(numbers, "0 to a peer"));
    let reply = places.iter().rposition(|numbers| passed_to_oneself(numbers, "0 for a reply"));
    if call.is_some_and(|call| reply.is_some_and(|reply| call < reply)) {
        cases.push(TOGETHER[1].to_string());
    }
    cases
}

/// The answer of a place and, where a message passed, who got it. A pass to a peer shows a rule
/// unless it is a reply.
fn kind_of(numbers: &[u32; 7]) -> Option<String> {
    let [answer, _, kind, value, _, shown, _] = *numbers;
    match (answer, kind, value, shown) {
        (0, 1, ..) => Some("0 to the bus".to_string()),
        (0, 2, _, 0) => Some("0 for a reply".to_string()),
        (0, 2, ..) => Some("0 to a peer".to_string()),
        (0, 3, 0, _) => Some("0 to an empty mask".to_string()),
        (0, 3, ..) => Some("0 to a mask".to_string()),
        (20..=26, ..) => Some(answer.to_string()),
        _ => None,
    }
}
