//! Batches: where they end, what stands in each place, and what they leave alone.

mod common;

use common::{five, Bench, OPEN};
use second::batch::{batch, offer, Batch};
use second::guard::{Guard, LentPolicy};
use second::header::{HeadFault, Malformed, PATH};
use second::message::Message;

/// What nobody wrote.
const OLD: u8 = 0xee;

/// A batch in a room of `length` bytes: what it reports, and the whole room behind it.
fn in_room(
    guard: &mut Guard,
    policy: LentPolicy,
    peer: u32,
    bytes: &[u8],
    length: usize,
) -> (Batch, Vec<u8>) {
    let mut room = vec![OLD; length];
    let report = batch(guard, policy, peer, bytes, &mut room);
    (report, room)
}

/// The numbers of the places that a batch of `places` wrote, as text, and the bytes that it took. What
/// is behind the places must be as it was.
fn told(
    guard: &mut Guard,
    policy: LentPolicy,
    peer: u32,
    bytes: &[u8],
    places: usize,
) -> (Vec<String>, usize) {
    let (report, room) = in_room(guard, policy, peer, bytes, 28 * places);
    let (written, rest) = room.split_at(28 * report.written);
    assert!(rest.iter().all(|&byte| byte == OLD));
    let number = |four: &[u8]| u32::from_le_bytes(four.try_into().expect("four bytes")).to_string();
    let place = |place: &[u8]| place.chunks(4).map(number).collect::<Vec<_>>().join(" ");
    (written.chunks(28).map(place).collect(), report.taken)
}

fn places(bench: &mut Bench, peer: u32, bytes: &[u8], places: usize) -> (Vec<String>, usize) {
    told(&mut bench.guard, Some(&bench.policy), peer, bytes, places)
}

/// Expects these places and this sum of bytes.
fn expect(bench: &mut Bench, peer: u32, bytes: &[u8], list: usize, expected: &[&str], taken: usize) {
    assert_eq!(
        places(bench, peer, bytes, list),
        (expected.iter().map(|text| text.to_string()).collect(), taken)
    );
}

/// The call of 48 bytes to the bus.
fn call_c() -> Vec<u8> {
    Message::call(1, "/", "M").bytes()
}

fn c_with(changes: &[(usize, u8)]) -> Vec<u8> {
    let mut bytes = call_c();
    changes.iter().for_each(|&(at, byte)| bytes[at] = byte);
    bytes
}

const TO_BUS: &str = "0 48 1 0 0 1 0";

/// The places of `five`.
const FIVE: [&str; 5] = [TO_BUS, "0 64 2 2 0 1 1", "0 64 3 3 2 0 0", "24 40 0 0 0 0 0", "20 16 0 0 0 0 0"];

#[test]
fn a_place_byte_by_byte() {
    let mut bench = Bench::with_peers(OPEN, 2);
    let (report, room) = in_room(&mut bench.guard, Some(&bench.policy), 1, &five(), 3 * 28 + 1);
    assert_eq!(report, Batch { written: 3, taken: 176 });
    let words = |numbers: [u8; 7]| numbers.map(|number| [number, 0, 0, 0]).concat();
    assert_eq!(room[..28], words([0, 48, 1, 0, 0, 1, 0]));
    assert_eq!(room[28..56], words([0, 64, 2, 2, 0, 1, 1]));
    assert_eq!(room[56..84], words([0, 64, 3, 3, 2, 0, 0]));
    assert_eq!(room[84], OLD);
}

#[test]
fn numbers_of_four_bytes() {
    let mut bench = Bench::with_peers(OPEN, 1);
    let long = Message::call(1, "/", "M").body(&[0; 0x01_02_03]).bytes();
    let (_, room) = in_room(&mut bench.guard, Some(&bench.policy), 1, &long, 28);
    assert_eq!(room[4..8], [0x33, 2, 1, 0]);
    bench.guard = Guard::with_last_number(0x0a0b_0c0c);
    assert_eq!(bench.connect(0, &[]), 0x0a0b_0c0d);
    let to_oneself = Message::call(1, "/", "M").to(":1.168496141").bytes();
    let (_, room) = in_room(&mut bench.guard, Some(&bench.policy), 0x0a0b_0c0d, &to_oneself, 28);
    assert_eq!(room[8..16], [2, 0, 0, 0, 0x0d, 0x0c, 0x0b, 0x0a]);
}

#[test]
fn positions_of_more_than_a_byte() {
    let about_nobody = "transaction user 77 deny send any\n".repeat(300);
    let policy = format!("connect default allow any\n{about_nobody}transaction default allow send any");
    let mut bench = Bench::with_peers(&policy, 1);
    expect(&mut bench, 1, &call_c().repeat(2), 2, &["0 48 1 0 0 1 300"; 2], 96);
}

#[test]
fn long_lists() {
    let unknown = Message::new(5, 1).bytes();
    for list in [63, 64, 65, 255, 256, 257, 4096] {
        let mut bench = Bench::with_peers(OPEN, 1);
        expect(&mut bench, 1, &unknown.repeat(list + 1), list, &vec!["20 16 0 0 0 0 0"; list], 16 * list);
    }
}

#[test]
fn lists_that_are_full() {
    let sums = [0, 48, 112, 176, 216, 232];
    for list in 1..=5 {
        let mut bench = Bench::with_peers(OPEN, 2);
        expect(&mut bench, 1, &five(), list, &FIVE[..list], sums[list]);
        // What is left is as good in the next list.
        let left = &five()[sums[list]..];
        if list < 5 {
            expect(&mut bench, 1, left, 9, &FIVE[list..], left.len());
        }
    }
}

#[test]
fn nothing_behind_the_last_byte() {
    for list in [5, 6, 100] {
        let mut bench = Bench::with_peers(OPEN, 2);
        expect(&mut bench, 1, &five(), list, &FIVE, 232);
    }
    let mut bench = Bench::with_peers(OPEN, 1);
    expect(&mut bench, 1, &call_c(), 2, &[TO_BUS], 48);
}

#[test]
fn an_unfinished_message_is_the_last() {
    let mut bench = Bench::with_peers(OPEN, 1);
    let bytes = [call_c(), call_c()].concat();
    for cut in [1, 15, 16, 17, 47] {
        let unfinished = format!("10 {cut} 0 0 0 0 0");
        expect(&mut bench, 1, &bytes[..48 + cut], 9, &[TO_BUS, &unfinished], 48 + cut);
        // The place counts the bytes of this batch only.
        let rest = 48 - cut;
        expect(&mut bench, 1, &call_c()[cut..], 9, &[&format!("0 {rest} 1 0 0 1 0")], rest);
    }
    // Without a place for it, the beginning is left.
    expect(&mut bench, 1, &bytes[..60], 1, &[TO_BUS], 48);
    expect(&mut bench, 1, &bytes, 9, &[TO_BUS, TO_BUS], 96);
}

#[test]
fn an_empty_piece() {
    let mut bench = Bench::with_peers(OPEN, 1);
    for list in [1, 2, 9] {
        expect(&mut bench, 1, &[], list, &["10 0 0 0 0 0 0"], 0);
        expect(&mut bench, 7, &[], list, &["30 0 0 0 0 0 0"], 0);
        let bad = told(&mut bench.guard, None, 1, &[], list);
        assert_eq!(bad, (vec!["50 0 0 0 0 0 0".to_string()], 0));
    }
    expect(&mut bench, 1, &call_c()[..20], 9, &["10 20 0 0 0 0 0"], 20);
    expect(&mut bench, 1, &[], 9, &["10 0 0 0 0 0 0"], 0);
    expect(&mut bench, 1, &call_c()[20..], 9, &["0 28 1 0 0 1 0"], 28);
    expect(&mut bench, 1, &[0; 16], 9, &["1 16 0 0 0 0 0"], 16);
    expect(&mut bench, 1, &[], 9, &["40 0 0 0 0 0 0"], 0);
}

/// Heads that break, with the bytes that each takes.
fn broken_heads() -> Vec<(HeadFault, Vec<u8>, usize)> {
    let without_member = Message::new(1, 1).text(PATH, "/").bytes();
    vec![
        (HeadFault::ByteOrder, c_with(&[(0, 0x4c)]), 16),
        (HeadFault::Version, c_with(&[(3, 2)]), 16),
        (HeadFault::TypeZero, c_with(&[(1, 0)]), 16),
        (HeadFault::SerialZero, c_with(&[(8, 0)]), 16),
        (HeadFault::ArrayTooLong, c_with(&[(12, 0xf1), (13, 7)]), 16),
        (HeadFault::MessageTooLong, c_with(&[(7, 0x7f)]), 16),
        (HeadFault::Malformed(Malformed::SignatureLength), c_with(&[(17, 2)]), 48),
        (HeadFault::BadValue(1), c_with(&[(24, b'x')]), 48),
        (HeadFault::Missing(3), without_member, 32),
    ]
}

#[test]
fn broken_heads_end_a_batch() {
    for (index, (fault, head, taken)) in broken_heads().into_iter().enumerate() {
        let number = index as u32 + 1;
        assert_eq!(fault.answer().number(), number);
        let last = format!("{number} {taken} 0 0 0 0 0");
        let bytes = [call_c(), head, call_c(), call_c()].concat();
        for list in [2, 3, 4, 64] {
            let mut bench = Bench::with_peers(OPEN, 1);
            expect(&mut bench, 1, &bytes, list, &[TO_BUS, &last], 48 + taken);
            expect(&mut bench, 1, &call_c(), list, &["40 0 0 0 0 0 0"], 0);
            assert_eq!(bench.guard.disconnect(1).bytes, taken as u64);
        }
        // As the very last place, and as the only one.
        let mut bench = Bench::with_peers(OPEN, 1);
        expect(&mut bench, 1, &bytes, 1, &[TO_BUS], 48);
        expect(&mut bench, 1, &bytes[48..], 1, &[&last], taken);
    }
}

#[test]
fn refusals_of_the_call_end_a_batch() {
    let bytes = [call_c(), call_c(), call_c()].concat();
    for list in [1, 2, 3, 64] {
        let mut bench = Bench::with_peers(OPEN, 1);
        expect(&mut bench, 2, &bytes, list, &["30 0 0 0 0 0 0"], 0);
        expect(&mut bench, 0, &bytes, list, &["30 0 0 0 0 0 0"], 0);
        let bad = told(&mut bench.guard, None, 1, &bytes, list);
        assert_eq!(bad, (vec!["50 0 0 0 0 0 0".to_string()], 0));
        // Of both, the image comes first.
        let bad = told(&mut bench.guard, None, 2, &bytes, list);
        assert_eq!(bad, (vec!["50 0 0 0 0 0 0".to_string()], 0));
        expect(&mut bench, 1, &[0; 16], list, &["1 16 0 0 0 0 0"], 16);
        expect(&mut bench, 1, &bytes, list, &["40 0 0 0 0 0 0"], 0);
    }
}

const DENIALS: &str = "connect default allow any
    transaction default allow send any
    transaction default allow receive any
    transaction default deny send any path=/mute
    transaction default deny receive any path=/deaf";

/// Behind each of 20 to 26, and behind whatever passes, the next message is judged.
#[test]
fn dropped_messages_do_not_end_a_batch() {
    let call = |serial, path| Message::call(serial, path, "M").to(":1.2");
    let piece: Vec<Vec<u8>> = [
        Message::new(255, 1),
        Message::call(1, "/", "M").to(":1.3"),
        call(1, "/mute"),
        call(1, "/deaf"),
        Message::method_return(1, 1).to(":1.2"),
        call(1, "/"),
        call(1, "/"),
    ]
    .iter()
    .map(Message::bytes)
    .chain((2..=17).map(|serial| call(serial, "/").bytes()))
    .chain([
        Message::signal(1, "/deaf", "a.b", "S").bytes(),
        Message::signal(1, "/", "a.b", "S").to(":1.2").bytes(),
    ])
    .collect();
    let mut expected =
        vec!["20 16 0 0 0 0 0", "21 64 0 0 0 0 0", "22 64 0 0 0 1 2", "23 64 0 0 0 1 3", "24 40 0 0 0 0 0"];
    expected.extend(["0 64 2 2 0 1 1", "25 64 0 0 0 1 1"]);
    expected.extend(["0 64 2 2 0 1 1"; 15]);
    expected.extend(["26 64 0 0 0 1 1", "0 64 3 0 0 0 0", "0 80 2 2 0 1 1"]);
    let bytes = piece.concat();
    for list in [expected.len(), 64] {
        let mut bench = Bench::with_peers(DENIALS, 2);
        expect(&mut bench, 1, &bytes, list, &expected, bytes.len());
    }
    // Each of them as the last place of a list of two, with the next message in the next list.
    let mut bench = Bench::with_peers(DENIALS, 2);
    let mut left = bytes.as_slice();
    for pair in expected.chunks(2) {
        let (written, taken) = places(&mut bench, 1, left, 2);
        assert_eq!(written, pair);
        left = &left[taken..];
    }
    assert!(left.is_empty());
}

#[test]
fn none_matched_in_a_place() {
    let mut bench = Bench::with_peers("connect default allow any", 2);
    let bytes = [call_c(), call_c()].concat();
    expect(&mut bench, 1, &bytes, 3, &["22 48 0 0 0 2 0"; 2], 96);
}

/// A message is judged by what the messages before it left behind.
#[test]
fn replies_in_the_same_piece() {
    let call = Message::call(7, "/", "M").to(":1.1").bytes();
    let reply = Message::method_return(8, 7).to(":1.1").bytes();
    let (passed, replied) = ("0 64 2 1 0 1 1", "0 40 2 1 0 0 0");
    let bytes = [reply.clone(), call.clone(), call.clone(), reply.clone(), reply, call].concat();
    let expected = ["24 40 0 0 0 0 0", passed, "25 64 0 0 0 1 1", replied, "24 40 0 0 0 0 0", passed];
    for list in 1..=7 {
        let mut bench = Bench::with_peers(OPEN, 1);
        let offered = offer(&mut bench.guard, Some(&bench.policy), 1, &bytes, list);
        let numbers = offered.iter().flat_map(|one| &one.places);
        let words = numbers.map(|place| place.map(|number| number.to_string()).join(" "));
        assert_eq!(words.collect::<Vec<_>>(), expected);
        assert_eq!(bench.guard.waits().len(), 1);
    }
}

#[test]
fn rooms() {
    for (length, written, taken) in
        [(0, 0, 0), (1, 0, 0), (27, 0, 0), (28, 1, 48), (29, 1, 48), (55, 1, 48), (56, 2, 112), (57, 2, 112)]
    {
        let mut bench = Bench::with_peers(OPEN, 2);
        let (report, room) = in_room(&mut bench.guard, Some(&bench.policy), 1, &five(), length);
        assert_eq!(report, Batch { written, taken }, "{length}");
        assert!(room[28 * written..].iter().all(|&byte| byte == OLD));
        assert!((0..written).all(|place| room[28 * place] == 0));
        // Nothing more than that has happened.
        expect(&mut bench, 1, &five()[taken..], 5, &FIVE[written..], 232 - taken);
    }
}

/// Without a whole place nothing is tested, whatever else is wrong, and nothing changes.
#[test]
fn rooms_without_a_place() {
    for length in [0, 27] {
        let mut bench = Bench::with_peers(OPEN, 2);
        let untouched = (Batch { written: 0, taken: 0 }, vec![OLD; length]);
        for peer in [0, 1, 2, 9] {
            for bytes in [&[] as &[u8], &five(), &[0; 16]] {
                assert_eq!(in_room(&mut bench.guard, None, peer, bytes, length), untouched);
                assert_eq!(in_room(&mut bench.guard, Some(&bench.policy), peer, bytes, length), untouched);
            }
        }
        expect(&mut bench, 1, &five(), 9, &FIVE, 232);
    }
}
