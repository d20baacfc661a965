//! The limit of open containers, variants among them: 64 and one beyond.

mod common;

use common::judge;
use second::header::{HeadFault, Malformed};
use second::message::Message;
use second::typed::Typed;
use second::value::ValueFault;
use second::wire::ByteOrder;

/// `leaf` inside layers, the outermost first: `v` a variant, `a` an array, `(` parentheses and
/// `{` an array with one dict entry.
fn nested(layers: &str, leaf: Typed) -> Typed {
    layers.chars().rev().fold(leaf, |inside, layer| match layer {
        'v' => Typed::variant(inside),
        'a' => Typed::array(vec![inside]),
        '(' => Typed::Struct(vec![inside]),
        _ => Typed::array(vec![Typed::entry(Typed::Number(b'y', 1), inside)]),
    })
}

fn byte() -> Typed {
    Typed::Number(b'y', 0xff)
}

fn fault(variant: Typed) -> Option<HeadFault> {
    let read = |order| {
        let bytes = Message::call(1, "/", "M").order(order).variant(200, variant.clone()).bytes();
        let (answer, taken, fault) = judge(&bytes);
        assert_eq!((answer, taken), (if fault.is_some() { 7 } else { 0 }, bytes.len()));
        fault
    };
    assert_eq!(read(ByteOrder::Little), read(ByteOrder::Big));
    read(ByteOrder::Little)
}

/// The first has 64 open, the second 65.
fn limit(good: Typed, bad: Typed) {
    assert_eq!(fault(good), None);
    assert_eq!(fault(bad), Some(HeadFault::Malformed(Malformed::Unknown(ValueFault::TooManyOpen))));
}

#[test]
fn variants() {
    limit(nested(&"v".repeat(64), byte()), nested(&"v".repeat(65), byte()));
}

#[test]
fn variants_alone_by_hand() {
    let nest = |variants: usize| {
        let rest = [b"\x01v\0".repeat(variants - 1), b"\x01y\0\xff".to_vec()].concat();
        judge(&Message::call(1, "/", "M").raw(10, &rest).bytes()).0
    };
    assert_eq!((nest(1), nest(63), nest(64), nest(65), nest(66), nest(400)), (0, 0, 0, 7, 7, 7));
}

/// A signature has at most 32 arrays open, so a variant in the middle begins a new one.
#[test]
fn arrays() {
    let layers = |last: usize| format!("v{}v{}", "a".repeat(32), "a".repeat(last));
    limit(nested(&layers(30), byte()), nested(&layers(31), byte()));
}

#[test]
fn parentheses() {
    let layers = |last: usize| format!("v{}v{}", "(".repeat(32), "(".repeat(last));
    limit(nested(&layers(30), byte()), nested(&layers(31), byte()));
}

#[test]
fn arrays_and_parentheses_of_one_signature() {
    let layers = |last: usize| format!("v{}{}", "a".repeat(32), "(".repeat(last));
    limit(nested(&layers(31), byte()), nested(&layers(32), byte()));
    let layers = |last: usize| format!("v{}{}", "(".repeat(32), "a".repeat(last));
    limit(nested(&layers(31), byte()), nested(&layers(32), byte()));
}

/// A dict entry counts beside its array, so 31 of them are 62.
#[test]
fn dict_entries() {
    let layers = |first: &str| format!("v{first}{}", "{".repeat(31));
    limit(nested(&layers("("), byte()), nested(&layers("(("), byte()));
    let layers = |last: &str| format!("v{}{last}", "{".repeat(31));
    limit(nested(&layers("a"), byte()), nested(&layers("a("), byte()));
    limit(nested(&layers("("), byte()), nested(&layers("(v"), byte()));
    limit(nested(&layers("v"), byte()), nested(&layers("va"), byte()));
    limit(nested(&layers(""), byte()), nested(&layers("{"), byte()));
}

/// An array without elements counts itself; whatever its elements would open is not open.
#[test]
fn empty_arrays() {
    for element in ["y", "v", "(y)", "{yv}", "a(y)", "((((y))))"] {
        let empty = || Typed::Array(element.as_bytes().to_vec(), Vec::new());
        limit(nested(&"v".repeat(63), empty()), nested(&"v".repeat(64), empty()));
    }
    for last in ["(", "a", "v"] {
        let inside = nested(last, byte());
        let empty = Typed::Array(inside.signature(), Vec::new());
        let one = Typed::Array(inside.signature(), vec![inside]);
        limit(nested(&"v".repeat(63), empty), nested(&"v".repeat(63), one));
    }
}

#[test]
fn what_has_closed_does_not_count() {
    let deep = |layers: usize| nested(&"v".repeat(layers), byte());
    let side_by_side = |layers| Typed::variant(Typed::Struct(vec![deep(layers); 3]));
    limit(side_by_side(62), side_by_side(63));
    let rows = |layers| Typed::variant(Typed::array(vec![deep(layers); 3]));
    limit(rows(62), rows(63));
    // The last one alone is too deep.
    let last = |layers| Typed::variant(Typed::array(vec![deep(1), deep(62), deep(layers)]));
    limit(last(62), last(63));
    let entry = |layers| Typed::entry(Typed::Number(b'y', 1), deep(layers));
    let entries = |layers| Typed::variant(Typed::array(vec![entry(61), entry(layers)]));
    limit(entries(61), entries(62));
}

/// Each field counts for itself.
#[test]
fn fields_side_by_side() {
    let deep = |layers: usize| nested(&"v".repeat(layers), byte());
    let three = |layers| {
        let message = Message::call(1, "/", "M").variant(10, deep(64)).variant(10, deep(64));
        judge(&message.variant(11, deep(layers)).bytes()).0
    };
    assert_eq!((three(64), three(65)), (0, 7));
}
