//! Unknown header fields in heads: which codes, how often, where, and which answer wins.

mod common;

use common::{judge, Bench, OPEN};
use second::answer::Receiver;
use second::header::{HeadFault, Header, Malformed, *};
use second::message::Message;
use second::typed::Typed;
use second::value::ValueFault;
use second::wire::ByteOrder;

const ORDERS: [ByteOrder; 2] = [ByteOrder::Little, ByteOrder::Big];

fn number(value: u64) -> Typed {
    Typed::variant(Typed::Number(b'u', value))
}

fn call() -> Message {
    Message::call(1, "/", "M")
}

/// A value with every letter and every kind of container.
fn rich() -> Typed {
    let numbers = b"ybnqiuxtdh".iter().map(|&letter| Typed::Number(letter, 1));
    let mut inside: Vec<Typed> = numbers.collect();
    inside.extend([
        Typed::text(b's', "\u{20ac} \u{10ffff}"),
        Typed::text(b'o', "/a"),
        Typed::text(b'g', "ay"),
    ]);
    inside.push(number(7));
    inside.push(Typed::array(vec![Typed::entry(Typed::text(b's', "k"), number(1)); 2]));
    inside.push(Typed::Array(b"(xy)".to_vec(), Vec::new()));
    inside.push(Typed::Struct(vec![Typed::array(vec![Typed::Number(b'q', 1); 3])]));
    Typed::variant(Typed::Struct(inside))
}

/// A boolean of 2 in a field of code 10.
fn bad_boolean() -> Typed {
    Typed::variant(Typed::Number(b'b', 2))
}

fn is_malformed(message: &Message, how: Malformed) {
    let bytes = message.bytes();
    let head_length = message.marshal().head_length;
    assert_eq!(judge(&bytes), (7, head_length, Some(HeadFault::Malformed(how))));
}

#[test]
fn a_number_in_a_call() {
    for order in ORDERS {
        let bytes = call().order(order).variant(10, number(42)).bytes();
        assert_eq!(judge(&bytes), (0, 56, None));
    }
    let by_hand = b"l\x01\0\x01\0\0\0\0\x01\0\0\0\x28\0\0\0\x01\x01o\0\x01\0\0\0/\0\0\0\0\0\0\0\
        \x03\x01s\0\x01\0\0\0M\0\0\0\0\0\0\0\x0a\x01u\0\x2a\0\0\0";
    assert_eq!(call().variant(10, number(42)).bytes(), by_hand);
}

#[test]
fn codes() {
    for code in 10..=255 {
        for variant in [number(1), rich()] {
            let bytes = call().variant(code, variant).bytes();
            assert_eq!(judge(&bytes), (0, bytes.len(), None), "{code}");
        }
    }
    is_malformed(&call().variant(0, number(1)), Malformed::Code);
    is_malformed(&Message::new(METHOD_CALL, 1).variant(0, number(1)), Malformed::Code);
    // Known codes keep their own rules, whatever else the field holds.
    is_malformed(&call().variant(REPLY_SERIAL, Typed::variant(number(1))), Malformed::WrongLetter);
    is_malformed(&call().variant(UNIX_FDS, rich()), Malformed::SignatureLength);
    is_malformed(&call().variant(UNIX_FDS, number(1)).variant(UNIX_FDS, number(1)), Malformed::RepeatedCode);
}

#[test]
fn repeated_codes() {
    let thrice = call().variant(10, number(1)).variant(10, number(2)).variant(10, rich());
    assert_eq!(judge(&thrice.bytes()).0, 0);
    let between =
        Message::new(METHOD_CALL, 1).variant(255, number(1)).text(PATH, "/").variant(255, number(1));
    assert_eq!(judge(&between.text(MEMBER, "M").bytes()).0, 0);
    // A known code may still not come twice, with unknown ones between.
    let message = call().variant(10, number(1)).text(MEMBER, "M");
    is_malformed(&message, Malformed::RepeatedCode);
}

#[test]
fn every_type_of_message() {
    let messages = [
        (call(), 0),
        (Message::method_return(1, 1), 24),
        (Message::error(1, 1, "a.b"), 24),
        (Message::signal(1, "/", "a.b", "M"), 0),
        (Message::new(5, 1), 20),
        (Message::new(255, 1), 20),
    ];
    for (message, answer) in messages {
        for order in ORDERS {
            let message = message.clone().order(order).body(b"body");
            let bytes = message.clone().variant(77, rich()).bytes();
            assert_eq!(judge(&bytes), (answer, bytes.len(), None));
            let broken = message.variant(77, bad_boolean());
            is_malformed(&broken, Malformed::Unknown(ValueFault::Boolean));
        }
    }
}

#[test]
fn seven_before_eight_and_nine() {
    let boolean = Malformed::Unknown(ValueFault::Boolean);
    // Behind a missing field, before it, and beside a bad value.
    is_malformed(&Message::new(METHOD_CALL, 1).text(PATH, "/").variant(10, bad_boolean()), boolean);
    is_malformed(&Message::new(SIGNAL, 1).variant(10, bad_boolean()), boolean);
    is_malformed(&call().text(SENDER, "x").variant(10, bad_boolean()), boolean);
    is_malformed(&Message::new(METHOD_CALL, 1).variant(10, bad_boolean()).text(PATH, "x"), boolean);
    is_malformed(&call().number(REPLY_SERIAL, 0).variant(10, bad_boolean()), boolean);
    is_malformed(&Message::new(METHOD_CALL, 1).text(PATH, "x").variant(10, bad_boolean()), boolean);
    // A good unknown field changes nothing about 8 and 9.
    let bad_value = call().text(SENDER, "x").variant(10, number(1)).bytes();
    assert_eq!(judge(&bad_value).2, Some(HeadFault::BadValue(SENDER)));
    let missing = Message::new(METHOD_CALL, 1).text(PATH, "/").variant(10, number(1)).bytes();
    assert_eq!(judge(&missing).2, Some(HeadFault::Missing(MEMBER)));
    let bad_path = Typed::variant(Typed::text(b'o', "x"));
    is_malformed(&call().variant(10, bad_path), Malformed::Unknown(ValueFault::NotAPath));
}

/// The array may end behind each element and nowhere else.
#[test]
fn cut_at_every_byte() {
    for order in ORDERS {
        let message = Message::new(5, 1).order(order).variant(10, rich()).variant(11, number(1));
        let built = message.marshal();
        for length in 1..built.head_length - 16 {
            let mut bytes = built.bytes[..16 + length.next_multiple_of(8)].to_vec();
            bytes[12..16].copy_from_slice(&order.write_u32(length as u32));
            bytes[16 + length..].fill(0);
            let is_whole = built.fields.iter().any(|field| field.end == 16 + length);
            assert_eq!(judge(&bytes).0, if is_whole { 20 } else { 7 }, "{length}");
        }
        assert_eq!(judge(&built.bytes).0, 20);
    }
}

/// Every padding byte inside the value and behind it has to be zero.
#[test]
fn every_padding_byte() {
    use second::typed::{Site, Writer};
    for order in ORDERS {
        let writer = Writer::field(order, 10, &rich());
        let mut tried = 0;
        for site in &writer.sites {
            let Site::Padding { start, end } = *site else { continue };
            for at in start..end {
                let mut rest = writer.bytes[1..].to_vec();
                rest[at - 1] = 1;
                is_malformed(&call().order(order).raw(10, &rest), Malformed::Unknown(ValueFault::Padding));
                tried += 1;
            }
        }
        assert!(tried > 30, "{tried}");
    }
    let mut between = call().variant(10, Typed::variant(Typed::Number(b'y', 1))).sender(":1.1").bytes();
    between[54] = 1;
    assert_eq!(judge(&between).2, Some(HeadFault::Malformed(Malformed::PaddingBetween)));
    let mut behind = call().variant(10, Typed::variant(Typed::Number(b'y', 1))).bytes();
    behind[55] = 1;
    assert_eq!(judge(&behind).2, Some(HeadFault::Malformed(Malformed::PaddingAfterArray)));
}

#[test]
fn arrays_of_2032_bytes() {
    let with_text =
        |length: usize| call().variant(10, Typed::variant(Typed::text(b's', &"x".repeat(length))));
    // The call's own fields take 32 bytes, the string 8 in front and a zero behind.
    let longest = with_text(2_032 - 32 - 9).bytes();
    assert_eq!((longest.len(), judge(&longest).0), (2_048, 0));
    assert_eq!(judge(&with_text(2_032 - 32 - 8).bytes()), (5, 16, Some(HeadFault::ArrayTooLong)));
}

/// Whatever an unknown field holds, the message is judged as without it.
#[test]
fn no_other_effect() {
    for variants in [vec![], vec![number(1)], vec![rich(), rich()]] {
        let mut bench = Bench::with_peers(OPEN, 2);
        let add = |message: Message| variants.iter().fold(message, |m, v| m.variant(10, v.clone()));
        assert_eq!(bench.send(1, add(call().to(":1.2"))), (0, Receiver::Peer(2)));
        assert_eq!(bench.sends(1, add(call().to(":1.2"))), 25);
        assert_eq!(bench.send(2, add(Message::method_return(9, 1).to(":1.1"))), (0, Receiver::Peer(1)));
        assert_eq!(bench.sends(2, add(Message::method_return(9, 1).to(":1.1"))), 24);
        assert_eq!(bench.send(1, add(call())), (0, Receiver::Bus));
        assert_eq!(bench.sends(1, add(call().to("org.nobody"))), 21);
        assert_eq!(bench.send(1, add(Message::signal(1, "/", "a.b", "M"))), (0, Receiver::Slots(3)));
    }
}

#[test]
fn what_a_head_holds() {
    let bytes = call().variant(10, rich()).variant(11, number(1)).bytes();
    let header = Header::read(&bytes).expect("the head is good");
    assert_eq!(header.unknown, unknown_fields(&bytes));
    let [first, second] = header.unknown.as_slice() else { panic!("two fields") };
    assert_eq!((first.code, first.deepest, first.has_empty_array), (10, 5, true));
    assert_eq!(first.letters.iter().copied().collect::<Vec<u8>>(), b"(abdghinoqstuvxy{");
    assert_eq!((second.code, second.deepest, second.has_empty_array), (11, 1, false));
    assert!(unknown_fields(&call().variant(10, bad_boolean()).bytes()).is_empty());
}

#[test]
fn forgiving_one_fault() {
    let read = |message: Message, fault| Header::read_forgiving(&message.bytes(), Some(fault));
    assert!(read(call().variant(10, bad_boolean()), ValueFault::Boolean).is_ok());
    let other = read(call().variant(10, bad_boolean()), ValueFault::Padding);
    assert_eq!(other, Err(HeadFault::Malformed(Malformed::Unknown(ValueFault::Boolean))));
    let missing = Message::new(METHOD_CALL, 1).variant(10, bad_boolean());
    assert_eq!(read(missing, ValueFault::Boolean), Err(HeadFault::Missing(PATH)));
}
