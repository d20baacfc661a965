//! Heads box by box, each way to break, and every limit with one beyond.

mod cases;

use cases::{
    bare, call_c, ending_in_array, ending_in_entries, long_path, of_letter, of_string, unknown, variants,
};
use forms::message::{ByteOrder, Message};
use tool::head::{self, signature, type_word, utf8, FieldAt, Head, HeadFault, Outcome};

fn fault(bytes: &[u8]) -> Option<HeadFault> {
    match head::read(bytes).outcome {
        Outcome::Broken(fault) => Some(fault),
        _ => None,
    }
}

fn kind(bytes: &[u8]) -> Option<&'static str> {
    fault(bytes).map(|fault| fault.kind)
}

fn good(bytes: &[u8]) -> Head {
    match head::read(bytes).outcome {
        Outcome::Good(head) => *head,
        other => panic!("{}: {other:?}", forms::hex::show(bytes)),
    }
}

/// The boxes as `from name=value`.
fn boxes(bytes: &[u8]) -> Vec<String> {
    let parts = head::read(bytes).parts;
    parts.iter().map(|part| format!("{} {}={}", part.from, part.name, part.value)).collect()
}

#[test]
fn each_way_to_break() {
    for case in cases::all() {
        let told = fault(&case.bytes).unwrap_or_else(|| panic!("{} is not broken", case.kind));
        let place = (told.kind, told.answer, told.at, told.part.as_str());
        assert_eq!(place, (case.kind, case.answer, case.at, case.part), "{told:?}");
        assert!(!told.what.is_empty() && !told.what.ends_with(['.', ',']), "{told:?}");
        assert!(!told.wanted.is_empty(), "{told:?}");
    }
}

#[test]
fn every_kind_has_a_case() {
    let mut seen: Vec<&str> = cases::all().iter().map(|case| case.kind).collect();
    seen.sort();
    seen.dedup();
    let mut kinds = head::KINDS.to_vec();
    kinds.sort();
    assert_eq!(seen, kinds);
}

#[test]
fn words() {
    let told = |bytes: &[u8]| fault(bytes).map(|fault| (fault.what, fault.wanted)).unwrap();
    let says = |bytes: &[u8], what: &str, wanted: &str| {
        assert_eq!(told(bytes), (what.to_string(), wanted.to_string()));
    };
    let member = |text: &str| Message::new(1, 1).text(1, "/").text(3, text).bytes();
    let no_member = "the member is no member name: ";
    says(&member("Stop-it"), &format!("{no_member}at its byte 4 stands '-'"), "a letter, a digit or _");
    says(&member(""), &format!("{no_member}it is empty"), "a letter or _");
    says(&member(&"x".repeat(300)), &format!("{no_member}it has 300 bytes"), "at most 255 bytes");
    says(&member("a\u{1}"), &format!("{no_member}at its byte 1 stands '\\x01'"), "a letter, a digit or _");
    says(
        &Message::new(1, 1).text(1, "/").bytes(),
        "a call has no member",
        "field 3, member: a call requires it",
    );
    says(
        &Message::new(3, 1).number(5, 1).bytes(),
        "an error has no error name",
        "field 4, error name: an error requires it",
    );
    let swapped = "the array of header fields has 436207616 bytes, and 2,032 are the most; in the other byte order the number is 26";
    says(&bare(1, 0, 26_u32.swap_bytes()), swapped, "a number up to 2,032");
    assert!(!told(&bare(1, 0, 0x1010_1010)).0.contains("other byte order"));
    let what = "in the unknown field 42 the boolean at byte 20 is neither 0 nor 1";
    says(&of_letter(b'b', &[2, 0, 0, 0]), what, "00 or 01");
}

#[test]
fn boxes_of_a_call() {
    let mut bytes = Message { flags: 1, ..Message::new(1, 7) }.text(1, "/f").text(3, "M").bytes();
    bytes.extend([0xff; 3]);
    let wanted = [
        "0 order=little",
        "1 type=call",
        "2 flags=no reply expected",
        "3 version=1",
        "4 body length=0",
        "8 serial=7",
        "12 array length=26",
        "16 code=path",
        "17 type 'o'=object path",
        "20 length=2",
        "24 path=/f",
        "26 zero=",
        "27 padding=",
        "32 code=member",
        "33 type 's'=string",
        "36 length=1",
        "40 member=M",
        "41 zero=",
        "42 padding=",
    ];
    assert_eq!(boxes(&bytes), wanted);
    assert_eq!(head::read(&bytes).parts.last().map(|part| part.to), Some(48));
}

#[test]
fn boxes_of_numbers_and_unknown_fields() {
    let message = Message { order: ByteOrder::Big, flags: 0x86, ..Message::new(9, 0x0102_0304) };
    let bytes = message.number(5, 6).text(8, "s").raw(200, b"\x04(qn)\0\xff\xff\xff\xfe").bytes();
    let wanted = [
        "0 order=big",
        "1 type=type 9",
        "2 flags=no auto-start, interactive, others",
        "3 version=1",
        "4 body length=0",
        "8 serial=16909060",
        "12 array length=27",
        "16 code=reply serial",
        "17 type 'u'=uint32",
        "20 reply serial=6",
        "24 code=signature",
        "25 type 'g'=signature",
        "28 length=1",
        "29 signature=s",
        "30 zero=",
        "31 padding=",
        "32 code=unknown",
        "33 signature length=4",
        "34 signature=(qn)",
        "38 zero=",
        "39 padding=",
        "40 rest=",
    ];
    // The struct begins at a multiple of 8, and what should be padding was not.
    assert_eq!(boxes(&bytes), wanted);
    let message = Message { order: ByteOrder::Big, ..Message::new(9, 1) };
    let bytes = message.raw(200, b"\x04(qn)\0\0\xff\xff\xff\xfe").bytes();
    let values = boxes(&bytes)[11..].to_vec();
    assert_eq!(values, ["23 padding=", "24 uint16=65535", "26 int16=-2", "28 padding="]);
}

#[test]
fn boxes_of_values() {
    let of = |rest: &[u8]| boxes(&unknown(rest))[10..].join(" ");
    let bytes = of(b"\x02ay\0\0\0\0\x03\0\0\0a\xff\\");
    assert_eq!(bytes, "20 zero= 21 padding= 24 array length=3 28 bytes=a\\xff\\x5c 31 padding=");
    let texts = of(b"\x05(sog)\0\x01\0\0\0~\0\0\0\x01\0\0\0/\0\0\0");
    let wanted = "23 zero= 24 length=1 28 string=~ 29 zero= 30 padding= 32 length=1 36 object path=/ 37 zero= 38 length=0 39 zero=";
    assert_eq!(texts, wanted);
    let numbers = of(b"\x05(bxd)\0\x01\0\0\0\0\0\0\0\xfe\xff\xff\xff\xff\xff\xff\xff\0\0\0\0\0\0\xf8\x3f");
    assert_eq!(numbers, "23 zero= 24 boolean=1 28 padding= 32 int64=-2 40 double=1.5e0");
    let variant = of(b"\x01v\0\x01i\0\0\xff\xff\xff\xff");
    assert_eq!(
        variant,
        "19 zero= 20 signature length=1 21 signature=i 22 zero= 23 padding= 24 int32=-1 28 padding="
    );
}

#[test]
fn broken_heads_have_a_rest() {
    let told = |bytes: &[u8]| boxes(bytes).last().cloned().unwrap();
    assert_eq!(told(&cases::c_with(0, b"L")), "12 array length=");
    assert_eq!(boxes(&cases::c_with(0, b"L"))[0], "0 order=L");
    assert_eq!(told(&cases::c_with(3, &[2])), "12 array length=26");
    assert_eq!(told(&cases::c_with(17, &[2])), "20 rest=");
    assert_eq!(head::read(&cases::c_with(17, &[2])).parts.last().map(|part| part.to), Some(48));
}

#[test]
fn unfinished() {
    let bytes = call_c();
    for count in 0..48 {
        let reading = head::read(&bytes[..count]);
        let wanted = if count < 16 { 16 } else { 48 };
        assert_eq!(reading.outcome, Outcome::Unfinished { wanted }, "{count}");
        assert_eq!(reading.parts.last().map_or(0, |part| part.to), count);
    }
    assert_eq!(
        boxes(&bytes[..6]),
        ["0 order=little", "1 type=call", "2 flags=none", "3 version=1", "4 body length="]
    );
    assert_eq!(boxes(&bytes[..17]).last().unwrap(), "16 rest=");
    good(&bytes);
}

#[test]
fn a_good_head() {
    let message = Message { flags: 4, body: vec![0; 5], ..Message::new(3, 9) };
    let message = message.text(4, "org.x.Y").number(5, 2).text(6, ":1.4").text(7, "a.b").text(8, "s");
    let bytes = message.number(9, 1).text(1, "/").text(2, "i.j").text(3, "M").raw(10, b"\x01y\0\0").bytes();
    let head = good(&bytes);
    let text = |text: &str| Some(text.to_string());
    assert_eq!((head.order, head.message_type, head.flags, head.serial), (ByteOrder::Little, 3, 4, 9));
    assert_eq!((head.head_length + 5, head.body_length), (bytes.len(), 5));
    assert_eq!(
        (head.path.clone(), head.interface.clone(), head.member.clone()),
        (text("/"), text("i.j"), text("M"))
    );
    assert_eq!(
        (head.error_name.clone(), head.reply_serial, head.descriptors),
        (text("org.x.Y"), Some(2), Some(1))
    );
    assert_eq!((head.destination.clone(), head.sender.clone()), (text(":1.4"), text("a.b")));
    assert_eq!(head.signature, text("s"));
    let codes: Vec<u8> = head.fields.iter().map(|field| field.code).collect();
    assert_eq!(codes, [4, 5, 6, 7, 8, 9, 1, 2, 3, 10]);
    assert_eq!(head.fields[1], FieldAt { code: 5, from: 32, to: 40 });
    assert_eq!(good(&Message::new(255, u32::MAX).bytes()).fields, []);
}

#[test]
fn summaries() {
    let told = |message: Message| head::summary(&good(&message.bytes()));
    let call = Message::new(1, 3).text(1, "/org/theatre/Fans");
    assert_eq!(told(call.clone().text(3, "Stop")), "call /org/theatre/Fans Stop, serial 3");
    assert_eq!(
        told(call.text(3, "Stop").text(2, "a.b").number(5, 8)),
        "call /org/theatre/Fans a.b.Stop, serial 3"
    );
    assert_eq!(told(Message::new(2, 9).number(5, 2).text(1, "/")), "return to serial 2, serial 9");
    assert_eq!(
        told(Message::new(3, 9).number(5, 2).text(4, "org.x.Y")),
        "error org.x.Y to serial 2, serial 9"
    );
    let signal = Message::new(4, 1).text(1, "/p").text(2, "org.i").text(3, "M").text(4, "e.f");
    assert_eq!(told(signal), "signal /p org.i.M, serial 1");
    assert_eq!(told(Message::new(7, 1)), "type 7, serial 1");
    assert_eq!([1, 2, 3, 4, 0, 5].map(type_word).join(" "), "call return error signal type 0 type 5");
}

#[test]
fn limits_of_lengths() {
    assert_eq!(good(&long_path(2_032 - 9)).head_length, 2_048);
    assert_eq!(kind(&long_path(2_032 - 8)), Some("array-too-long"));
    assert_eq!(good(&bare(5, 134_217_712, 0)).body_length, 134_217_712);
    assert_eq!(kind(&bare(5, 134_217_713, 0)), Some("message-too-long"));
    assert_eq!(head::read(&bare(5, 134_217_704, 8)).outcome, Outcome::Unfinished { wanted: 24 });
    assert_eq!(kind(&bare(5, 134_217_705, 8)), Some("message-too-long"));
}

#[test]
fn limits_of_open_containers() {
    good(&variants(64));
    assert_eq!(kind(&variants(65)), Some("unknown-too-many-open"));
    // An array without elements is open too.
    good(&ending_in_array(63));
    assert_eq!(kind(&ending_in_array(64)), Some("unknown-too-many-open"));
    // A dict entry counts beside its array, but in an array without elements nothing is opened.
    good(&ending_in_entries(62, 2));
    assert_eq!(kind(&ending_in_entries(63, 2)), Some("unknown-too-many-open"));
    good(&ending_in_entries(63, 0));
    // What has ended does not count: 100 variants side by side.
    let beside = [&b"\x02av\0\0\0\0"[..], &400_u32.to_le_bytes(), &b"\x01y\0\0".repeat(100)].concat();
    good(&unknown(&beside));
}

#[test]
fn limits_of_signatures() {
    let fits = |text: &str| signature::fault(text.as_bytes()).is_none();
    for text in ["", "y", "ybnqiuxtdsoghv", "a{sv}", "(y)", "((y)(s))", "aa{ya{oas}}", "a(a(a(y)))"] {
        assert!(fits(text), "{text}");
    }
    for text in [
        "{sv}", "()", "a", "a{vs}", "(", "y)", "a{s}", "a{svv}", "a{sv", "a{}", "a{(y)y}", "a)", "({sv})",
        "z", "(",
    ] {
        assert!(!fits(text), "{text}");
    }
    let arrays = |count| "a".repeat(count) + "y";
    let tuples = |count| "(".repeat(count) + "y" + &")".repeat(count);
    let mixed = |arrays: usize, tuples: usize| {
        "a(".repeat(arrays.min(tuples))
            + &"a".repeat(arrays - arrays.min(tuples))
            + &"(".repeat(tuples - arrays.min(tuples))
            + "y"
            + &")".repeat(tuples)
    };
    let entries = |count| "a{y".repeat(count) + "y" + &"}".repeat(count);
    assert!(fits(&arrays(32)) && fits(&tuples(32)) && fits(&mixed(32, 32)) && fits(&entries(32)));
    assert!(!fits(&arrays(33)) && !fits(&tuples(33)) && !fits(&mixed(33, 32)) && !fits(&mixed(32, 33)));
    assert!(!fits(&entries(33)) && !fits(&("a{y".repeat(32) + "ay" + &"}".repeat(32))));
    assert!(fits(&arrays(32).repeat(7)) && fits(&"y".repeat(255)));
    let told = |text: &str| signature::fault(text.as_bytes()).map(|fault| (fault.at, fault.wanted)).unwrap();
    assert_eq!(told(&"y".repeat(256)), (255, "at most 255 bytes".to_string()));
    assert_eq!(told(&("y".repeat(254) + "aa")), (255, "at most 255 bytes".to_string()));
    assert_eq!(told(&("y".repeat(254) + "za")), (254, "a type".to_string()));
    assert_eq!(told("(y"), (2, "a type or )".to_string()));
    assert_eq!(told("(y(z"), (3, "a type".to_string()));
    assert_eq!(told("a{ss"), (4, "}".to_string()));
    assert_eq!(told(&arrays(33)), (32, "at most 32 arrays open at a time".to_string()));
    assert_eq!(told(&tuples(33)), (32, "at most 32 parentheses open at a time".to_string()));
}

#[test]
fn first_types() {
    let first = |types: &'static [u8]| signature::first(types).0;
    assert_eq!(first(b"yu"), b"y");
    assert_eq!(first(b"aa{s(y)}u"), b"aa{s(y)}");
    assert_eq!(first(b"(y(s))a"), b"(y(s))");
    assert_eq!(signature::first(b"v"), (&b"v"[..], &b""[..]));
}

/// All texts of up to three bytes, and all of four at the edges of the table, against the standard library.
#[test]
fn utf8_is_unicode_but_for_zero() {
    let check = |text: &[u8]| {
        let wanted = std::str::from_utf8(text).is_ok() && !text.contains(&0);
        assert_eq!(utf8::fault(text).is_none(), wanted, "{text:02x?}");
    };
    for first in 0..=255_u8 {
        check(&[first]);
        for second in 0..=255 {
            check(&[first, second]);
            for third in [0, 0x41, 0x7f, 0x80, 0xbf, 0xc0, 0xff] {
                check(&[first, second, third]);
                for fourth in [0, 0x7f, 0x80, 0xbf, 0xc0] {
                    check(&[first, second, third, fourth]);
                }
            }
        }
    }
    good(&of_string("a\u{7ff}\u{800}\u{fffe}\u{10ffff}".as_bytes()));
}

#[test]
fn long_values_are_cut_in_boxes_only() {
    let path = "/".to_string() + &"x".repeat(400);
    let bytes = Message::new(5, 1).text(1, &path).bytes();
    assert_eq!(good(&bytes).path, Some(path.clone()));
    assert_eq!(head::read(&bytes).parts[10].value, format!("{}...", &path[..200]));
}
