//! The calls that come of a recording: numbers, names, messages byte for byte, and what is left out.

use crate::recording::{call, reply, to_bus, Recording};
use forms::capture::Call;
use forms::hex;
use forms::message::{ByteOrder, Message, DESTINATION, MEMBER, METHOD_CALL, PATH, SENDER, SIGNAL};
use forms::{image, policy_text};
use tool::head;
use tool::import::peers::{parse_map, Peers};
use tool::import::traffic::LeftOut;
use tool::import::{import, Imported};
use tool::rules::Rules;

pub const ALL: &str =
    "connect default allow any\nown default allow any\ntransaction default allow send any\n\
                       transaction default allow receive any\n";

/// Imports under a policy and a map.
pub fn imported(file: &[u8], policy: &str, map: &str) -> Imported {
    let image = image::write(&policy_text::parse(policy).unwrap().policy).unwrap();
    let mut peers = Peers::of(file).unwrap();
    peers.overlay(parse_map(map).unwrap());
    import(file, &peers, &Rules::of_image(&image), &image).unwrap()
}

/// The calls in a word or two each; of a message its member, and its destination.
pub fn calls(imported: &Imported) -> Vec<String> {
    let word = |call: &Call| match call {
        Call::Start => "start".to_string(),
        Call::Connect { uid, gids } => {
            let gids: Vec<String> = gids.iter().map(|gid| format!(" {}", gid.0)).collect();
            format!("connect {}{}", uid.0, gids.concat())
        }
        Call::Own { peer, name } => format!("{peer} owns {}", String::from_utf8_lossy(name)),
        Call::Release { peer, name } => format!("{peer} releases {}", String::from_utf8_lossy(name)),
        Call::Piece { peer, bytes } => format!("{peer} {}", message(bytes)),
        Call::Disconnect { peer } => format!("{peer} leaves"),
        Call::Tick { tick, limit } => format!("tick {tick} {limit}"),
    };
    imported.capture.calls.iter().map(word).collect()
}

fn message(bytes: &[u8]) -> String {
    let head = head::good(bytes).expect("a good head");
    assert_eq!(head.head_length + head.body_length as usize, bytes.len());
    let what = head.member.unwrap_or("reply".to_string());
    format!("{what} {} -> {}", head.sender.unwrap_or_default(), head.destination.unwrap_or("all".to_string()))
}

fn left_out(imported: &Imported) -> Vec<(LeftOut, usize)> {
    imported.left_out.iter().map(|(why, count)| (*why, *count)).collect()
}

#[test]
fn peers_come_and_go_and_have_the_guards_numbers() {
    let file = Recording::new()
        .comes(":1.70")
        .comes(":1.3")
        .message(call(":1.3", 2, ":1.70", "To"))
        .message(reply(":1.70", 2, ":1.3", 2))
        .leaves(":1.70")
        .message(call(":1.3", 3, ":1.70", "Gone"))
        .message(call(":1.3", 4, ":1.1", "Never"))
        .comes(":1.71")
        .message(call(":1.3", 5, ":1.71", "To"))
        .leaves(":1.3")
        .file;
    let done = imported(&file, ALL, "");
    let wanted = [
        "start",
        "connect 65534",
        "1 Hello :1.1 -> org.freedesktop.DBus",
        "connect 65534",
        "2 Hello :1.2 -> org.freedesktop.DBus",
        "2 To :1.2 -> :1.1",
        "1 reply :1.1 -> :1.2",
        "1 leaves",
        "2 Gone :1.2 -> :0.1.70",
        "2 Never :1.2 -> :0.1.1",
        "connect 65534",
        "3 Hello :1.3 -> org.freedesktop.DBus",
        "2 To :1.2 -> :1.3",
        "2 leaves",
    ];
    assert_eq!(calls(&done), wanted);
    assert_eq!((done.packets, done.kept, done.passed, done.peers), (13, 8, 6, 3));
    assert_eq!(left_out(&done), [(LeftOut::OfBus, 5)]);
}

#[test]
fn what_was_there_before_connects_first() {
    let file = Recording::new()
        .comes(":1.9")
        .message(call(":1.9", 2, ":1.5", "To"))
        .message(
            Message::new(SIGNAL, 7).text(PATH, "/a").text(2, "a.b").text(MEMBER, "S").text(SENDER, ":1.4"),
        )
        .message(reply(":1.5", 2, ":1.9", 2))
        .file;
    let wanted = [
        "start",
        "connect 65534",
        "connect 65534",
        "connect 65534",
        "3 Hello :1.3 -> org.freedesktop.DBus",
        "3 To :1.3 -> :1.2",
        "1 S :1.1 -> all",
        "2 reply :1.2 -> :1.3",
    ];
    assert_eq!(calls(&imported(&file, ALL, "")), wanted);
}

#[test]
fn a_peer_that_is_seen_before_it_is_said_to_come_was_there() {
    let file = Recording::new()
        .comes(":1.9")
        .message(call(":1.5", 2, ":1.9", "To"))
        .owner_changed(":1.5", "", ":1.5");
    let done = imported(&file.file, ALL, ":1.5 uid 5\n:1.9 uid 9");
    assert_eq!(calls(&done)[1..4], ["connect 5", "connect 9", "2 Hello :1.2 -> org.freedesktop.DBus"]);
}

#[test]
fn a_peer_that_loses_its_unique_name_has_left() {
    let lost = |peer| crate::recording::of_bus(SIGNAL, "NameLost", &[peer]).text(DESTINATION, peer);
    let file = Recording::new()
        .message(lost(":1.1"))
        .comes(":1.2")
        .message(lost(":1.2"))
        .leaves(":1.2")
        .message(call(":1.2", 2, ":1.2", "Late"))
        .file;
    let done = imported(&file, ALL, "");
    assert_eq!(calls(&done)[1..], ["connect 65534", "1 Hello :1.1 -> org.freedesktop.DBus", "1 leaves"]);
    assert_eq!(left_out(&done), [(LeftOut::OfBus, 4), (LeftOut::Gone, 1)]);
}

/// The bytes of the only message that is kept.
fn kept(message: &[u8]) -> Option<Vec<u8>> {
    let done = imported(&Recording::new().bytes(message).file, ALL, "");
    let piece = |call: &Call| match call {
        Call::Piece { bytes, .. } => Some(bytes.clone()),
        _ => None,
    };
    assert_eq!(left_out(&done).len(), 1 - done.kept);
    done.capture.calls.iter().find_map(piece)
}

#[test]
fn all_but_the_names_stays_byte_for_byte() {
    for order in [ByteOrder::Little, ByteOrder::Big] {
        let made = |sender: &str, destination: &str| {
            let mut message = Message::new(METHOD_CALL, 0x0102_0304);
            (message.order, message.flags, message.body) = (order, 0xf6, vec![1, 2, 3, 255]);
            // Two unknown fields, one with padding of its own inside; and the fields in an unusual order.
            let pair = [&[4][..], b"(yt)", &[0, 0, 7], &[0; 7], &[1, 2, 3, 4, 5, 6, 7, 8]].concat();
            message
                .raw(200, &pair)
                .text(SENDER, sender)
                .text(MEMBER, "M")
                .text(DESTINATION, destination)
                .raw(10, &[&[1], &b"s\0"[..], &order.bytes(2), b"hi\0"].concat())
                .text(PATH, "/")
                .number(9, 3)
                .bytes()
        };
        let recorded = made(":1.123456", "org.theatre.Fans");
        assert!(head::good(&recorded).is_some());
        assert_eq!(hex::show(&kept(&recorded).unwrap()), hex::show(&made(":1.1", "org.theatre.Fans")));
        assert_eq!(kept(&made(":1.1", ":2.5")).unwrap(), made(":1.1", ":0.2.5"));
        assert_eq!(kept(&made(":1.7", ":1.7")).unwrap(), made(":1.1", ":1.1"));
    }
}

/// A call whose field array ends with the destination and has so many bytes in all.
fn long(array: usize, destination: &str) -> Vec<u8> {
    let front = |path: usize| {
        let message = Message::new(METHOD_CALL, 1).text(SENDER, ":1.7").text(MEMBER, "M");
        message.text(PATH, &format!("/{}", "p".repeat(path))).text(DESTINATION, destination).bytes()
    };
    let fits = (1..2_048).map(front).find(|bytes| ByteOrder::Little.number(bytes, 12) as usize == array);
    fits.expect("a length of the path that fits")
}

#[test]
fn a_head_may_not_become_too_long() {
    assert!(kept(&long(2_030, ":1.99")).is_some());
    assert_eq!(kept(&long(2_031, ":1.999")), None);
    assert!(kept(&long(2_031, "a.bcde")).is_some());
    let longest = format!(":1.{}", "9".repeat(252));
    let to = |name: &str| call(":1.7", 1, name, "To").bytes();
    assert_eq!(kept(&to(&longest)), None);
    assert!(kept(&to(&longest[..253])).is_some());
    assert_eq!(kept(&to(&longest[..254])), None);
}

#[test]
fn what_is_no_whole_message_of_a_peer_is_left_out() {
    let good = call(":1.7", 1, ":1.7", "To").bytes();
    let end = good.len();
    let longer = [&good[..], &[0]].concat();
    let mut zero = good.clone();
    zero[1] = 0;
    let none = Message::new(METHOD_CALL, 1).text(PATH, "/").text(MEMBER, "M");
    let well_known = none.clone().text(SENDER, "org.theatre.Fans");
    let file = Recording::new()
        .bytes(&good)
        .record(&good[..end - 1], end as u32)
        .record(&[], 16)
        .bytes(&good[..end - 1])
        .bytes(&longer)
        .bytes(&zero)
        .bytes(&[])
        .bytes(b"l\x01\0\x01")
        .message(none)
        .message(well_known)
        .message(to_bus("org.freedesktop.DBus", 3, "Hello"))
        .file;
    let done = imported(&file, ALL, "");
    let wanted = [
        (LeftOut::OfBus, 1),
        (LeftOut::Cut, 2),
        (LeftOut::Broken, 4),
        (LeftOut::NotWhole, 1),
        (LeftOut::NoSender, 2),
    ];
    assert_eq!((done.packets, done.kept, left_out(&done)), (11, 1, wanted.to_vec()));
}

#[test]
fn a_refused_peer_is_told_with_its_messages() {
    let file = Recording::new()
        .comes(":1.1")
        .comes(":1.2")
        .message(call(":1.2", 2, ":1.1", "To"))
        .message(call(":1.1", 2, ":1.2", "To"))
        .leaves(":1.2")
        .file;
    let policy = format!("{ALL}connect default deny uid 7\n");
    let done = imported(&file, &policy, ":1.1 uid 1\n:1.2 uid 7");
    assert_eq!(left_out(&done), [(LeftOut::OfBus, 3), (LeftOut::Refused, 2)]);
    assert_eq!(calls(&done)[4..], ["1 To :1.1 -> :0.1.2"]);
    let told = ":1.2 (uid 7) was not let connect: 36, connect denied, by connect rule 1; 2 messages left out";
    assert_eq!(done.told, [told]);
    let none = imported(&Recording::new().comes(":1.1").file, "", ":1.1 uid 1");
    assert_eq!(none.told, [":1.1 (uid 1) was not let connect: 36, connect denied; 1 message left out"]);
}

#[test]
fn sixteen_peers_are_the_most_at_once() {
    let mut recording = Recording::new();
    for number in 1..=17 {
        recording = recording.comes(&format!(":1.{number}"));
    }
    let done = imported(&recording.leaves(":1.1").comes(":1.18").file, ALL, "");
    assert_eq!(done.peers, 17);
    let told: Vec<&String> = done.told.iter().filter(|told| told.contains("not let")).collect();
    let wanted = ":1.17 (uid 65534) was not let connect: 38, all 16 slots are taken, by connect rule 0; 1 message left out";
    assert_eq!(told, [wanted]);
}
