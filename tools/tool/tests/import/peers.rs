//! Who the peers are and which names they own, as far as messages say it.

use crate::capture::{calls, imported, ALL};
use crate::recording::{answer, call, of_bus, put_text, question, reply, to_bus, Recording, BUS};
use forms::message::{
    ByteOrder, Message, DESTINATION, METHOD_RETURN, REPLY_SERIAL, SENDER, SIGNAL, SIGNATURE,
};
use tool::import::peers::Peers;

/// The calls behind the start that are no messages.
fn deeds(file: &[u8]) -> Vec<String> {
    let all = calls(&imported(file, ALL, ""));
    all.into_iter().skip(1).filter(|call| !call.contains("->")).collect()
}

fn map(file: &[u8]) -> Vec<String> {
    Peers::of(file).unwrap().show().lines().skip(1).map(str::to_string).collect()
}

fn number(number: u32) -> Message {
    answer("u", &number.to_le_bytes())
}

fn asks(member: &str, name: &str) -> Message {
    question(":1.2", member, name)
}

#[test]
fn a_name_is_owned_once_whatever_says_so() {
    let acquired = || of_bus(SIGNAL, "NameAcquired", &["a.b"]).text(DESTINATION, ":1.2");
    let file = Recording::new()
        .comes(":1.2")
        .owner_changed("a.b", "", ":1.2")
        .message(acquired())
        .asked(":1.2", 2, asks("RequestName", "a.b"), number(1))
        .asked(":1.2", 3, asks("RequestName", "a.b"), number(4))
        .file;
    assert_eq!(deeds(&file), ["connect 65534", "1 owns a.b"]);
    let each = [
        Recording::new().comes(":1.2").message(acquired()),
        Recording::new().comes(":1.2").owner_changed("a.b", "", ":1.2"),
        Recording::new().comes(":1.2").asked(":1.2", 2, asks("RequestName", "a.b"), number(1)),
        Recording::new().comes(":1.2").asked(":1.2", 2, asks("RequestName", "a.b"), number(4)),
    ];
    for recording in each {
        assert_eq!(deeds(&recording.file), ["connect 65534", "1 owns a.b"]);
    }
}

#[test]
fn a_name_that_was_not_given_is_not_owned() {
    for refused in [2, 3, 0, 5] {
        let file =
            Recording::new().comes(":1.2").asked(":1.2", 2, asks("RequestName", "a.b"), number(refused));
        assert_eq!(deeds(&file.file), ["connect 65534"], "{refused}");
    }
    // An answer of somebody else, or to another serial, answers nothing.
    let peers_answer = Message::new(METHOD_RETURN, 9).text(SENDER, ":1.3").text(SIGNATURE, "u");
    let peers_answer = Message { body: vec![1, 0, 0, 0], ..peers_answer };
    let wrong = Recording::new().comes(":1.2").asked(":1.2", 2, asks("RequestName", "a.b"), peers_answer);
    assert_eq!(deeds(&wrong.file), ["connect 65534", "connect 65534"]);
    let later = Message { serial: 2, ..asks("RequestName", "a.b") };
    let unmatched = number(1).text(DESTINATION, ":1.2").number(REPLY_SERIAL, 3);
    let file = Recording::new().comes(":1.2").message(later).message(unmatched).file;
    assert_eq!(deeds(&file), ["connect 65534"]);
}

#[test]
fn a_name_is_given_up_once_whatever_says_so() {
    let owns = || Recording::new().comes(":1.2").owner_changed("a.b", "", ":1.2");
    let lost = || of_bus(SIGNAL, "NameLost", &["a.b"]).text(DESTINATION, ":1.2");
    let each = [
        owns().message(lost()),
        owns().owner_changed("a.b", ":1.2", ""),
        owns().asked(":1.2", 3, asks("ReleaseName", "a.b"), number(1)),
        owns().message(lost()).owner_changed("a.b", ":1.2", "").asked(
            ":1.2",
            3,
            asks("ReleaseName", "a.b"),
            number(1),
        ),
    ];
    for recording in each {
        assert_eq!(deeds(&recording.file), ["connect 65534", "1 owns a.b", "1 releases a.b"]);
    }
    let kept = owns().asked(":1.2", 3, asks("ReleaseName", "a.b"), number(3));
    assert_eq!(deeds(&kept.file), ["connect 65534", "1 owns a.b"]);
}

#[test]
fn a_name_goes_from_one_peer_to_another() {
    let file = Recording::new()
        .comes(":1.2")
        .owner_changed("a.b", "", ":1.2")
        .comes(":1.3")
        .owner_changed("a.b", ":1.2", ":1.3")
        .message(of_bus(SIGNAL, "NameLost", &["a.b"]).text(DESTINATION, ":1.2"))
        .message(of_bus(SIGNAL, "NameAcquired", &["a.b"]).text(DESTINATION, ":1.3"))
        .file;
    assert_eq!(
        deeds(&file),
        ["connect 65534", "1 owns a.b", "connect 65534", "1 releases a.b", "2 owns a.b"]
    );
}

#[test]
fn names_from_before_are_owned_from_the_start() {
    let replies = Recording::new()
        .comes(":1.2")
        .message(call(":1.2", 2, "a.b", "To"))
        .message(reply(":1.9", 5, ":1.2", 2))
        .file;
    let owner = answer("s", &crate::recording::texts(ByteOrder::Little, &[":1.9"]));
    let asked = Recording::new().comes(":1.2").asked(":1.2", 2, asks("GetNameOwner", "a.b"), owner).file;
    let changed = Recording::new().comes(":1.2").owner_changed("a.b", ":1.9", ":1.9").file;
    for file in [replies, asked, changed] {
        assert_eq!(deeds(&file), ["connect 65534", "1 owns a.b", "connect 65534"]);
        assert_eq!(map(&file)[1], ":1.9 uid 65534 name a.b  # nobody said its uid; was there before");
    }
    let lost = Recording::new().owner_changed("a.b", ":1.9", "").file;
    assert_eq!(deeds(&lost), ["connect 65534", "1 owns a.b", "1 releases a.b"]);
    let left = Recording::new().owner_changed(":1.9", ":1.9", "").file;
    assert!(deeds(&left).is_empty());
}

#[test]
fn a_reply_shows_only_who_had_a_name_that_nobody_was_seen_to_get() {
    let file = Recording::new()
        .comes(":1.2")
        .owner_changed("a.b", "", ":1.2")
        .comes(":1.3")
        .message(call(":1.3", 2, "a.b", "To"))
        .owner_changed("a.b", ":1.2", "")
        .message(reply(":1.2", 5, ":1.3", 2))
        .message(call(":1.3", 3, "c.d", "To"))
        .message(reply(":1.2", 6, ":1.3", 4))
        .message(reply(":1.2", 7, ":1.2", 3))
        .message(Message { message_type: SIGNAL, ..call(":1.3", 8, "e.f", "To") })
        .message(reply(":1.2", 8, ":1.3", 8))
        .message(Message { flags: 1, ..call(":1.3", 9, "g.h", "To") })
        .message(reply(":1.2", 9, ":1.3", 9))
        .file;
    assert_eq!(deeds(&file), ["connect 65534", "1 owns a.b", "connect 65534", "1 releases a.b"]);
    assert_eq!(map(&file)[0], ":1.2 uid 65534  # nobody said its uid; comes by a.b");
}

#[test]
fn a_refused_name_is_told_and_not_given_up() {
    let file =
        Recording::new().comes(":1.2").owner_changed("a.b", "", ":1.2").owner_changed("a.b", ":1.2", "");
    let policy = ALL.replace("own default allow", "own default deny");
    let done = imported(&file.file, &policy, ":1.2 uid 1");
    assert_eq!(calls(&done)[3..], ["1 owns a.b"]);
    assert_eq!(done.told, [":1.2 owns a.b, and the guard does not grant it: 32, own denied"]);
}

/// The dictionary of credentials: some entries that are passed over, and those that count.
fn credentials(order: ByteOrder, uid: u32, gids: &[u32]) -> Message {
    let mut entries = Vec::new();
    let entry = |entries: &mut Vec<u8>, key: &str, signature: &str, width: usize| {
        entries.resize(entries.len().next_multiple_of(8), 0);
        put_text(entries, order, key);
        entries.push(signature.len() as u8);
        entries.extend(signature.as_bytes());
        entries.push(0);
        entries.resize(entries.len().next_multiple_of(width), 0);
    };
    entry(&mut entries, "ProcessID", "u", 4);
    entries.extend(order.bytes(77));
    entry(&mut entries, "LinuxSecurityLabel", "ay", 4);
    entries.extend(order.bytes(5));
    entries.extend(b"label");
    entry(&mut entries, "WindowsSID", "s", 4);
    put_text(&mut entries, order, "S-1");
    entry(&mut entries, "Start", "t", 8);
    entries.extend([9; 8]);
    entry(&mut entries, "Other", "au", 4);
    entries.extend([order.bytes(4), order.bytes(99)].concat());
    entry(&mut entries, "UnixUserID", "u", 4);
    entries.extend(order.bytes(uid));
    entry(&mut entries, "UnixGroupIDs", "au", 4);
    entries.extend(order.bytes(4 * gids.len() as u32));
    entries.extend(gids.iter().flat_map(|&gid| order.bytes(gid)));
    entry(&mut entries, "ProcessID", "u", 4);
    entries.extend(order.bytes(78));
    entry(&mut entries, "Another", "au", 4);
    entries.extend([order.bytes(4), order.bytes(98)].concat());
    let body = [&order.bytes(entries.len() as u32)[..], &[0; 4], &entries].concat();
    Message { order, ..answer("a{sv}", &body) }
}

#[test]
fn the_bus_says_who_a_peer_is() {
    for order in [ByteOrder::Little, ByteOrder::Big] {
        let file = Recording::new()
            .comes(":1.2")
            .asked(":1.2", 2, asks("GetConnectionCredentials", ":1.2"), credentials(order, 1000, &[20, 7]))
            .file;
        assert_eq!(map(&file), [":1.2 uid 1000 gid 20 7"]);
        assert_eq!(deeds(&file), ["connect 1000 20 7"], "it is said behind the connect, and counts for it");
        let user = Message { order, body: order.bytes(1001).to_vec(), ..number(0) };
        let user =
            Recording::new().comes(":1.2").asked(":1.2", 2, asks("GetConnectionUnixUser", ":1.2"), user);
        assert_eq!(map(&user.file), [":1.2 uid 1001"]);
    }
}

#[test]
fn a_peer_may_be_asked_about_by_its_name() {
    let said = || credentials(ByteOrder::Little, 5, &[]);
    let before = Recording::new()
        .comes(":1.2")
        .asked(":1.2", 2, asks("GetConnectionCredentials", "a.b"), said())
        .message(call(":1.2", 3, "a.b", "To"))
        .message(reply(":1.9", 5, ":1.2", 3))
        .file;
    assert_eq!(map(&before)[1], ":1.9 uid 5 name a.b  # was there before");
    let after = Recording::new()
        .comes(":1.9")
        .owner_changed("a.b", "", ":1.9")
        .asked(":1.2", 2, asks("GetConnectionCredentials", "a.b"), said())
        .file;
    assert_eq!(map(&after)[0], ":1.9 uid 5  # comes by a.b");
    // Nobody has it any more, so it is said of nobody.
    let gone = Recording::new()
        .owner_changed("a.b", ":1.9", "")
        .asked(":1.2", 2, asks("GetConnectionCredentials", "a.b"), said())
        .file;
    assert_eq!(map(&gone)[0], ":1.9 uid 65534 name a.b  # nobody said its uid; was there before");
}

#[test]
fn cut_bodies_say_nothing() {
    let whole = credentials(ByteOrder::Little, 1000, &[20, 7]).body;
    let end = whole.windows(4).position(|four| four == 7u32.to_le_bytes()).unwrap() + 4;
    for length in 0..end {
        let body = whole[..length].to_vec();
        let cut = Message { body, ..answer("a{sv}", &[]) };
        let asked = asks("GetConnectionCredentials", ":1.2");
        let lines = map(&Recording::new().comes(":1.2").asked(":1.2", 2, asked, cut).file);
        assert!(!lines[0].contains("gid"), "{length}: {lines:?}");
    }
    for body in [
        &[][..],
        &[0xff; 4],
        &[0xff; 16],
        &[4, 0, 0, 0, b'a', b'.', b'b', b'c'],
        &[3, 0, 0, 0, 0xff, 0xfe, 0, 0],
    ] {
        let message = Message { body: body.to_vec(), ..of_bus(SIGNAL, "NameOwnerChanged", &[]) };
        assert!(map(&Recording::new().message(message).file).is_empty());
    }
}

#[test]
fn only_the_bus_is_believed() {
    let lie = Message {
        body: of_bus(SIGNAL, "", &["a.b", "", ":1.2"]).body,
        ..to_bus(":1.2", 4, "NameOwnerChanged")
    };
    let file = Recording::new().comes(":1.2").message(Message { message_type: SIGNAL, ..lie }).file;
    assert_eq!(deeds(&file), ["connect 65534"]);
    let odd = |name, old, new| Recording::new().comes(":1.2").owner_changed(name, old, new).file;
    for file in [odd("a", "", ":1.2"), odd(BUS, "", ":1.2"), odd("a.b", "", "c.d"), odd(":x", "", ":x")] {
        assert_eq!(deeds(&file), ["connect 65534"]);
    }
}
