//! Maps of peers.

use crate::capture::{calls, imported, ALL};
use crate::recording::{call, Recording};
use tool::import::peers::{parse_map, Peers};

fn faults(map: &str) -> Vec<(usize, String)> {
    parse_map(map).unwrap_err().into_iter().map(|fault| (fault.line, fault.what)).collect()
}

#[test]
fn every_fault_has_its_line() {
    let map = "# peers\n:1.1 uid 1\norg.a.b uid 1\n:1.2\n:1.3 uid\n:1.4 uid x\n:1.5 uid 1 2\n:1.6 gid 1\n:1.7 uid 1 gid -1\n\
               :1.8 uid 1 name a\n:1.9 uid 4294967296\n:1.10 word uid 1\n:1.11 uid 1 name org.freedesktop.DBus\n:1 uid 1";
    let wanted = [
        (3, "a line begins with a unique name, not org.a.b"),
        (4, "the uid is missing"),
        (5, "the uid is missing"),
        (6, "x is no number up to 4294967295"),
        (7, "unexpected word 2"),
        (8, "the uid is missing"),
        (9, "-1 is no number up to 4294967295"),
        (10, "a is no well-known name: at its byte 1 wanted"),
        (11, "4294967296 is no number up to 4294967295"),
        (12, "unexpected word word"),
        (13, "org.freedesktop.DBus is the bus's own name"),
        (14, "a line begins with a unique name, not :1"),
    ];
    let found = faults(map);
    assert_eq!(found.len(), wanted.len(), "{found:?}");
    for ((line, what), (wanted_line, wanted)) in found.iter().zip(wanted) {
        assert!(*line == wanted_line && what.starts_with(wanted), "{line}: {what}");
    }
}

#[test]
fn nothing_stands_twice() {
    assert_eq!(faults(":1.1 uid 1\n\n:1.1 uid 2"), [(3, ":1.1 stands in line 1 already".to_string())]);
    assert_eq!(
        faults(":1.1 uid 1 name a.b\n:1.2 uid 2 name c.d a.b # a.b"),
        [(2, "a.b stands in line 1 already".to_string())]
    );
    assert!(parse_map(":1.1 uid 1 # :1.2\n:1.2 uid 1").is_ok());
    let lines: Vec<usize> =
        faults(":1.1 uid 1\n:1.1 uid 2\n:1.2\n").into_iter().map(|(line, _)| line).collect();
    assert_eq!(lines, [2, 3]);
}

#[test]
fn the_highest_numbers_are_taken() {
    let peers = parse_map(":1.1 uid 4294967295 gid 4294967295 0 name a.b c.d  # a peer").unwrap();
    assert_eq!((peers[0].uid.unwrap().0, peers[0].gids.len(), peers[0].names.len()), (4_294_967_295, 2, 2));
}

#[test]
fn a_line_says_all_of_its_peer() {
    let file = Recording::new()
        .comes(":1.2")
        .message(call(":1.2", 2, "a.b", "To"))
        .message(crate::recording::reply(":1.9", 5, ":1.2", 2))
        .file;
    let done = imported(&file, ALL, ":1.9 uid 7\n:1.2 uid 8 gid 3 name c.d");
    let wanted = ["connect 7", "connect 8 3", "2 owns c.d"];
    let deeds: Vec<String> = calls(&done).into_iter().skip(1).filter(|call| !call.contains("->")).collect();
    assert_eq!(deeds, wanted);
    assert!(done.told.is_empty());
}

#[test]
fn a_peer_that_is_not_seen_is_there_for_its_name() {
    let file = Recording::new().comes(":1.2").message(call(":1.2", 2, "a.b", "To")).file;
    let done = imported(&file, ALL, ":1.2 uid 1\n:1.8 uid 8\n:1.9 uid 9 name a.b");
    assert_eq!(calls(&done)[1..4], ["connect 9", "1 owns a.b", "connect 1"]);
    assert_eq!(done.passed, 2);
    assert_eq!(done.told, [":1.8 of the map is not seen and has no name: it does not connect"]);
}

#[test]
fn what_is_shown_reads_back_to_the_same_capture() {
    let file = Recording::new()
        .comes(":1.2")
        .message(call(":1.2", 2, "a.b", "To"))
        .message(crate::recording::reply(":1.9", 5, ":1.2", 2))
        .owner_changed("a.b", ":1.9", ":1.2")
        .file;
    let map = Peers::of(&file).unwrap().show();
    assert_eq!(imported(&file, ALL, &map).capture, imported(&file, ALL, "").capture);
}
