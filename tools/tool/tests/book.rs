//! What the host's book knows behind calls, replies and leavings.

use forms::message::ByteOrder;
use forms::policy::{Gid, Uid};
use tool::book::{Book, Destination, Ending, Expiry, Pending, Stream, Wait, HEAD_ROOM};
use tool::head::Head;

fn head(message_type: u8, flags: u8, serial: u32, reply_serial: Option<u32>) -> Head {
    Head {
        order: ByteOrder::Little,
        message_type,
        flags,
        serial,
        body_length: 0,
        head_length: 16,
        path: None,
        interface: None,
        member: None,
        error_name: None,
        reply_serial,
        destination: None,
        sender: None,
        signature: None,
        descriptors: None,
        fields: Vec::new(),
    }
}

fn book() -> Book {
    let mut book = Book::default();
    book.connect(1, 0, Uid(1001), &[Gid(20)]);
    book.connect(2, 1, Uid(1002), &[]);
    book.own(2, "org.theatre.Fans");
    book
}

#[test]
fn destinations() {
    let mut book = book();
    assert_eq!(book.resolve("org.freedesktop.DBus"), Destination::Bus);
    assert_eq!(book.resolve("org.theatre.Fans"), Destination::Peer(2));
    assert_eq!(book.resolve(":1.2"), Destination::Peer(2));
    for nobody in [":1.02", ":1.3", ":2.1", "org.theatre.Fan", ""] {
        assert_eq!(book.resolve(nobody), Destination::Nobody, "{nobody}");
    }
    book.release(2, "org.theatre.Fans", 9);
    assert_eq!(book.resolve("org.theatre.Fans"), Destination::Nobody);
    assert_eq!(book.former_owner("org.theatre.Fans"), Some((2, 9)));
}

#[test]
fn replies_end_waits_once() {
    let mut book = book();
    let wait = Wait { caller: 1, callee: 2, serial: 7 };
    book.passed(1, 2, &head(1, 0, 7, None), 3);
    assert_eq!(book.pending(&wait), Some(&Pending { wait, call: 3, tick: 0 }));
    assert_eq!(book.pending(&Wait { caller: 2, callee: 1, serial: 7 }), None);
    book.passed(2, 1, &head(2, 0, 1, Some(7)), 4);
    assert_eq!((book.pending(&wait), book.ending(&wait)), (None, Some(Ending::Replied(4))));
    book.passed(1, 2, &head(1, 1, 8, None), 5);
    book.passed(1, 2, &head(4, 0, 9, None), 6);
    assert_eq!(book.waits_of(1).count(), 0, "neither a call without a reply nor a signal waits");
}

#[test]
fn who_leaves_takes_waits_along() {
    for (leaving, ending) in [(1, Ending::CallerLeft(5)), (2, Ending::CalleeLeft(5))] {
        let mut book = book();
        book.passed(1, 2, &head(1, 0, 7, None), 3);
        book.disconnect(leaving, 5);
        assert_eq!(book.ending(&Wait { caller: 1, callee: 2, serial: 7 }), Some(ending));
        assert_eq!((book.peers.len(), book.left_in(leaving), book.waits_of(1).count()), (1, Some(5), 0));
    }
}

#[test]
fn ticks_end_what_is_old_enough() {
    let mut book = book();
    let wait = |serial| Wait { caller: 1, callee: 2, serial };
    book.passed(1, 2, &head(1, 0, 7, None), 3);
    book.tick(10, 11, 4);
    book.passed(1, 2, &head(1, 0, 8, None), 5);
    let serials = |waits: Vec<Pending>| waits.iter().map(|over| over.wait.serial).collect::<Vec<u32>>();
    for (tick, limit, ended) in
        [(15, 16, vec![]), (15, 15, vec![7]), (15, 6, vec![7]), (15, 5, vec![7, 8]), (10, 0, vec![7, 8])]
    {
        assert_eq!(serials(book.expiring(tick, limit)), ended, "{tick} {limit}");
    }
    book.tick(15, 15, 6);
    let expiry = Expiry { call: 6, tick: 15, began: 3, age: 15 };
    assert_eq!((book.pending(&wait(7)), book.ending(&wait(7))), (None, Some(Ending::Expired(expiry))));
    assert_eq!(book.pending(&wait(8)), Some(&Pending { wait: wait(8), call: 5, tick: 10 }));
    assert_eq!(book.ending(&wait(8)), None);
    assert_eq!(book.other_callee(&Wait { callee: 1, ..wait(7) }), Some((2, Ending::Expired(expiry))));
}

/// The last tick is known by the first call that set it.
#[test]
fn the_last_tick_and_since_when() {
    let mut book = book();
    assert_eq!((book.tick, book.tick_since), (0, None));
    for (call, tick, since) in [(1, 0, None), (2, 7, Some(2)), (3, 7, Some(2)), (4, u64::MAX, Some(4))] {
        book.tick(tick, 0, call);
        assert_eq!((book.tick, book.tick_since), (tick, since), "{call}");
    }
}

#[test]
fn a_stream_keeps_a_head_and_counts_the_rest() {
    let mut stream = Stream::default();
    stream.take(&vec![1; HEAD_ROOM - 1]);
    stream.take(&[2, 3, 4]);
    assert_eq!((stream.bytes.len(), stream.taken), (HEAD_ROOM, HEAD_ROOM as u64 + 2));
    assert_eq!(stream.bytes.last(), Some(&2));
    stream.begin();
    assert_eq!((stream.bytes.len(), stream.taken), (0, 0));
}
