//! Two policies on one capture: what differs, by which rules, and that numbers stay those of the capture.

use forms::{capture, image, policy_text, script};
use std::process::Command;
use tool::cli::Style;
use tool::compare::{Comparison, Ruled};
use tool::rules::Rules;

/// Everybody may do everything.
const ALL: &str = "connect default allow any\nown default allow any\ntransaction default allow send any\n\
                   transaction default allow receive any\n";

fn ruled(policy: &str) -> Ruled {
    let image = image::write(&policy_text::parse(policy).unwrap().policy).unwrap();
    (Rules::of_image(&image), image)
}

fn captured(policy: &str, calls: &str) -> forms::capture::Capture {
    let rules: String = policy.lines().map(|rule| format!("rule {rule}\n")).collect();
    script::parse(&format!("{rules}start\n{calls}"), &|_| Err("no files".to_string())).unwrap()
}

/// What is told of calls whose capture has a policy of its own, under an old and a new one, and how many differ.
fn compared(own: &str, calls: &str, old: &str, new: &str) -> (Vec<String>, usize) {
    let capture = captured(own, calls);
    let (rules, old, new) = (Rules::of_image(&capture.image), ruled(old), ruled(new));
    let mut comparison = Comparison::new(&capture, &rules, &old, &new).unwrap();
    let mut told = Vec::new();
    while let Some(text) = comparison.step(Style::PLAIN) {
        told.extend(text);
    }
    assert_eq!(comparison.made, capture.calls.len());
    (told, comparison.differing)
}

/// The lines of a text without what they begin with.
fn lines(text: &str) -> Vec<&str> {
    text.lines().map(str::trim).collect()
}

fn with(more: &str) -> String {
    format!("{ALL}{more}\n")
}

const CALL: &str = "message call path=/a interface=a.b member=M";

#[test]
fn equal_policies_differ_in_nothing() {
    let calls = format!(
        "connect 1\nconnect 2\nown 2 a.b\npiece 1 {CALL} destination=a.b\npiece 1 {CALL} destination=c.d\n"
    );
    let other = "connect default allow uid 1\nconnect default allow uid 2\n".to_string()
        + &ALL.replace("any\n", "any\n\n");
    // The same verdicts by other rules are no difference.
    assert_eq!(compared(ALL, &calls, ALL, &other), (Vec::new(), 0));
}

#[test]
fn a_difference_has_both_rules() {
    let calls = format!("connect 1\nconnect 2\nown 2 a.b\npiece 1 {CALL} serial=7 destination=a.b\n");
    let new = with("transaction user 1 deny send call name=a.b member=M");
    let (told, differing) = compared(ALL, &calls, ALL, &new);
    assert_eq!((told.len(), differing), (1, 1));
    let wanted = [
        "#5   peer 1 (:1.1, uid 1) call /a a.b.M, serial 7 -> a.b",
        "old: 0, passed to peer 2, by transaction rule 1: transaction default allow receive any",
        "sent by transaction rule 0: transaction default allow send any",
        "new: 22, send denied, by transaction rule 2: transaction user 1 deny send call name=a.b member=M",
    ];
    assert_eq!(lines(&told[0]), wanted);
    let none = "connect default allow any\nown default allow any\n";
    let (told, _) = compared(ALL, &calls, none, ALL);
    assert_eq!(lines(&told[0])[1], "old: 22, send denied: no transaction rule matched");
}

#[test]
fn own_and_what_comes_of_it_are_told() {
    let calls = format!(
        "connect 1\nconnect 2\nown 2 a.b\npiece 1 {CALL} destination=a.b serial=3\nrelease 2 a.b\nown 2 a.b\n"
    );
    let new = with("own user 2 deny prefix a.b");
    let (told, differing) = compared(ALL, &calls, ALL, &new);
    assert_eq!(differing, 4);
    assert_eq!(lines(&told[0])[0], "#4   peer 2 (:1.2, uid 2) asks for the name a.b");
    assert_eq!(lines(&told[0])[1], "old: 0, granted, by own rule 0: own default allow any");
    assert_eq!(lines(&told[0])[2], "new: 32, own denied, by own rule 1: own user 2 deny prefix a.b");
    assert_eq!(
        lines(&told[1])[3],
        "new: 21, destination is nobody's, because peer 2 did not get that name in #4"
    );
    assert_eq!(
        lines(&told[2])[2],
        "new: 35, peer does not own the name, because peer 2 did not get that name in #4"
    );
}

#[test]
fn a_reply_to_a_dropped_call_is_told_as_what_comes_of_it() {
    let calls = format!(
        "connect 1\nconnect 2\npiece 1 {CALL} serial=7 destination=:1.2\npiece 2 message return serial=1 reply=7 destination=:1.1\n"
    );
    let (told, differing) = compared(ALL, &calls, &with("transaction default deny receive call"), ALL);
    assert_eq!(differing, 2);
    let wanted = [
        "#5   peer 2 (:1.2, uid 2) return to serial 7, serial 1 -> :1.1",
        "old: 24, reply not waited for, because the call #4 was not passed",
        "new: 0, passed to peer 1",
    ];
    assert_eq!(lines(&told[1]), wanted);
}

/// Under the new policy the first call waits since tick 0 and the second is 25; under the old one only the second waits.
#[test]
fn a_wait_may_expire_under_one_policy_alone() {
    let own = with("transaction default deny receive call path=/early");
    let call = |path: &str| {
        format!("piece 1 message call path={path} interface=a.b member=M serial=7 destination=:1.2\n")
    };
    let reply = "piece 2 message return serial=1 reply=7 destination=:1.1\n";
    let calls = format!(
        "connect 1\nconnect 2\n{}tick 10 99\n{}tick 15 10\n{reply}tick 15 0\n",
        call("/early"),
        call("/late")
    );
    let (told, differing) = compared(ALL, &calls, &own, ALL);
    assert_eq!((told.len(), differing), (4, 4));
    let tick = [
        "#7   tick 15: waits of 10 ticks and more are to end",
        "old: 0, no wait ended",
        "new: 0, 1 wait ended",
        "the wait of peer 1 for peer 2, serial 7, from #4",
    ];
    assert_eq!(lines(&told[2]), tick);
    let late = [
        "#8   peer 2 (:1.2, uid 2) return to serial 7, serial 1 -> :1.1",
        "old: 0, passed to peer 1",
        "new: 24, reply not waited for, because the wait from #4 expired in #7, at tick 15, 15 ticks old",
    ];
    assert_eq!(lines(&told[3]), late);
    // Waits that a reply or a leaving has ended under the new policy do not expire there.
    for end in [reply, "disconnect 2\n", "disconnect 1\n", "start\n"] {
        let ended = format!("connect 1\nconnect 2\n{}{end}tick 5 0\n", call("/early"));
        let (told, _) = compared(ALL, &ended, &own, ALL);
        assert!(told.iter().all(|told| !told.contains("tick")), "{told:?}");
    }
    // A call that was dropped behind the expiry is what its reply is told of.
    let again = format!("connect 1\nconnect 2\n{}tick 5 5\n{}{reply}", call("/late"), call("/early"));
    let (told, _) = compared(ALL, &again, &own, ALL);
    assert_eq!(lines(&told[1])[1], "old: 24, reply not waited for, because the call #6 was not passed");
}

#[test]
fn a_refused_peer_uses_up_its_number() {
    let calls = format!(
        "connect 1\nconnect 2\nconnect 3\npiece 3 {CALL} destination=:1.1\npiece 2 {CALL} destination=:1.3\n\
         piece 3 {CALL} destination=:1.2\nown 2 a.b\ndisconnect 2\nconnect 4\npiece 4 {CALL} destination=:1.3 serial=9\n\
         piece 3 message return serial=2 reply=9 destination=:1.4\n"
    );
    let (told, differing) = compared(ALL, &calls, ALL, &with("connect mandatory deny uid 2"));
    assert_eq!((told.len(), differing), (5, 5));
    let wanted = [
        "#3   uid 2 connects",
        "old: 0, granted, by connect rule 0: connect default allow any",
        "new: 36, connect denied, by connect rule 1: connect mandatory deny uid 2",
        "in the capture it is peer 2; where it is refused its calls are 30",
    ];
    assert_eq!(lines(&told[0]), wanted);
    let because = "because peer 2 was not let connect in #3";
    let stranger = format!("new: 30, no connected peer has that number, {because}");
    for (text, call) in [(&told[1], "#6 "), (&told[3], "#8 "), (&told[4], "#9 ")] {
        assert!(text.starts_with(call) && text.contains(&stranger), "{text}");
    }
    assert!(
        told[2].starts_with("#7 ")
            && told[2].contains(&format!("new: 21, destination is nobody's, {because}"))
    );
}

#[test]
fn a_reply_of_one_callee_is_not_that_of_another() {
    let to = |peer: u32, member: &str| {
        format!("piece 1 message call path=/a member={member} serial=7 destination=:1.{peer}\n")
    };
    let reply = |peer: u32| format!("piece {peer} message return serial=1 reply=7 destination=:1.1\n");
    let calls = ["connect 1\nconnect 2\nconnect 3\n".to_string(), to(2, "M"), to(3, "N"), reply(2), reply(3)]
        .concat();
    let (told, differing) = compared(ALL, &calls, ALL, &with("transaction default deny send call member=M"));
    assert_eq!(differing, 2);
    assert!(
        told[1].starts_with("#7 ") && told[1].contains("because the call #5 was not passed"),
        "{}",
        told[1]
    );
}

#[test]
fn a_peer_that_the_capture_does_not_have_takes_no_number() {
    let own = with("connect default deny uid 2");
    let calls = format!(
        "connect 1\nconnect 2\nconnect 3\npiece 2 {CALL} destination=:1.1\nconnect 2\nconnect 5\npiece 3 {CALL} destination=:1.2\n"
    );
    // Were the number 2 that of uid 2, its call would be denied.
    let (told, differing) = compared(&own, &calls, &own, &with("transaction user 2 deny send any"));
    assert_eq!((told.len(), differing), (2, 2));
    let wanted = [
        "new: 0, granted, by connect rule 0: connect default allow any",
        "in the capture it is refused with 36, so nothing of this peer is in it",
    ];
    assert_eq!(lines(&told[0])[2..], wanted);
    assert!(told[1].starts_with("#6 "));
}

#[test]
fn what_both_do_otherwise_than_the_capture_is_told_and_not_counted() {
    let denied = with("connect default deny uid 2");
    let calls = "connect 1\nconnect 2\nown 2 a.b\nown 1 a.b\n";
    let (told, differing) = compared(ALL, calls, &denied, &denied);
    assert_eq!((told.len(), differing), (1, 0));
    assert_eq!(
        lines(&told[0])[1..],
        [
            "both: 36, connect denied, by connect rule 1: connect default deny uid 2",
            "in the capture it is peer 2; where it is refused its calls are 30",
        ]
    );
    let (told, differing) = compared(&denied, calls, ALL, ALL);
    assert_eq!((told.len(), differing), (1, 0));
    assert!(told[0].contains("both: 0, granted"), "{}", told[0]);
}

#[test]
fn signals_are_compared_by_peers_and_not_by_slots() {
    let old = with("transaction user 1 deny receive signal");
    let new = with("connect default deny uid 1\ntransaction user 1 deny receive signal");
    let calls = "connect 1\nconnect 2\nconnect 3\npiece 3 message signal path=/a interface=a.b member=S\n";
    let (told, differing) = compared(ALL, calls, &old, &new);
    assert_eq!((told.len(), differing), (1, 1), "{told:?}");
    assert!(told[0].starts_with("#2 "));
}

#[test]
fn the_order_of_slots_is_no_difference() {
    let calls = "connect 1\nconnect 2\nconnect 3\ndisconnect 1\nconnect 4\npiece 2 message signal path=/a interface=a.b member=S\n";
    let (told, differing) = compared(ALL, calls, ALL, &with("connect default deny uid 1"));
    assert_eq!(differing, 2, "the connect and the disconnect of peer 1: {told:?}");
}

#[test]
fn a_signal_that_reaches_others_has_the_rules_of_those() {
    let new = with("connect default deny uid 1\ntransaction user 2 deny receive signal name=c.d");
    let calls =
        "connect 1\nconnect 2\nconnect 3\nown 3 c.d\npiece 3 message signal path=/a interface=a.b member=S\n";
    let (told, differing) = compared(ALL, calls, ALL, &new);
    assert_eq!(differing, 2);
    let receives = "transaction rule 1: transaction default allow receive any";
    let wanted = [
        "#6   peer 3 (:1.3, uid 3, owns c.d) signal /a a.b.S, serial 1 -> everybody".to_string(),
        "old: 0, passed to peers 1 2 3".to_string(),
        format!("peer 1 gets it, by {receives}"),
        format!("peer 2 gets it, by {receives}"),
        "new: 0, passed to peers 3".to_string(),
        "peer 1 was not let connect in #2".to_string(),
        "peer 2 does not: 23, receive denied, by transaction rule 2: transaction user 2 deny receive signal name=c.d".to_string(),
    ];
    assert_eq!(lines(&told[1]), wanted);
}

#[test]
fn a_full_guard_is_full_for_the_capture() {
    let seventeen: String = (1..=17).map(|uid| format!("connect {uid}\n")).collect();
    let calls = format!("{seventeen}disconnect 3\nconnect 18\npiece 17 {CALL} destination=:1.16\n");
    let (told, differing) = compared(ALL, &calls, ALL, &with("connect default deny uid 5"));
    let starts: Vec<&str> = told.iter().map(|text| text.split(' ').next().unwrap()).collect();
    assert_eq!((starts, differing), (vec!["#6", "#18"], 2));
    assert_eq!(
        lines(&told[1]),
        [
            "#18  uid 17 connects",
            "old: 38, all 16 slots are taken, by connect rule 0: connect default allow any",
            "new: 0, granted, by connect rule 0: connect default allow any",
            "in the capture it is refused with 38, so nothing of this peer is in it",
        ]
    );
}

#[test]
fn a_start_begins_anew() {
    let calls =
        format!("connect 1\nconnect 2\nstart\nconnect 2\nconnect 1\npiece 2 {CALL} destination=:1.1\n");
    let (told, differing) = compared(ALL, &calls, ALL, &with("connect default deny uid 1"));
    let starts: Vec<&str> = told.iter().map(|text| text.split(' ').next().unwrap()).collect();
    assert_eq!((starts, differing), (vec!["#2", "#6", "#7"], 3));
    assert!(told[2].contains("because peer 2 was not let connect in #6"));
}

#[test]
fn who_was_turned_away_before_a_start_is_forgotten() {
    let signal = "piece 1 message signal path=/a interface=a.b member=S\n";
    let calls = format!("connect 1\nconnect 2\nstart\nconnect 1\nconnect 3\n{signal}");
    let new = with("connect default deny uid 2\ntransaction user 3 deny receive signal");
    let (told, differing) = compared(ALL, &calls, ALL, &new);
    assert_eq!(differing, 2);
    assert!(told[1].contains("peer 2 does not: 23, receive denied"), "{}", told[1]);
}

#[test]
fn pieces_of_a_message_are_told_one_by_one() {
    let calls = format!("connect 1\npiece 1 {CALL} cut=40\n");
    let (told, differing) = compared(ALL, &calls, ALL, &with("transaction default deny send call"));
    assert_eq!(differing, 1, "the verdict comes with the last piece");
    assert_eq!(
        lines(&told[0])[1],
        "old: 0, passed to the bus, by transaction rule 0: transaction default allow send any"
    );
    let (told, differing) = compared(ALL, &calls, ALL, &with("connect default deny any"));
    assert_eq!(differing, 3);
    assert!(told[1].contains("old: 10, ") && told[1].contains("new: 30, "), "{}", told[1]);
}

#[test]
fn a_bad_image_of_a_capture_is_refused() {
    let capture = capture::Capture { image: vec![0; 32], calls: Vec::new() };
    let (rules, all) = (Rules::of_image(&capture.image), ruled(ALL));
    let fault = Comparison::new(&capture, &rules, &all, &all).err().unwrap();
    assert_eq!(fault.status, 1);
    assert!(fault.message.starts_with("the capture's own image is bad: header: "), "{}", fault.message);
}

#[test]
fn the_command_tells_lines_and_status() {
    let folder = std::env::temp_dir().join(format!("aygeshunt-compare-{}", std::process::id()));
    std::fs::create_dir_all(&folder).unwrap();
    let write = |name: &str, bytes: &[u8]| std::fs::write(folder.join(name), bytes).unwrap();
    let file = capture::write(&captured(ALL, "connect 1\nconnect 2\n"));
    write("a.capture", &file);
    write("cut.capture", &file[..file.len() - 1]);
    write("short.capture", &file[..40]);
    write("old.policy", ALL.as_bytes());
    write("new.policy", format!("# a comment\n{ALL}\nconnect mandatory deny uid 2 # and why\n").as_bytes());
    write("bad.policy", b"connect\n");
    let run = |words: &[&str]| {
        let done = Command::new(env!("CARGO_BIN_EXE_aygeshunt"))
            .arg("compare")
            .args(words)
            .current_dir(&folder)
            .output()
            .unwrap();
        let text = |bytes: Vec<u8>| String::from_utf8(bytes).unwrap();
        (done.status.code().unwrap(), text(done.stdout), text(done.stderr))
    };
    let wanted = "#3   uid 2 connects\n     old: 0, granted, by connect rule 0, old.policy line 1: connect default allow any\n     \
                  new: 36, connect denied, by connect rule 1, new.policy line 7: connect mandatory deny uid 2\n     \
                  in the capture it is peer 2; where it is refused its calls are 30\n\n1 of 3 calls differ\n";
    let results = [
        (run(&["a.capture", "old.policy", "new.policy"]), (0, wanted.to_string(), "")),
        (
            run(&["cut.capture", "old.policy", "new.policy"]),
            (1, "0 of 2 calls differ\n".to_string(), "aygeshunt: cut.capture: bad capture at byte "),
        ),
        (
            run(&["short.capture", "old.policy", "new.policy"]),
            (1, String::new(), "aygeshunt: short.capture: bad capture at byte 4: the image has "),
        ),
        (run(&["a.capture", "old.policy", "bad.policy"]), (1, String::new(), "aygeshunt: bad.policy:1: ")),
        (
            run(&["a.capture", "old.policy"]),
            (2, String::new(), "aygeshunt: a capture and two policies are wanted; "),
        ),
    ];
    std::fs::remove_dir_all(&folder).unwrap();
    for ((status, out, told), (wanted_status, wanted_out, wanted)) in results {
        assert_eq!((status, out), (wanted_status, wanted_out), "{told}");
        assert!(told.starts_with(wanted) && told.is_empty() == wanted.is_empty(), "{told}");
    }
}
