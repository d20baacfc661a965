//! What is told of ticks, and of calls behind them.

use forms::script;
use tool::cli::Style;
use tool::explain::story::Story;
use tool::explain::words::{self, Boxes};
use tool::explain::{json, Teller};
use tool::rules::Rules;

const OPEN: &str = "rule connect default allow any
    rule own default allow any
    rule transaction default allow send any
    rule transaction default allow receive any
    connect 1
    connect 2
    connect 3\n";

/// What a function makes of each call behind the connects, which are #1 to #3.
fn each<T>(calls: &str, make: impl Fn(&Story) -> T) -> Vec<T> {
    let capture = script::parse(&(OPEN.to_string() + calls), &|_| Err("no file".to_string())).expect("good");
    let rules = Rules::of_image(&capture.image);
    let mut teller = Teller::new(&capture, &rules);
    let mut made = Vec::new();
    while let Some(story) = teller.step() {
        assert_eq!(story.disagreement, None);
        made.push(make(&story));
    }
    made.split_off(3)
}

/// The lines of the last call, without what they begin with.
fn last(calls: &str) -> Vec<String> {
    let told = each(calls, |story| words::tell(story, Boxes::Broken, Style::PLAIN)).pop().expect("a call");
    told.trim_end().lines().map(|line| line.trim().to_string()).collect()
}

fn call(caller: u32, callee: u32, serial: u32) -> String {
    format!("piece {caller} message call serial={serial} path=/ member=M destination=:1.{callee}\n")
}

fn reply(callee: u32, caller: u32, serial: u32) -> String {
    format!("piece {callee} message return serial=1 reply={serial} destination=:1.{caller}\n")
}

#[test]
fn what_a_tick_ends() {
    assert_eq!(last("tick 5 0\n"), ["#4   tick 5: all waits are to end", "0, no wait ended"]);
    assert_eq!(last("tick 5 1\n"), ["#4   tick 5: waits of 1 tick and more are to end", "0, no wait ended"]);
    let two = call(1, 2, 7) + "tick 10 99\n" + &call(2, 3, 8);
    let none = [
        "#7   tick 11: waits of 12 ticks and more are to end",
        "0, no wait ended",
        "2 go on, the oldest of them the wait of peer 1 for peer 2, serial 7, from #4, 11 ticks old",
    ];
    assert_eq!(last(&format!("{two}tick 11 12\n")), none);
    let one = [
        "#7   tick 11: waits of 2 ticks and more are to end",
        "0, 1 wait ended",
        "so ended the wait of peer 1 for peer 2, serial 7, from #4, 11 ticks old",
        "one goes on: the wait of peer 2 for peer 3, serial 8, from #6, 1 tick old",
    ];
    assert_eq!(last(&format!("{two}tick 11 2\n")), one);
    let both = [
        "#7   tick 11: waits of 1 tick and more are to end",
        "0, 2 waits ended",
        "so ended the wait of peer 1 for peer 2, serial 7, from #4, 11 ticks old",
        "so ended the wait of peer 2 for peer 3, serial 8, from #6, 1 tick old",
    ];
    assert_eq!(last(&format!("{two}tick 11 1\n")), both);
}

#[test]
fn a_clock_that_went_back() {
    let wanted = [
        "#7   tick 9: all waits are to end",
        "41, tick lower than the last",
        "the last tick is 10 since #5: the host's clock went back by 1 tick",
    ];
    assert_eq!(last(&(call(1, 2, 7) + "tick 10 99\ntick 10 99\ntick 9 0\n")), wanted);
    // A start forgets it.
    assert_eq!(last("tick 10 99\nstart\ntick 9 99\n")[1], "0, no wait ended");
}

#[test]
fn replies_that_come_too_late() {
    let expired = call(1, 2, 7) + "tick 10 99\ntick 60 60\n";
    let late = "peer 1 awaits no reply of peer 2 to serial 7: that wait from #4 expired in #6, at tick 60, \
                60 ticks old; it awaits nothing";
    assert_eq!(last(&(expired.clone() + &reply(2, 1, 7)))[3], late);
    // From a peer that was not asked.
    let other =
        "peer 1 awaits no reply of peer 3 to serial 7: that was for peer 2 to give, and the wait from #4 \
                 expired in #6, at tick 60, 60 ticks old; it awaits nothing";
    assert_eq!(last(&(expired.clone() + &reply(3, 1, 7)))[3], other);
    // The same call waits again, and its reply is the reply to that.
    assert_eq!(last(&(expired.clone() + &call(1, 2, 7) + &reply(2, 1, 7)))[3], "it is the reply to #7");
    let given = "peer 1 awaits no reply of peer 2 to serial 7: it was given in #8; it awaits nothing";
    assert_eq!(last(&(expired + &call(1, 2, 7) + &reply(2, 1, 7) + &reply(2, 1, 7)))[3], given);
}

#[test]
fn how_long_replies_are_awaited() {
    let again = call(1, 2, 7) + &call(1, 2, 7);
    assert_eq!(last(&again)[4], "serial 7 awaits its reply of peer 2 since #4");
    let later = call(1, 2, 7) + "tick 10 99\n" + &call(1, 2, 7);
    assert_eq!(last(&later)[4], "serial 7 awaits its reply of peer 2 since #4, 10 ticks ago");
    let many: String = (1..=16).map(|serial| call(1, 2, serial)).collect();
    let full = last(&(many + "tick 1 99\n" + &call(1, 2, 17)));
    assert_eq!(full[4], "awaited: the reply of peer 2 to serial 1, since #4, 1 tick ago");
    assert_eq!(full.len(), 20);
}

/// With `--peer` a tick is told where it ended a wait that the peer is part of.
#[test]
fn whom_a_tick_is_about() {
    let calls = call(1, 2, 7) + "tick 10 11\ntick 10 10\n";
    let about = each(&calls, |story| [1, 2, 3].map(|peer| story.is_about(peer)));
    assert_eq!(about, [[true, true, false], [false; 3], [true, true, false]]);
    let refused = each("tick 10 0\ntick 9 0\n", |story| story.is_refused());
    assert_eq!(refused, [false, true]);
}

#[test]
fn lines_of_json() {
    let calls = call(1, 2, 7) + "tick 10 11\ntick 18446744073709551615 10\ntick 0 0\n";
    let told = each(&calls, json::line);
    let goes_on = "the wait of peer 1 for peer 2, serial 7, from #4, 10 ticks old";
    assert_eq!(
        told[1],
        format!(
            "{{\"call\":5,\"kind\":\"tick\",\"answer\":0,\"meaning\":\"{}\",\"tick\":10,\"limit\":11,\"ended\":0,\
             \"waits\":[],\"why\":[\"one goes on: {goes_on}\"]}}",
            tool::answers::meaning(0)
        )
    );
    let ended =
        "\"tick\":18446744073709551615,\"limit\":10,\"ended\":1,\"waits\":[{\"caller\":1,\"callee\":2,\
                 \"serial\":7,\"call\":4,\"age\":18446744073709551615}],\"why\":[";
    assert!(told[2].contains(ended), "{}", told[2]);
    assert!(
        told[3].contains("\"answer\":41,") && told[3].contains("\"ended\":0,\"waits\":[],"),
        "{}",
        told[3]
    );
}
