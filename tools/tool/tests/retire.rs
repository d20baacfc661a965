//! What becomes of rules for prefixes, in words and texts: hand-written lists, policies and refusals.

use forms::policy::Policy;
use forms::{image, policy_text};
use tool::cli::Fault;
use tool::retire::names::{self, Listed};
use tool::retire::old::Old;
use tool::retire::outcome::{outcome, Asked};
use tool::retire::plan::{check, plan, size, Fate, Size};
use tool::retire::refusal::refusal;
use tool::retire::text;

fn policy_of(text: &str) -> Policy {
    policy_text::parse(text).expect("good text").policy
}

fn old(text: &str) -> Old {
    let read = policy_text::parse(text).expect("good text");
    let image = image::write(&read.policy).expect("an image");
    Old { image, policy: Ok(read.policy.clone()), text: Some((text.to_string(), read)) }
}

/// The new text of a policy for a list.
fn retired(policy: &str, list: &str) -> String {
    let read = policy_text::parse(policy).expect("good text");
    text::retired(policy, &read, &plan(&read.policy, &names::read(list)))
}

fn faults(list: &str) -> Vec<String> {
    let told = |fault: &policy_text::TextFault| format!("{}: {}", fault.line, fault.what);
    names::faults(&names::read(list)).iter().map(told).collect()
}

#[test]
fn a_list_has_a_name_on_a_line() {
    let list = names::read("# a comment\n\n  a.b  \nc.d# another\r\n\t#\ne.f");
    let listed = |line, name: &str| Listed { line, name: name.to_string() };
    assert_eq!(list, [listed(3, "a.b"), listed(4, "c.d"), listed(6, "e.f")]);
    assert_eq!(names::bytes(&list), b"\x03a.b\x03c.d\x03e.f");
    assert_eq!(names::bytes(&names::read("# nothing\n")), b"");
}

#[test]
fn every_fault_of_a_list_is_told_with_its_line() {
    assert_eq!(faults("a.b\norg.freedesktop.DBus\na.bc"), [""; 0]);
    let told = faults("a.b\nab\na.b\n:1.1\nc.d e.f\na.b\nab");
    let wanted = [
        "2: ab is no well-known name: at its byte 2 wanted two elements at least",
        "3: a.b is in line 1 already",
        "4: :1.1 is no well-known name: at its byte 0 wanted a letter, _ or -",
        "5: c.d e.f is no well-known name: at its byte 3 wanted a letter, a digit, _, - or a dot",
        "6: a.b is in line 1 already",
        "7: ab is no well-known name: at its byte 2 wanted two elements at least",
    ];
    assert_eq!(told, wanted);
}

/// A text that no length byte can speak of is handed on as an empty name, which is refused too.
#[test]
fn names_at_their_longest() {
    let longest = format!("a.{}", "b".repeat(253));
    assert_eq!(faults(&longest), [""; 0]);
    assert_eq!(names::bytes(&names::read(&longest)).first(), Some(&255));
    let longer = format!("{longest}b");
    assert_eq!(faults(&longer).len(), 1);
    assert_eq!(names::bytes(&names::read(&format!("{longer}\nc.d"))), b"\0\x03c.d");
    assert_eq!(tool::converter::retire(&old("").image, &names::bytes(&names::read(&longer))), Err(54));
}

#[test]
fn what_becomes_of_each_rule() {
    let policy = policy_of(
        "own default allow any
        own user 7 deny prefix a.b
        own group 5 allow prefix x.y
        own mandatory allow name a.b
        own default allow prefix a.b.c",
    );
    let made = plan(&policy, &names::read("a.b.c.d\na.bc\na.b\nc.d"));
    let list = |names: &[&str]| names.iter().map(|name| name.to_string()).collect::<Vec<_>>();
    let wanted = [
        Fate::Stays(0),
        Fate::Becomes(1, list(&["a.b.c.d", "a.b"])),
        Fate::Vanishes,
        Fate::Stays(3),
        Fate::Becomes(4, list(&["a.b.c.d"])),
    ];
    assert_eq!(made.fates, wanted);
    let rules = "own default allow any
        own user 7 deny name a.b.c.d
        own user 7 deny name a.b
        own mandatory allow name a.b
        own default allow name a.b.c.d";
    assert_eq!(made.policy, policy_of(rules));
}

#[test]
fn a_text_keeps_all_its_other_lines() {
    let list = "a.b\na.b.c";
    let text = "# front\n\nconnect default allow gid 2\n\town user 7 allow  prefix a.b\t# why\n# end";
    let wanted = "# front\n\nconnect default allow gid 2\n\town user 7 allow name a.b\t# why\n\town user 7 allow name a.b.c\t# why\n# end";
    assert_eq!(retired(text, list), wanted);
    // Where a rule vanishes its comment stays, and a line that had none goes.
    assert_eq!(
        retired("# a\nown default deny prefix c.d  # b\nown default deny prefix c.d\n", list),
        "# a\n# b\n"
    );
    // Lines end as they did, the last one too.
    let exact = "own default deny name a.b\r\nown default deny name a.b.c\r\n";
    assert_eq!(retired("own default deny prefix a.b\r\n", list), exact);
    assert_eq!(retired("own default deny prefix a.b", list), exact.replace('\r', "").trim_end());
    let plain = "own default allow any # prefix a.b\r\n\n\nown default deny name a.b";
    assert_eq!(retired(plain, list), plain);
}

#[test]
fn sizes() {
    let policy =
        policy_of("own default allow prefix a.b\nown default allow any\nown user 7 deny prefix a.b.c");
    let sized = |list: &str| size(&policy, 1_000, &names::read(list));
    assert_eq!(sized(""), Size { own_rules: 1, bytes: 1_000 - 32 });
    assert_eq!(sized("a.bc\nx.y"), Size { own_rules: 1, bytes: 1_000 - 32 });
    assert_eq!(sized("a.b\na.b.c\na.b.c.d"), Size { own_rules: 6, bytes: 1_000 + 48 + 15 });
}

/// A result that is not what was to come is found.
#[test]
fn results_are_checked() {
    let made =
        plan(&policy_of("own default allow prefix a.b\nconnect default allow any"), &names::read("a.b"));
    let checked = |rules: &str| check(&old(rules).image, &made);
    assert_eq!(checked("own default allow name a.b\nconnect default allow any"), Ok(()));
    let is_prefix = Err("its own rule 1 is for a prefix".to_string());
    assert_eq!(checked("own default allow name a.b\nown default allow prefix a.b"), is_prefix);
    let others = [
        "own default allow name a.b",
        "own default allow name a.c\nconnect default allow any",
        "own default deny name a.b\nconnect default allow any",
        "own user 0 allow name a.b\nconnect default allow any",
        "own default allow name a.b\nown default allow name a.b\nconnect default allow any",
        "connect default allow any",
    ];
    for rules in others {
        let other = Err("it reads as other rules than those that were to come".to_string());
        assert_eq!(checked(rules), other, "{rules}");
    }
    let bad = check(&[0; 31], &made).expect_err("a bad image");
    assert_eq!(bad, "it reads as a bad image: header: the image has 31 bytes, and its header alone has 32");
}

fn refused(answer: u32, old: &Old, list: &str) -> Fault {
    refusal(answer, &Asked { old, old_path: "o", list: &names::read(list), list_path: "n" })
}

#[test]
fn refusals() {
    let said = |answer, old: &Old, list: &str| {
        let fault = refused(answer, old, list);
        (fault.status, fault.message)
    };
    let good = old("own default allow prefix a.b");
    let bad = Old { image: vec![0], policy: image::read(&[0]), text: None };
    let told =
        "refused with 50, bad policy image\no: header: the image has 1 bytes, and its header alone has 32";
    assert_eq!(said(50, &bad, ""), (1, told.to_string()));
    let told = "refused with 54, bad list of names\nn:2: a.b is in line 1 already";
    assert_eq!(said(54, &good, "a.b\na.b"), (1, told.to_string()));
    let many = |count| (0..count).map(|number| format!("a.b.c{number:04}\n")).collect::<String>();
    let told = "refused with 53, conversion too large\n257 own rules and 6460 bytes would result; 256 own rules are the most";
    assert_eq!(said(53, &good, &many(257)), (1, told.to_string()));
    let told = "refused with 53, conversion too large\n3000 own rules and 75035 bytes would result; 256 own rules are the most, and 65536 bytes are the most";
    assert_eq!(said(53, &good, &many(3000)), (1, told.to_string()));
    let told = said(54, &good, &"a\n".repeat(23)).1;
    assert_eq!(told.lines().count(), 22);
    assert!(told.ends_with(
        "\nn:20: a is no well-known name: at its byte 1 wanted two elements at least\nand 3 lines more"
    ));
}

/// Where the tool finds nothing wrong with what the library refuses, it says that.
#[test]
fn refusals_that_the_tool_does_not_understand() {
    let good = old("own default allow prefix a.b");
    for answer in [50, 51, 53, 54, 99] {
        let fault = refused(answer, &good, "a.b");
        assert_eq!(fault.status, 3);
        assert!(fault.message.starts_with(&format!("refused with {answer}, ")), "{}", fault.message);
        assert!(fault.message.ends_with(", and this tool finds nothing wrong"), "{}", fault.message);
    }
}

/// A library that made something else would be found out, and nothing written.
#[test]
fn results_that_the_tool_would_not_have_made() {
    let unlike = |old: &Old, list: &str, made: &str| {
        let list = names::read(list);
        let asked = Asked { old, old_path: "o", list: &list, list_path: "n" };
        let done = outcome(&asked, Ok(self::old(made).image));
        done.map(|done| done.file).map_err(|fault| (fault.status, fault.message))
    };
    let front = "nothing is written: this tool reads the conversion otherwise than the library: ";
    let told = |what: &str| Err((3, format!("{front}{what}")));
    let (good, exact) = (old("own default allow prefix a.b"), "own default allow name a.b");
    assert_eq!(unlike(&good, "a.b", exact), Ok(exact.as_bytes().to_vec()));
    assert_eq!(unlike(&good, "a.b", "own default allow prefix a.b"), told("its own rule 0 is for a prefix"));
    let other = told("it reads as other rules than those that were to come");
    assert_eq!(unlike(&good, "a.b", "own default deny name a.b"), other);
    assert_eq!(unlike(&good, "a.b\na.b", exact), told("n:2: a.b is in line 1 already"));
    let bad = Old { image: vec![0], policy: image::read(&[0]), text: None };
    let breach = "the old image is bad: header: the image has 1 bytes, and its header alone has 32";
    assert_eq!(unlike(&bad, "a.b", exact), told(breach));
    // A text and its rules that do not belong together.
    let (_, read) = old("own default allow prefix a.b").text.expect("a text");
    let mixed = Old {
        text: Some(("own default allow any".to_string(), read)),
        ..old("own default allow prefix a.b")
    };
    assert_eq!(unlike(&mixed, "", ""), Ok(Vec::new()));
    let (_, read) = old("\nown default allow prefix a.b").text.expect("a text");
    let mixed = Old {
        text: Some(("own default allow any".to_string(), read)),
        ..old("own default allow prefix a.b")
    };
    assert_eq!(unlike(&mixed, "", ""), told("the new text says other rules"));
}
