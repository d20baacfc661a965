//! The signature rules, with the examples of the D-Bus Specification and every limit.

use second::signature::is_signature;

fn good(text: &str) {
    assert!(is_signature(text.as_bytes()), "{text} should be good");
}

fn bad(text: &str) {
    assert!(!is_signature(text.as_bytes()), "{text} should be bad");
}

#[test]
fn single_letters() {
    for byte in 0..=255_u8 {
        assert_eq!(is_signature(&[byte]), b"ybnqiuxtdsoghv".contains(&byte), "{byte}");
    }
}

#[test]
fn examples() {
    for text in
        ["", "i", "ii", "(ii)", "(i(ii))", "ai", "a(ii)", "aai", "a{ss}", "a{us}", "a{us}a{us}", "a{sv}"]
    {
        good(text);
    }
    for text in
        ["(iii)d", "a{oa{sa{sv}}}", "aa{yv}", "a{i(vv)}", "a(v)", "av", "sa{sv}as", "((y))", "(a{sv})"]
    {
        good(text);
    }
    for text in
        ["aa", "(ii", "ii)", "a", "()", "(", ")", "{", "}", "{sv}", "a{", "a{s", "a{sv", "a{sv)", "(i}"]
    {
        bad(text);
    }
    for text in [
        "a{vs}", "a{s}", "a{}", "a{sss}", "a{(i)s}", "a{ass}", "(a)", "a)", "({sv})", "aa{", "z", "r", "e",
        "m", "*",
    ] {
        bad(text);
    }
    bad("a{aas}");
    bad("a{s{sv}}");
    good("a{sa{sv}}");
}

#[test]
fn length() {
    good(&"y".repeat(255));
    bad(&"y".repeat(256));
    good(&"a{sv}".repeat(51));
    bad(&("a{sv}".repeat(51) + "y"));
}

#[test]
fn open_arrays() {
    good(&("a".repeat(32) + "y"));
    bad(&("a".repeat(33) + "y"));
    good(&("a".repeat(32) + "ya" + "y"));
    good(&("a".repeat(32) + "y" + &"a".repeat(32) + "y"));
    good(&("a".repeat(32) + "(y)"));
    good(&("a".repeat(31) + "(ayay)"));
    bad(&("a".repeat(32) + "(ay)"));
    good(&("a{s".repeat(32) + "y" + &"}".repeat(32)));
    bad(&("a{s".repeat(33) + "y" + &"}".repeat(33)));
}

#[test]
fn open_parentheses() {
    let nested = |depth: usize| "(".repeat(depth) + "y" + &")".repeat(depth);
    good(&nested(32));
    bad(&nested(33));
    good(&(nested(32) + &nested(32)));
    good(&("(".repeat(31) + "(y)(y)" + &")".repeat(31)));
    good(&("a".repeat(32) + &nested(32)));
    bad(&("a".repeat(32) + &nested(33)));
    bad(&("a".repeat(33) + &nested(32)));
    good(&("a(".repeat(32) + "y" + &")".repeat(32)));
    bad(&("a(".repeat(33) + "y" + &")".repeat(33)));
    bad(&("(a".repeat(33) + "y" + &")".repeat(33)));
    good(&("a{y(".repeat(32) + "y" + &")}".repeat(32)));
}
