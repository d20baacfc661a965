//! JSON is written so that it can be read by anybody.

use tool::json::Json;

#[test]
fn values() {
    let value = Json::Object(vec![
        ("n", Json::Number(18_446_744_073_709_551_615)),
        ("t", Json::text("a\"b\\c\n\u{7f}\u{e9}")),
        ("l", Json::List(vec![Json::Bool(true), Json::Bool(false), Json::List(Vec::new())])),
        ("o", Json::Object(Vec::new())),
    ]);
    let wanted = "{\"n\":18446744073709551615,\"t\":\"a\\\"b\\\\c\\u000a\\u007f\u{e9}\",\"l\":[true,false,[]],\"o\":{}}";
    assert_eq!(value.line(), wanted);
}
