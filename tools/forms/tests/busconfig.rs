//! What `tools/busconfig` writes is a policy, and it has an image.

use forms::{image, policy_text};

fn counts(name: &str) -> [usize; 3] {
    let path = format!("{}/../../tests/tool/busconfig/{name}", env!("CARGO_MANIFEST_DIR"));
    let text = std::fs::read_to_string(path).expect("the stored policy");
    let policy = policy_text::parse(&text).expect("a policy").policy;
    let read = image::read(&image::write(&policy).expect("an image")).expect("a good image");
    assert_eq!(read, policy);
    [policy.connect.len(), policy.own.len(), policy.transaction.len()]
}

#[test]
fn the_stored_policies_are_policies() {
    assert_eq!(counts("cabinet.policy"), [6, 4, 11]);
    assert_eq!(counts("service.policy"), [3, 2, 4]);
}
