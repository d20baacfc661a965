//! The stored outputs of tests/tool show every way in which a field array is malformed.

use forms::capture::Call;
use forms::script;
use std::collections::BTreeSet;
use tool::head::{self, Outcome, KINDS};

const SCRIPT: &str = include_str!("../../../tests/tool/cases/sevens.script");

#[test]
fn every_kind_of_7_is_stored() {
    let capture = script::parse(SCRIPT, &|_| Err("no file".to_string())).expect("good");
    let mut met = BTreeSet::new();
    for call in &capture.calls {
        let Call::Piece { bytes, .. } = call else { continue };
        match head::read(bytes).outcome {
            Outcome::Broken(fault) if fault.answer == 7 => met.insert(fault.kind),
            outcome => panic!("{outcome:?}"),
        };
    }
    let is_seven =
        |kind: &&&str| !FIXED.contains(*kind) && !kind.starts_with("bad-") && **kind != "missing-field";
    let wanted: BTreeSet<&str> = KINDS.iter().filter(is_seven).copied().collect();
    assert_eq!(met, wanted);
}

/// The ways of 1 to 6.
const FIXED: [&str; 6] =
    ["order", "version", "type-zero", "serial-zero", "array-too-long", "message-too-long"];
