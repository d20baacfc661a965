//! The answers are those of docs/ANSWERS.md.

use tool::answers;

#[test]
fn the_page_has_all_answers_once() {
    let numbers: Vec<u32> = answers::all().iter().map(|answer| answer.number).collect();
    let wanted: Vec<u32> = [0, 10]
        .into_iter()
        .chain(1..=9)
        .chain(20..=26)
        .chain(30..=41)
        .chain([50, 51, 53, 54, 67, 68])
        .collect();
    assert_eq!(numbers, wanted);
    for answer in answers::all() {
        assert!(
            !answer.means.is_empty() && !answer.look_at.is_empty() && answer.rule.contains('.'),
            "{answer:?}"
        );
    }
}

#[test]
fn an_unknown_answer_is_said_to_be_one() {
    assert!(answers::find(11).is_none());
    assert!(answers::meaning(11).contains("does not have"));
}
