//! Images whose verdicts are turned, so that an answer shows a rule that it does not show else.

use forms::message::ByteOrder;

/// Where an image says how many transaction rules it has and where they begin, and the places in such a rule.
const COUNT_AT: usize = 20;
const OFFSET_AT: usize = 24;
const RULE_LENGTH: usize = 40;
const VERDICT_AT: usize = 1;
const DIRECTION_AT: usize = 2;
const INTERFACE_LENGTH_AT: usize = 28;

/// The image with denying send rules: the same rules match, so the same one decides (rule 6.1), and 22 shows it. A rule that
/// allows and names an interface does not match a call without one, and would if it denied (rule 6.8): it stays as it is for
/// such a call. None where the image is too short for the rules that it says it has.
pub fn all_sends_denied(image: &[u8], has_interface: bool) -> Option<Vec<u8>> {
    let word = |at: usize| Some(ByteOrder::Little.number(image.get(at..at + 4)?, 0) as usize);
    let (count, offset) = (word(COUNT_AT)?, word(OFFSET_AT)?);
    let end = offset.checked_add(count.checked_mul(RULE_LENGTH)?)?;
    let mut denied = image.to_vec();
    for rule in denied.get_mut(offset..end)?.chunks_mut(RULE_LENGTH) {
        let names_interface = rule[INTERFACE_LENGTH_AT..INTERFACE_LENGTH_AT + 4] != [0; 4];
        if rule[DIRECTION_AT] == 0 && (has_interface || !names_interface) {
            rule[VERDICT_AT] = 0;
        }
    }
    Some(denied)
}
