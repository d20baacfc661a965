//! What each answer means, from docs/ANSWERS.md itself, so that the page and the tool say the same.

use std::sync::OnceLock;

const PAGE: &str = include_str!("../../../docs/ANSWERS.md");

/// A row of the page.
#[derive(Clone, Copy, Debug)]
pub struct Answer {
    pub number: u32,
    pub means: &'static str,
    pub left_behind: &'static str,
    /// The rule of docs/RULES.md that says when the answer comes.
    pub rule: &'static str,
    pub look_at: &'static str,
}

/// All answers of the page, in its order.
pub fn all() -> &'static [Answer] {
    static ROWS: OnceLock<Vec<Answer>> = OnceLock::new();
    ROWS.get_or_init(|| PAGE.lines().filter_map(row).collect())
}

/// A table's row that begins with a number and has the five columns of the answers.
fn row(line: &'static str) -> Option<Answer> {
    let mut cells = line.strip_prefix("| ")?.strip_suffix(" |")?.split(" | ");
    let number = cells.next()?.parse().ok()?;
    let mut next = || cells.next();
    let (means, left_behind, rule, look_at) = (next()?, next()?, next()?, next()?);
    Some(Answer { number, means, left_behind, rule, look_at })
}

pub fn find(number: u32) -> Option<&'static Answer> {
    all().iter().find(|answer| answer.number == number)
}

/// The answer in the words of the page.
pub fn meaning(number: u32) -> &'static str {
    find(number).map_or("an answer that docs/ANSWERS.md does not have", |answer| answer.means)
}

/// Whether a message was refused for its head, and the stream closed.
pub fn is_broken(number: u32) -> bool {
    (1..=9).contains(&number)
}

/// Whether a whole message was consumed without being passed on.
pub fn is_dropped(number: u32) -> bool {
    (20..=26).contains(&number)
}
