//! What came of a conversion: the converter's result held to the tool's own reading, and in the form of the old policy.

use super::names::{self, Listed};
use super::old::Old;
use super::plan::{check, plan, Plan};
use super::refusal::refusal;
use super::text;
use crate::cli::Fault;
use forms::policy::Policy;
use forms::policy_text;

/// What a conversion is asked of, with the names of the two files.
pub struct Asked<'a> {
    pub old: &'a Old,
    pub old_path: &'a str,
    pub list: &'a [Listed],
    pub list_path: &'a str,
}

/// A conversion that is done, and that the tool would have done just so.
pub struct Outcome<'a> {
    pub policy: &'a Policy,
    pub plan: Plan,
    /// How many bytes the new image has.
    pub image_length: usize,
    /// What is to be written: a text for a text, an image for an image.
    pub file: Vec<u8>,
}

/// `made` is what the converter gave: the new image, or its answer.
pub fn outcome<'a>(asked: &'a Asked, made: Result<Vec<u8>, u32>) -> Result<Outcome<'a>, Fault> {
    let made = made.map_err(|answer| refusal(answer, asked))?;
    let policy =
        asked.old.policy.as_ref().map_err(|breach| unlike(&format!("the old image is bad: {breach}")))?;
    if let Some(fault) = names::faults(asked.list).first() {
        return Err(unlike(&format!("{}:{}: {}", asked.list_path, fault.line, fault.what)));
    }
    let plan = plan(policy, asked.list);
    check(&made, &plan).map_err(|what| unlike(&what))?;
    let image_length = made.len();
    let file = file(asked.old, &plan, made)?;
    Ok(Outcome { policy, plan, image_length, file })
}

/// The converter did what the tool would not have done.
fn unlike(what: &str) -> Fault {
    let message =
        format!("nothing is written: this tool reads the conversion otherwise than the library: {what}");
    Fault { status: 3, message }
}

/// The new policy in the form of the old one. A text says the same rules as the image that the library made.
fn file(old: &Old, plan: &Plan, made: Vec<u8>) -> Result<Vec<u8>, Fault> {
    let Some((lines, read)) = &old.text else { return Ok(made) };
    let new = text::retired(lines, read, plan);
    match policy_text::parse(&new) {
        Ok(again) if again.policy == plan.policy => Ok(new.into_bytes()),
        _ => Err(unlike("the new text says other rules")),
    }
}
