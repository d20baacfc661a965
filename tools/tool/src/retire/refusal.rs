//! Why a conversion was refused: the converter's answer, and what is wrong where the tool can say it.

use super::names::{faults, Listed};
use super::outcome::Asked;
use super::plan::{size, Size};
use crate::answers::meaning;
use crate::cli::Fault;
use crate::converter::{BAD_IMAGE, BAD_LIST, TOO_LARGE};
use forms::image::{most_rules, MAX_LENGTH};
use forms::policy::Section;

/// More lines than a person mends at once.
const MOST_TOLD: usize = 20;

/// The refusal in words; where the tool finds nothing wrong, that it reads otherwise than the converter.
pub fn refusal(answer: u32, asked: &Asked) -> Fault {
    let old = asked.old;
    let what = match (answer, &old.policy) {
        (BAD_IMAGE, Err(breach)) => Some(format!("{}: {breach}", asked.old_path)),
        (BAD_LIST, _) => listed_faults(asked.list, asked.list_path),
        (TOO_LARGE, Ok(policy)) => too_large(size(policy, old.image.len(), asked.list)),
        _ => None,
    };
    let answered = format!("refused with {answer}, {}", meaning(answer));
    match what {
        Some(what) => Fault::input(format!("{answered}\n{what}")),
        None => Fault { status: 3, message: format!("{answered}, and this tool finds nothing wrong") },
    }
}

fn listed_faults(list: &[Listed], path: &str) -> Option<String> {
    let all = faults(list);
    let mut lines: Vec<String> =
        all.iter().take(MOST_TOLD).map(|fault| format!("{path}:{}: {}", fault.line, fault.what)).collect();
    if all.len() > MOST_TOLD {
        lines.push(format!("and {} lines more", all.len() - MOST_TOLD));
    }
    (!lines.is_empty()).then(|| lines.join("\n"))
}

/// How large the new image would be, and which limit that breaks.
fn too_large(Size { own_rules, bytes }: Size) -> Option<String> {
    let most = most_rules(Section::Own);
    let mut broken = Vec::new();
    if own_rules > most {
        broken.push(format!("{most} own rules are the most"));
    }
    if bytes > MAX_LENGTH {
        broken.push(format!("{MAX_LENGTH} bytes are the most"));
    }
    let would = format!("{own_rules} own rules and {bytes} bytes would result");
    (!broken.is_empty()).then(|| format!("{would}; {}", broken.join(", and ")))
}
