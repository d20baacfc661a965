//! Where the rules of a converted policy come from.

use tool::retire::plan::{Fate, Plan};

/// For each rule of a converted policy the position of the old rule that it was made of.
pub fn origins(plan: &Plan) -> Vec<usize> {
    let count = |fate: &Fate| match fate {
        Fate::Stays(_) => 1,
        Fate::Becomes(_, names) => names.len(),
        Fate::Vanishes => 0,
    };
    plan.fates.iter().enumerate().flat_map(|(position, fate)| vec![position; count(fate)]).collect()
}
