//! `policy retire`: a policy whose own rules are for prefixes becomes one without such rules.

use crate::cli::{read_file, say, text_of, write_file, Done, Fault, Out};
use crate::converter;
use crate::retire::names::{self, MOST_NAMES};
use crate::retire::old::Old;
use crate::retire::outcome::{outcome, Asked};
use crate::retire::report;

/// Nothing is written before all is known to be good, so the new file may be the old one.
pub fn run(old_path: &str, list_path: &str, new_path: &str, out: &mut Out) -> Done {
    if old_path == "-" && list_path == "-" {
        return Err(Fault::usage("policy retire reads one of OLD and NAMES from standard input, not both"));
    }
    let old = Old::read(old_path)?;
    let list = names::read(&text_of(list_path, read_file(list_path, MOST_NAMES)?)?);
    let asked = Asked { old: &old, old_path, list: &list, list_path };
    let outcome = outcome(&asked, converter::retire(&old.image, &names::bytes(&list)))?;
    write_file(new_path, &outcome.file)?;
    let told = report::lines(&asked, &outcome).join("\n");
    match new_path {
        // Standard output has the new policy.
        "-" => say(&told),
        _ => out.line(&told)?,
    }
    Ok(())
}
