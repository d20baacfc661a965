//! The command `compare`.

use crate::cli::{read_file, Done, Fault, Out, Words, MOST_CAPTURE};
use crate::compare::Comparison;
use crate::progress::Progress;
use crate::rules::Rules;
use forms::capture;

pub const HELP: &str = "usage: aygeshunt compare CAPTURE OLD.policy NEW.policy

Makes the calls of a capture on the proved guard under two policies and tells each call that they judge differently: the answer of each,
the rule that decided with its line, and for what passed to a peer the rule that let it be sent. Calls are counted from 1, as in `explain`.

The peers' numbers are those that the capture's own policy gave. Where OLD or NEW turns a peer away that the capture has, its calls are 30
there; where one lets a peer in that the capture does not have, nothing more is known of it. A refusal that comes of an earlier one says
so: 30 of a peer that was not let connect, 21 of a name that was not given, 24 of a reply whose call was not passed or whose wait expired. A
signal to everybody differs where it reaches other peers, and of those the rules are told; a tick where it ends other waits. Rules that
decide alike are no difference. CAPTURE may be -.

  aygeshunt compare examples/theatre/theatre.capture examples/theatre/theatre.policy new.policy
  aygeshunt busconfig new.conf > new.policy && aygeshunt compare evening.capture theatre.policy new.policy
";

pub fn run(words: &[String], out: &mut Out) -> Done {
    let words = Words::parse(words, &[], &[])?;
    let [path, old, new] = words.rest.as_slice() else {
        return Err(Fault::usage("a capture and two policies are wanted"));
    };
    let (old, new) = (Rules::of_text(old)?, Rules::of_text(new)?);
    let reading = capture::read(&read_file(path, MOST_CAPTURE)?);
    let own = Rules::of_image(&reading.capture.image);
    // A layout that is broken in its image has no calls, and is told as what it is.
    let told = reading.fault.map(|fault| Fault::input(format!("{path}: {fault}")));
    if let (Some(fault), true) = (&told, reading.capture.calls.is_empty()) {
        return Err(fault.clone());
    }
    let mut comparison = Comparison::new(&reading.capture, &own, &old, &new)
        .map_err(|fault| Fault { message: format!("{path}: {}", fault.message), ..fault })?;
    let mut progress = Progress::new("calls", reading.capture.calls.len());
    while let Some(told) = comparison.step(out.style) {
        progress.step(comparison.made);
        if let Some(text) = told {
            out.line(&text)?;
        }
    }
    drop(progress);
    out.line(&format!("{} of {} calls differ", comparison.differing, comparison.made))?;
    told.map_or(Ok(()), Err)
}
