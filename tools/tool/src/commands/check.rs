//! The command `check`.

use crate::cli::{read_file, Done, Fault, Out, Words, MOST_CAPTURE};
use crate::explain::{words, Teller};
use crate::progress::Progress;
use crate::rules::Rules;
use forms::capture;

pub const HELP: &str = "usage: aygeshunt check CAPTURE ..

Makes the calls of captures on the proved guard and holds this tool's own reading to its answers: of each message the head, where it breaks
and how many bytes were taken; of each call whom it is about, who owns which name, which replies are awaited, and how many a tick ends. What differs is told as by
`explain`, and the status is then 3. The guard's answer is the one that counts; a difference is a fault of this tool. The calls of a capture
whose layout is broken are checked up to the fault.

  aygeshunt check examples/theatre/theatre.capture
";

pub fn run(words: &[String], out: &mut Out) -> Done {
    let words = Words::parse(words, &[], &[])?;
    if words.rest.is_empty() {
        return Err(Fault::usage("a capture is wanted"));
    }
    let (mut calls, mut differences) = (0, 0);
    for path in &words.rest {
        let (made, differ) = check(path, out)?;
        calls += made;
        differences += differ;
    }
    out.line(&format!("{calls} calls of {} captures, {differences} differ", words.rest.len()))?;
    match differences {
        0 => Ok(()),
        _ => Err(Fault {
            status: 3,
            message: format!("in {differences} calls this tool reads otherwise than the guard"),
        }),
    }
}

/// How many calls a capture has, and how many of them are read otherwise.
fn check(path: &str, out: &mut Out) -> Result<(usize, usize), Fault> {
    let reading = capture::read(&read_file(path, MOST_CAPTURE)?);
    let rules = Rules::of_image(&reading.capture.image);
    let mut teller = Teller::new(&reading.capture, &rules);
    let mut progress = Progress::new("calls", reading.capture.calls.len());
    let mut differences = 0;
    while let Some(story) = teller.step() {
        progress.step(story.number);
        if story.disagreement.is_some() {
            differences += 1;
            out.line(path)?;
            out.text(&words::tell(&story, words::Boxes::Broken, out.style))?;
        }
    }
    Ok((teller.made, differences))
}
