//! The command `explain`.

use crate::cli::{read_file, write_file, Done, Fault, Out, Words, MOST_CAPTURE};
use crate::draw::svg::{self, Figure};
use crate::explain::story::Story;
use crate::explain::words::Boxes;
use crate::explain::{figure, json, words, Teller};
use crate::progress::Progress;
use crate::rules::Rules;
use forms::capture::{self, Reading};

pub const HELP: &str = "usage: aygeshunt explain CAPTURE [--call N] [--peer P] [--dropped] [--boxes] [--json] [--svg FILE] [--policy FILE]

Makes the calls of a capture on the proved guard and tells each in a sentence: who, what, the answer with its name, and why. Calls are
counted from 1, as the lines of `replay`. A broken head is drawn box by box, with the byte that decided and what was wanted there; where
one byte more or less would make it good, that row is drawn under it.

  --call N       only call N, its head drawn whatever the answer
  --peer P       only calls of peer P, messages to it, and ticks that ended a wait of it or for it
  --dropped      only what was dropped or refused: every answer but 0 and 10
  --boxes        every head drawn, not only broken ones
  --json         a line of JSON for each call
  --svg FILE     the heads of these calls as a picture too (at most 200)
  --policy FILE  the policy's text, for the lines of rules; else a policy beside the capture that gives the same image

CAPTURE may be - for standard input. Options may be put together. For example:

  aygeshunt explain examples/theatre/theatre.capture
  aygeshunt explain examples/theatre/theatre.capture --dropped --peer 1
  aygeshunt explain examples/theatre/theatre.capture --call 35 --svg broken.svg
  aygeshunt explain evening.capture --json | jq 'select(.answer == 22) | .rule'
";

/// More figures than a person looks at.
const MOST_FIGURES: usize = 200;

/// Which calls are told, and how.
struct Wanted {
    call: Option<usize>,
    peer: Option<u32>,
    dropped: bool,
    boxes: Boxes,
    json: bool,
    svg: Option<String>,
}

impl Wanted {
    fn of(words: &Words) -> Result<Wanted, Fault> {
        let call = words.number("--call")?.map(|number| number as usize);
        if call == Some(0) {
            return Err(Fault::usage("calls are counted from 1"));
        }
        let all = words.has("--boxes") || call.is_some();
        Ok(Wanted {
            call,
            peer: words.number("--peer")?,
            dropped: words.has("--dropped"),
            boxes: if all { Boxes::All } else { Boxes::Broken },
            json: words.has("--json"),
            svg: words.value("--svg").map(str::to_string),
        })
    }

    fn takes(&self, story: &Story) -> bool {
        self.call.is_none_or(|call| call == story.number)
            && self.peer.is_none_or(|peer| story.is_about(peer))
            && (!self.dropped || story.is_refused())
    }
}

pub fn run(words: &[String], out: &mut Out) -> Done {
    let words =
        Words::parse(words, &["--dropped", "--boxes", "--json"], &["--call", "--peer", "--svg", "--policy"])?;
    let wanted = Wanted::of(&words)?;
    let [path] = words.rest.as_slice() else {
        return Err(Fault::usage("one capture is wanted"));
    };
    let reading = capture::read(&read_file(path, MOST_CAPTURE)?);
    let image = &reading.capture.image;
    let rules = match words.value("--policy") {
        Some(policy) => Rules::with_text(image, policy)?,
        None => Rules::beside(image, path),
    };
    let (figures, differences) = tell(&reading, &rules, &wanted, out)?;
    out.flush()?;
    if let Some(file) = &wanted.svg {
        write_file(file, svg::picture(&figures).as_bytes())?;
    }
    ended(path, &reading, &wanted, differences)
}

/// Tells the calls that are wanted; gives their figures, and how many were read otherwise than the guard read them.
fn tell(
    reading: &Reading,
    rules: &Rules,
    wanted: &Wanted,
    out: &mut Out,
) -> Result<(Vec<Figure>, usize), Fault> {
    let calls = reading.capture.calls.len();
    let last = wanted.call.unwrap_or(calls).min(calls);
    let mut teller = Teller::new(&reading.capture, rules);
    let mut progress = Progress::new("calls", calls);
    let (mut figures, mut differences) = (Vec::new(), 0);
    while teller.made < last {
        let Some(story) = teller.step() else { break };
        progress.step(story.number);
        differences += usize::from(story.disagreement.is_some());
        if !wanted.takes(&story) && story.disagreement.is_none() {
            continue;
        }
        match wanted.json {
            true => out.line(&json::line(&story))?,
            false => out.text(&words::tell(&story, wanted.boxes, out.style))?,
        }
        if let Some(figure) = wanted.svg.as_ref().and_then(|_| figure::of(&story)) {
            figures.push(figure);
        }
        if figures.len() > MOST_FIGURES {
            return Err(Fault::input(format!(
                "more than {MOST_FIGURES} heads for one picture; --call, --peer and --dropped choose"
            )));
        }
    }
    Ok((figures, differences))
}

/// What is wrong at the end, where something is.
fn ended(path: &str, reading: &Reading, wanted: &Wanted, differences: usize) -> Done {
    let calls = reading.capture.calls.len();
    if differences > 0 {
        let message = format!("{path}: in {differences} calls this tool reads otherwise than the guard, whose answer is the one that counts");
        return Err(Fault { status: 3, message });
    }
    let is_before = |call: usize| call <= calls;
    if wanted.call.is_some_and(is_before) {
        return Ok(());
    }
    match (&reading.fault, wanted.call) {
        (Some(fault), _) => Err(Fault::input(format!("{path}: {fault}"))),
        (None, Some(call)) => {
            Err(Fault::input(format!("{path}: there is no call {call}, the capture has {calls}")))
        }
        (None, None) => Ok(()),
    }
}
