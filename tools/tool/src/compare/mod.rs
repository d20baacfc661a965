//! Which calls of a capture two policies judge differently.

pub mod words;
pub mod world;

use crate::cli::{Fault, Style};
use crate::explain::story::Story;
use crate::explain::Teller;
use crate::rules::Rules;
use forms::capture::{Call, Capture};
use world::{Made, World};

/// A policy's rules and its image.
pub type Ruled = (Rules, Vec<u8>);

/// A capture's calls under its own policy, which gave the numbers, and under two others.
pub struct Comparison<'a> {
    own: Teller<'a>,
    old: World<'a>,
    new: World<'a>,
    /// How many calls were made, and how many of them the two judge differently.
    pub made: usize,
    pub differing: usize,
}

impl<'a> Comparison<'a> {
    /// `own` are the rules of the capture's own image, which has to be a good one: under a bad one nobody has a number.
    pub fn new(
        capture: &'a Capture,
        own: &'a Rules,
        old: &'a Ruled,
        new: &'a Ruled,
    ) -> Result<Comparison<'a>, Fault> {
        if let Err(what) = &own.policy {
            return Err(Fault::input(format!("the capture's own image is bad: {what}")));
        }
        Ok(Comparison {
            own: Teller::new(capture, own),
            old: World::new(&old.0, &old.1),
            new: World::new(&new.0, &new.1),
            made: 0,
            differing: 0,
        })
    }

    /// Makes the next call; tells it where there is something to tell.
    pub fn step(&mut self, style: Style) -> Option<Option<String>> {
        let story = self.own.step()?;
        let (old, new) = (self.old.make(&story), self.new.make(&story));
        self.made += 1;
        if old.is_like(&new) {
            return Some(self.both(&story, &old, style));
        }
        self.differing += 1;
        let sides = [("old", &self.old, &old), ("new", &self.new, &new)];
        let apart = self.apart(&story, &[&old, &new]);
        Some(Some(words::tell(&story, &sides, style) + &apart))
    }

    /// A connect that both judge alike, but otherwise than the capture's own policy.
    fn both(&self, story: &Story, made: &Made, style: Style) -> Option<String> {
        let apart = self.apart(story, &[made]);
        (!apart.is_empty()).then(|| words::tell(story, &[("both", &self.new, made)], style) + &apart)
    }

    /// What follows where a connect went otherwise than in the capture.
    fn apart(&self, story: &Story, made: &[&Made]) -> String {
        let is_connect = matches!(story.call, Call::Connect { .. });
        let granted = story.place.answer == 0;
        let is_apart = made.iter().any(|made| (made.place.answer == 0) != granted);
        match (is_connect && is_apart, granted) {
            (false, _) => String::new(),
            (true, true) => format!(
                "     in the capture it is peer {}; where it is refused its calls are 30\n",
                story.place.value
            ),
            (true, false) => {
                let answer = story.place.answer;
                format!("     in the capture it is refused with {answer}, so nothing of this peer is in it\n")
            }
        }
    }
}
