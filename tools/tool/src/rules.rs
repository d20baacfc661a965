//! The policy of a capture: its rules, and the lines of the text that it was made from where that text is there.

use crate::cli::{read_file, read_text, Fault};
use forms::policy::{Policy, Section};
use forms::policy_text::{self, named, PolicyText};
use forms::{image, policy_text::without_comment};
use std::path::Path;

/// How many policies beside a capture are looked at, and the longest of them.
const MOST_BESIDE: usize = 64;
const MOST_BESIDE_BYTES: u64 = 1 << 20;

/// The text of a policy, with the name under which it is told.
#[derive(Clone, Debug)]
struct Source {
    name: String,
    text: PolicyText,
    lines: Vec<String>,
}

/// The rules of an image.
#[derive(Clone, Debug)]
pub struct Rules {
    pub policy: Result<Policy, String>,
    source: Option<Source>,
}

/// A rule as a person finds it again.
#[derive(Clone, Debug, PartialEq, Eq)]
pub struct Named {
    pub section: Section,
    pub position: usize,
    /// The rule as a line of a policy's text.
    pub text: String,
    /// The file and its line, where the text is there.
    pub line: Option<(String, usize)>,
}

impl Named {
    /// "transaction rule 8, theatre.policy line 37".
    pub fn place(&self) -> String {
        let rule = format!("{} rule {}", self.section.word(), self.position);
        match &self.line {
            Some((file, line)) => format!("{rule}, {file} line {line}"),
            None => rule,
        }
    }
}

impl Source {
    fn read(path: &Path, text: &str) -> Option<Source> {
        let parsed = policy_text::parse(text).ok()?;
        let name = path.file_name().unwrap_or(path.as_os_str()).to_string_lossy();
        let lines = text.lines().map(|line| without_comment(line).trim().to_string()).collect();
        Some(Source { name: named(&name), text: parsed, lines })
    }

    fn is_of(&self, lent: &[u8]) -> bool {
        image::write(&self.text.policy).is_ok_and(|bytes| bytes == lent)
    }
}

impl Rules {
    /// The rules of an image alone.
    pub fn of_image(lent: &[u8]) -> Rules {
        Rules { policy: image::read(lent), source: None }
    }

    /// The rules of a policy's text, and its image.
    pub fn of_text(path: &str) -> Result<(Rules, Vec<u8>), Fault> {
        let text = read_text(path)?;
        let parsed = policy_text::parse(&text)
            .map_err(|fault| Fault::input(format!("{path}:{}: {}", fault.line, fault.what)))?;
        let lent = image::write(&parsed.policy).map_err(|what| Fault::input(format!("{path}: {what}")))?;
        let source = Source::read(Path::new(path), &text);
        Ok((Rules { policy: Ok(parsed.policy), source }, lent))
    }

    /// The rules of a capture's image with the lines of the text that was named for it.
    pub fn with_text(lent: &[u8], path: &str) -> Result<Rules, Fault> {
        let (rules, own) = Rules::of_text(path)?;
        match own == lent {
            true => Ok(rules),
            false => Err(Fault::input(format!(
                "{path}: this is not the policy of the capture, its image is another"
            ))),
        }
    }

    /// The rules of a capture's image, with the lines of a policy beside the capture that gives just that image.
    pub fn beside(lent: &[u8], capture: &str) -> Rules {
        let rules = Rules::of_image(lent);
        if capture == "-" || rules.policy.is_err() {
            return rules;
        }
        let source = policies_beside(Path::new(capture)).into_iter().find(|source| source.is_of(lent));
        Rules { source, ..rules }
    }

    pub fn named(&self, section: Section, position: usize) -> Option<Named> {
        let policy = self.policy.as_ref().ok()?;
        if position >= policy.count(section) {
            return None;
        }
        let line = self.source.as_ref().and_then(|source| source.text.line(section, position));
        let source = self.source.as_ref().zip(line);
        let text = source.and_then(|(source, line)| source.lines.get(line - 1).cloned());
        Some(Named {
            section,
            position,
            text: text.unwrap_or_else(|| policy_text::show_rule(policy, section, position)),
            line: source.map(|(source, line)| (source.name.clone(), line)),
        })
    }
}

/// The policies in a capture's folder that can be read, the one with the capture's own name first.
fn policies_beside(capture: &Path) -> Vec<Source> {
    let folder = capture.parent().filter(|folder| !folder.as_os_str().is_empty()).unwrap_or(Path::new("."));
    let Ok(entries) = std::fs::read_dir(folder) else { return Vec::new() };
    let is_policy = |path: &std::path::PathBuf| path.extension().is_some_and(|ending| ending == "policy");
    let mut paths: Vec<_> =
        entries.flatten().map(|entry| entry.path()).filter(is_policy).filter(|path| path.is_file()).collect();
    paths.sort_by_key(|path| (path.file_stem() != capture.file_stem(), path.clone()));
    let read = |path: &std::path::PathBuf| {
        let bytes = read_file(path.to_str()?, MOST_BESIDE_BYTES).ok()?;
        Source::read(path, std::str::from_utf8(&bytes).ok()?)
    };
    paths.iter().take(MOST_BESIDE).filter_map(read).collect()
}
