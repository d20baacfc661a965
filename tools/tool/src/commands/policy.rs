//! The command `policy`: texts to images and back, rules that never decide, and questions.

use super::retire;
use crate::cli::{read_file, read_text, write_file, Done, Fault, Out, Words, MOST_TEXT};
use crate::policy::lint::{lint, Finding};
use crate::policy::{ask, question};
use forms::policy_text::PolicyText;
use forms::{image, policy_text};

pub const HELP: &str = "\
usage: aygeshunt policy compile FILE.policy OUT.image
       aygeshunt policy show FILE.image
       aygeshunt policy lint FILE.policy..
       aygeshunt policy ask FILE.policy QUESTION..
       aygeshunt policy retire OLD NAMES NEW

A policy is a text with one rule on a line; an image is what the guard is lent. A FILE of - is standard input, an OUT of -
standard output. Faults of a text are told as FILE:LINE: what, with status 1.

compile  writes the image of a policy.

           aygeshunt policy compile examples/theatre/theatre.policy /tmp/theatre.image

show     writes the rules of an image, so that compiling them gives the same rules. A bad image, which the guard answers
         with 50, is refused with what it breaks and where.

           aygeshunt policy show /tmp/theatre.image

lint     tells every fault of a text, and every rule that never decides because one of higher precedence matches whatever
         it matches. Mandatory rules go before those for a user, these before those for a group, and default rules come
         last; within one context the later rule goes first. Status 1 where anything was found.

           aygeshunt policy lint examples/theatre/theatre.policy

ask      answers a question with the proved guard and says which rule decides. The status is 0 whatever the answer is.

           uid N [gid N ..] connect
           uid N [gid N ..] own NAME
           uid N [gid N ..] [owning NAME ..] send call|signal [INTERFACE.]MEMBER [at PATH] to WHOM [of uid N [gid N ..]]
           uid N [gid N ..] [owning NAME ..] receive call|signal [INTERFACE.]MEMBER [at PATH] from WHOM [of uid N [gid N ..]]

         WHOM is every name that the other side owns, for all of them count and not only the one that is addressed; or
         nobody where it owns none; or, of send, the bus. A MEMBER alone is a call without an interface. Without \"at\" the
         path is /. Without \"of\" only one side is asked about; with it both, and what the guard answers in all. A signal to
         everybody reaches a peer where a signal to that peer alone would pass. The question may begin with \"may\" and end
         with a question mark.

           aygeshunt policy ask examples/theatre/theatre.policy 'may uid 7 send call org.a.B.Stop to org.theatre.Fans?'
           aygeshunt policy ask examples/theatre/theatre.policy uid 1003 gid 30 connect
           aygeshunt policy ask examples/theatre/theatre.policy uid 1003 gid 30 send call org.theatre.Fans.GetSpeed \\
             at /org/theatre/Fans to org.theatre.Fans of uid 1002 gid 20 7

retire   makes of a policy with own rules for prefixes one without: each such rule becomes an exact rule for every name of the
         list that it covers, in its place. OLD is a text or an image, and NEW gets the same form; of a text all other lines stay. NEW may be OLD. NAMES is a text with a well-known name on each line, and # begins
         a comment: every name that a service may own. The proved library converts. What became of each own rule is told, and
         which names no prefix covers; on standard error where NEW is -. A refusal has status 1 and writes nothing:

           50  OLD is a bad image
           54  a line of NAMES is no well-known name, or says one again
           53  more than 256 own rules or 65536 bytes would result

           aygeshunt policy retire old.policy services.names new.policy
           aygeshunt policy retire stored.image services.names stored.image

tools/README.md describes policies as text, docs/ANSWERS.md the answers.
";

pub fn run(words: &[String], out: &mut Out) -> Done {
    let words = Words::parse(words, &[], &[])?.rest;
    let (word, rest) = match words.split_first() {
        Some((word, rest)) => (word.as_str(), rest),
        None => ("", words.as_slice()),
    };
    match (word, rest) {
        ("compile", [from, to]) => compile(from, to),
        ("show", [from]) => show(from, out),
        ("lint", [_, ..]) => lint_all(rest, out),
        ("ask", [from, question @ ..]) => answer(from, question, out),
        ("retire", [old, names, new]) => retire::run(old, names, new, out),
        ("compile", _) => Err(Fault::usage("policy compile wants FILE.policy and OUT.image")),
        ("show", _) => Err(Fault::usage("policy show wants one FILE.image")),
        ("lint", _) => Err(Fault::usage("policy lint wants at least one FILE.policy")),
        ("ask", _) => Err(Fault::usage("policy ask wants FILE.policy and a question")),
        ("retire", _) => Err(Fault::usage("policy retire wants OLD, NAMES and NEW")),
        _ => Err(Fault::usage("policy wants the word compile, show, lint, ask or retire")),
    }
}

fn parsed(from: &str) -> Result<PolicyText, Fault> {
    policy_text::parse(&read_text(from)?)
        .map_err(|fault| Fault::input(format!("{from}:{}: {}", fault.line, fault.what)))
}

fn compile(from: &str, to: &str) -> Done {
    let image =
        image::write(&parsed(from)?.policy).map_err(|what| Fault::input(format!("{from}: {what}")))?;
    write_file(to, &image)
}

fn show(from: &str, out: &mut Out) -> Done {
    let policy = image::read(&read_file(from, MOST_TEXT)?)
        .map_err(|breach| Fault::input(format!("{from}: bad image: {breach}")))?;
    out.text(&policy_text::show(&policy))
}

/// Every file is told about; one that cannot be read ends it.
fn lint_all(files: &[String], out: &mut Out) -> Done {
    let mut count = 0;
    for file in files {
        let linted = lint(&read_text(file)?);
        for Finding { line, what } in &linted.findings {
            match line {
                Some(line) => out.line(&format!("{file}:{line}: {what}"))?,
                None => out.line(&format!("{file}: {what}"))?,
            }
        }
        if linted.findings.is_empty() {
            out.line(&format!("{file}: {} rules, each can decide; no fault", linted.rules))?;
        }
        count += linted.findings.len();
    }
    match count {
        0 => Ok(()),
        1 => Err(Fault::input("1 finding")),
        count => Err(Fault::input(format!("{count} findings"))),
    }
}

fn answer(from: &str, words: &[String], out: &mut Out) -> Done {
    let question = question::parse(words).map_err(Fault::usage)?;
    for line in ask::ask(from, &parsed(from)?, &question)? {
        out.line(&line)?;
    }
    Ok(())
}
