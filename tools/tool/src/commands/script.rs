//! The command `script`: the text of captures, to captures and back.

use crate::cli::{read_file, read_text, write_file, Done, Fault, Out, Words, MOST_CAPTURE};
use crate::script_show;
use forms::{capture, script};
use std::path::Path;

pub const HELP: &str = "\
usage: aygeshunt script compile FILE.script OUT.capture
       aygeshunt script show FILE.capture

A script is a capture as text: a policy, and the calls that are made on the guard, one on a line. A FILE of - is standard
input, an OUT of - standard output.

compile  writes the capture of a script. Files that the script names count from its folder. A fault is told as
         FILE:LINE: what, with status 1.

           aygeshunt script compile examples/theatre/theatre.script /tmp/theatre.capture

show     writes a script that compiles to the same capture, so that a long one can be cut down to the calls that matter.
         Rules and whole messages are in words where the words give the very same bytes, else in hex digits. Behind each
         call the guard's own answer stands as a comment:

           start ANSWER
           connect ANSWER NUMBER SLOT SHOWN POSITION
           own ANSWER SHOWN POSITION
           release ANSWER
           piece ANSWER TAKEN KIND VALUE COUNT SHOWN POSITION
           disconnect ANSWER BYTES
           tick ANSWER COUNT

         Of a capture whose layout is broken the calls before the fault are shown, then where it is, with status 1.

           aygeshunt script show examples/theatre/theatre.capture
           aygeshunt script show recorded.capture > recorded.script

tools/README.md describes scripts and captures, docs/ANSWERS.md the answers.
";

pub fn run(words: &[String], out: &mut Out) -> Done {
    let words = Words::parse(words, &[], &[])?;
    let words: Vec<&str> = words.rest.iter().map(String::as_str).collect();
    match words.as_slice() {
        ["compile", from, to] => compile(from, to),
        ["show", from] => show(from, out),
        ["compile", ..] => Err(Fault::usage("script compile wants FILE.script and OUT.capture")),
        ["show", ..] => Err(Fault::usage("script show wants one FILE.capture")),
        _ => Err(Fault::usage("script wants the word compile or show")),
    }
}

fn compile(from: &str, to: &str) -> Done {
    // A file that is called - in a script is a file, so no path is ever that word alone.
    let folder = Path::new(from).parent().filter(|folder| folder.as_os_str() != "").unwrap_or(Path::new("."));
    let files = |path: &Path| {
        let path = folder.join(path);
        read_file(&path.to_string_lossy(), MOST_CAPTURE).map_err(|fault| fault.message)
    };
    let text = read_text(from)?;
    let compiled = script::parse(&text, &files)
        .map_err(|fault| Fault::input(format!("{from}:{}: {}", fault.line, fault.what)))?;
    write_file(to, &capture::write(&compiled))
}

fn show(from: &str, out: &mut Out) -> Done {
    let reading = capture::read(&read_file(from, MOST_CAPTURE)?);
    script_show::show(&reading, &mut |lines| out.text(lines))?;
    match reading.fault {
        Some(fault) => Err(Fault::input(format!("{from}: {fault}"))),
        None => Ok(()),
    }
}
