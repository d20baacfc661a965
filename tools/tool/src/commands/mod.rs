//! The commands, one to a file: what each says for --help, and what it does.

use crate::cli::{Done, Fault, Out};

pub mod check;
pub mod compare;
pub mod explain;
pub mod head;
pub mod import;
pub mod policy;
mod retire;
pub mod script;

/// A command: its name, what it is for in a line, its help, and what it does.
struct Command {
    name: &'static str,
    about: &'static str,
    help: &'static str,
    run: fn(&[String], &mut Out) -> Done,
}

const COMMANDS: [Command; 7] = [
    Command {
        name: "explain",
        about: "each call of a capture in a sentence: who, what, the answer, and why",
        help: explain::HELP,
        run: explain::run,
    },
    Command {
        name: "head",
        about: "one message head drawn, without a guard",
        help: head::HELP,
        run: head::run,
    },
    Command {
        name: "policy",
        about: "policies: text to image and back, rules that never decide, questions",
        help: policy::HELP,
        run: policy::run,
    },
    Command {
        name: "script",
        about: "the text of captures, to captures and back",
        help: script::HELP,
        run: script::run,
    },
    Command {
        name: "import",
        about: "recorded traffic of a real bus (pcap) as a capture",
        help: import::HELP,
        run: import::run,
    },
    Command {
        name: "compare",
        about: "which messages of a capture would be judged otherwise by another policy",
        help: compare::HELP,
        run: compare::run,
    },
    Command {
        name: "check",
        about: "holds this tool's own reading of captures to the guard's answers",
        help: check::HELP,
        run: check::run,
    },
];

/// The script `tools/busconfig` is started by `aygeshunt` itself and listed here only.
const BUSCONFIG: (&str, &str) = ("busconfig", "policy files of dbus-daemon as a policy of ours");

pub fn help() -> String {
    let mut text = "usage: aygeshunt COMMAND ..\n\nSays why the guard dropped a message. Every answer is the proved guard's own.\n\n".to_string();
    for (name, about) in COMMANDS.iter().map(|command| (command.name, command.about)).chain([BUSCONFIG]) {
        text += &format!("  {name:<10} {about}\n");
    }
    text + "
aygeshunt COMMAND --help says more, with examples. For example:

  aygeshunt explain examples/theatre/theatre.capture --dropped

Status: 0 done, 1 something could not be read or written, 2 wrong use, 3 this tool reads a message otherwise than the guard.
"
}

/// Runs the command that the words name.
pub fn run(words: &[String], out: &mut Out) -> Done {
    let is_help = |word: &String| word == "--help" || word == "-h" || word == "help";
    let Some((name, rest)) = words.split_first() else {
        return Err(Fault::usage("a command is missing; aygeshunt --help lists them"));
    };
    if is_help(name) {
        return match rest.first().and_then(|name| COMMANDS.iter().find(|command| command.name == name)) {
            Some(command) => out.text(command.help),
            None => out.text(&help()),
        };
    }
    let Some(command) = COMMANDS.iter().find(|command| command.name == name) else {
        let name = forms::policy_text::named(name);
        return Err(Fault::usage(format!("there is no command {name}; aygeshunt --help lists them")));
    };
    let before_end = rest.iter().take_while(|word| *word != "--");
    if before_end.clone().any(|word| word == "--help" || word == "-h") {
        return out.text(command.help);
    }
    (command.run)(rest, out).map_err(|fault| match fault.status {
        2 => Fault::usage(format!("{}; aygeshunt {name} --help says how it is used", fault.message)),
        _ => fault,
    })
}
