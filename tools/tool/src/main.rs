//! `aygeshunt COMMAND ..`: why was it dropped?

use std::process::ExitCode;
use tool::cli::Out;
use tool::commands;

fn main() -> ExitCode {
    let words: Vec<String> =
        std::env::args_os().skip(1).map(|word| word.to_string_lossy().into_owned()).collect();
    let mut out = Out::stdout();
    let done = commands::run(&words, &mut out).and(Ok(())).and_then(|()| out.flush());
    match done {
        Ok(()) => ExitCode::SUCCESS,
        Err(fault) => {
            // What was said before the fault comes first. If standard error is closed too, the status says it alone.
            let _ = out.flush();
            use std::io::Write;
            let _ = writeln!(std::io::stderr(), "aygeshunt: {}", fault.message);
            ExitCode::from(fault.status)
        }
    }
}
