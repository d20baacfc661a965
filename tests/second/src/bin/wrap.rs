//! `wrap FILE.msg OUT.msg`: a call with the body of a recorded message in an unknown header field.
//! The exit status is 1 where the message has no body that can stand there.

use second::wrap::wrap;
use std::process::ExitCode;

const USAGE: &str = "usage: wrap FILE.msg OUT.msg";

fn main() -> ExitCode {
    let arguments: Vec<String> = std::env::args().skip(1).collect();
    let [from, to] = arguments.as_slice() else {
        eprintln!("{USAGE}");
        return ExitCode::from(2);
    };
    match write(from, to) {
        Ok(true) => ExitCode::SUCCESS,
        Ok(false) => ExitCode::from(1),
        Err(fault) => {
            eprintln!("{from}: {fault}");
            ExitCode::from(2)
        }
    }
}

fn write(from: &str, to: &str) -> std::io::Result<bool> {
    match wrap(&std::fs::read(from)?) {
        Some(wrapped) => std::fs::write(to, wrapped).map(|()| true),
        None => Ok(false),
    }
}
