//! `second FILE` replays a capture and prints one line for each call; with --waits also one for
//! each peer that is left. With --places each piece is offered in batches of so many places.
//! `second --convert FILE` converts the images of a conversion file and prints one line for each.

use second::conversions;
use second::replay::{replay, replay_in_batches, replay_with_waits};
use std::io::Write;
use std::process::ExitCode;

const USAGE: &str = "usage: second [--waits | --places COUNT] FILE.capture
       second --convert FILE.conversions
COUNT is 1 to 4096.";

fn main() -> ExitCode {
    let arguments: Vec<String> = std::env::args().skip(1).collect();
    let words: Vec<&str> = arguments.iter().map(String::as_str).collect();
    if let ["--convert", path] = words.as_slice() {
        return convert(path);
    }
    let Some(lines) = lines(&words) else {
        eprintln!("{USAGE}");
        return ExitCode::from(2);
    };
    print(&lines)
}

fn print(lines: &str) -> ExitCode {
    match std::io::stdout().write_all(lines.as_bytes()) {
        Ok(()) => ExitCode::SUCCESS,
        Err(_) => ExitCode::FAILURE,
    }
}

/// A file that is not whole has the lines of its whole conversions, and status 2.
fn convert(path: &str) -> ExitCode {
    let Ok(file) = std::fs::read(path) else {
        eprintln!("{path} cannot be read");
        return ExitCode::from(2);
    };
    match conversions::lines(&file) {
        (lines, true) => print(&lines),
        (lines, false) => {
            print(&lines);
            eprintln!("{path} is broken");
            ExitCode::from(2)
        }
    }
}

/// None where the words are no usage.
fn lines(words: &[&str]) -> Option<String> {
    // A file that cannot be read is like one that is empty: not even its image is there.
    let file = |path: &str| std::fs::read(path).unwrap_or_default();
    match words {
        ["--places", count, path] => {
            let places = count.parse().ok().filter(|places| (1..=4096).contains(places))?;
            Some(replay_in_batches(&file(path), places))
        }
        ["--waits", path] => Some(replay_with_waits(&file(path))),
        [path] => Some(replay(&file(path))),
        _ => None,
    }
}
