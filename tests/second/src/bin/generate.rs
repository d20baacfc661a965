//! `generate SEED CALLS OUT.capture [MODE]`: seeded captures, and seeded conversion files.

use second::generate::{conversions, generate, generate_pair, Mode};
use std::process::ExitCode;

const USAGE: &str = "usage: generate SEED CALLS OUT.capture [mixed|full|image|layout|batches|split]
       generate SEED COUNT OUT.conversions conversions
Mode split writes OUT.whole.capture and OUT.split.capture.";

fn main() -> ExitCode {
    let arguments: Vec<String> = std::env::args().skip(1).collect();
    let words: Vec<&str> = arguments.iter().map(String::as_str).collect();
    let done = match words.as_slice() {
        [seed, calls, out] => write(seed, calls, out, "mixed"),
        [seed, calls, out, mode] => write(seed, calls, out, mode),
        _ => Err(USAGE.to_string()),
    };
    match done {
        Ok(()) => ExitCode::SUCCESS,
        Err(what) => {
            eprintln!("{what}");
            ExitCode::FAILURE
        }
    }
}

fn write(seed: &str, calls: &str, out: &str, mode: &str) -> Result<(), String> {
    let seed: u64 = seed.parse().map_err(|_| format!("{seed} is no seed"))?;
    let calls: usize = calls.parse().map_err(|_| format!("{calls} is no count of calls"))?;
    let save =
        |path: &str, file: Vec<u8>| std::fs::write(path, file).map_err(|fault| format!("{path}: {fault}"));
    if mode == "split" {
        let stem = out.strip_suffix(".capture").unwrap_or(out);
        let (whole, split) = generate_pair(seed, calls);
        save(&format!("{stem}.whole.capture"), whole)?;
        return save(&format!("{stem}.split.capture"), split);
    }
    if mode == "conversions" {
        return save(out, conversions::generate(seed, calls));
    }
    let mode = Mode::of_word(mode).ok_or_else(|| USAGE.to_string())?;
    save(out, generate(seed, calls, mode))
}
