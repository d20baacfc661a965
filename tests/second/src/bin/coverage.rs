//! `coverage [--all] FILE... [--places FILE...]`: counts the answers that captures reach, and by
//! which call; for those behind --places also what batches come to. With --all it fails where an
//! answer or one of the cases was never met. `coverage --conversions FILE...` counts what conversions
//! come to, and fails where one of their cases was never met.

use second::conversion_cases::ConversionCoverage;
use second::coverage::Coverage;
use std::io::Write;
use std::process::ExitCode;

fn main() -> ExitCode {
    let mut files: Vec<String> = std::env::args().skip(1).collect();
    if files.first().is_some_and(|first| first == "--conversions") {
        return of_conversions(&files[1..]);
    }
    let wants_all = files.first().is_some_and(|first| first == "--all");
    if wants_all {
        files.remove(0);
    }
    let mut coverage = Coverage::default();
    let mut in_batches = false;
    for path in &files {
        if path == "--places" {
            in_batches = true;
            continue;
        }
        match std::fs::read(path) {
            Ok(file) => {
                coverage.add(&file);
                if in_batches {
                    coverage.add_batches(&file);
                }
            }
            Err(fault) => {
                eprintln!("{path}: {fault}");
                return ExitCode::FAILURE;
            }
        }
    }
    let never = coverage.never();
    tell(coverage.report(), &never, wants_all)
}

fn of_conversions(files: &[String]) -> ExitCode {
    let mut coverage = ConversionCoverage::default();
    for path in files {
        if !std::fs::read(path).is_ok_and(|file| coverage.add(&file)) {
            eprintln!("{path} is no whole conversion file");
            return ExitCode::FAILURE;
        }
    }
    tell(coverage.report(), &coverage.never(), true)
}

/// Prints the report with what was never met, which is a failure where all is wanted.
fn tell(mut report: String, never: &[impl std::fmt::Display], wants_all: bool) -> ExitCode {
    for what in never {
        report += &format!("never: {what}\n");
    }
    if std::io::stdout().write_all(report.as_bytes()).is_err() {
        return ExitCode::FAILURE;
    }
    match wants_all && !never.is_empty() {
        true => ExitCode::FAILURE,
        false => ExitCode::SUCCESS,
    }
}
