//! What all commands share: options, faults with their status, files that are read with a limit, and output that may fail.

use std::io::{IsTerminal, Read, Write};

/// Why a command ended before its end. It is told on standard error.
#[derive(Clone, Debug, PartialEq, Eq)]
pub struct Fault {
    pub status: u8,
    pub message: String,
}

impl Fault {
    /// What was given cannot be read, or what was made cannot be written: status 1.
    pub fn input(message: impl Into<String>) -> Fault {
        Fault { status: 1, message: message.into() }
    }

    /// The command was used in a way that it has not: status 2.
    pub fn usage(message: impl Into<String>) -> Fault {
        Fault { status: 2, message: message.into() }
    }
}

pub type Done = Result<(), Fault>;

/// The longest capture or recording: calls take some four times as much memory.
pub const MOST_CAPTURE: u64 = 1 << 28;

/// The longest policy, image or script.
pub const MOST_TEXT: u64 = 1 << 26;

/// A whole file, whose size is looked at before memory is taken. `-` is standard input.
pub fn read_file(path: &str, most: u64) -> Result<Vec<u8>, Fault> {
    let told = |fault: std::io::Error| Fault::input(format!("{path}: {fault}"));
    let too_long =
        || Fault::input(format!("{path}: longer than {most} bytes, which is the most that is read"));
    let mut bytes = Vec::new();
    if path == "-" {
        std::io::stdin().lock().take(most + 1).read_to_end(&mut bytes).map_err(told)?;
    } else {
        let file = std::fs::File::open(path).map_err(told)?;
        let about = file.metadata().map_err(told)?;
        if about.is_dir() {
            return Err(Fault::input(format!("{path}: a folder, not a file")));
        }
        if about.len() > most {
            return Err(too_long());
        }
        // What is no plain file says no size, so what is read is limited too.
        file.take(most + 1).read_to_end(&mut bytes).map_err(told)?;
    }
    match bytes.len() as u64 > most {
        true => Err(too_long()),
        false => Ok(bytes),
    }
}

/// A text file; one that is no UTF-8 is refused with the line of the first such byte.
pub fn read_text(path: &str) -> Result<String, Fault> {
    text_of(path, read_file(path, MOST_TEXT)?)
}

/// The text that a file's bytes are.
pub fn text_of(path: &str, bytes: Vec<u8>) -> Result<String, Fault> {
    String::from_utf8(bytes).map_err(|fault| {
        let good = fault.utf8_error().valid_up_to();
        let line = fault.as_bytes()[..good].iter().filter(|&&byte| byte == b'\n').count() + 1;
        Fault::input(format!("{path}:{line}: this is no text"))
    })
}

/// Says on standard error what a person has to know beside the output; where that is closed, the output is there all the same.
pub fn say(lines: &str) {
    let _ = writeln!(std::io::stderr(), "{lines}");
}

/// Writes a file that was asked for.
pub fn write_file(path: &str, bytes: &[u8]) -> Done {
    let told = |fault: std::io::Error| Fault::input(format!("{path}: {fault}"));
    if path == "-" {
        let mut out = std::io::stdout().lock();
        return out.write_all(bytes).and_then(|()| out.flush()).map_err(told);
    }
    std::fs::write(path, bytes).map_err(told)
}

/// How text is shown.
#[derive(Clone, Copy, Debug)]
pub struct Style {
    /// Only on a terminal, and not where NO_COLOR is set.
    pub colour: bool,
    /// Columns of a line.
    pub width: usize,
}

impl Style {
    /// Without colour, and wide enough for the pictures.
    pub const PLAIN: Style = Style { colour: false, width: 100 };

    pub fn of_stdout() -> Style {
        let is_terminal = std::io::stdout().is_terminal();
        let wanted = std::env::var("COLUMNS").ok().and_then(|columns| columns.parse().ok());
        let width = if is_terminal { wanted.unwrap_or(Style::PLAIN.width) } else { Style::PLAIN.width };
        let colour = is_terminal && std::env::var_os("NO_COLOR").is_none_or(|set| set.is_empty());
        Style { colour, width: width.clamp(60, 400) }
    }

    fn painted(&self, code: &str, text: &str) -> String {
        match self.colour {
            true => format!("\x1b[{code}m{text}\x1b[0m"),
            false => text.to_string(),
        }
    }

    pub fn bold(&self, text: &str) -> String {
        self.painted("1", text)
    }

    pub fn red(&self, text: &str) -> String {
        self.painted("31", text)
    }

    pub fn green(&self, text: &str) -> String {
        self.painted("32", text)
    }

    pub fn faint(&self, text: &str) -> String {
        self.painted("2", text)
    }
}

/// Standard output. The first failure ends the command with a message.
pub struct Out {
    to: std::io::BufWriter<std::io::Stdout>,
    pub style: Style,
}

impl Out {
    pub fn stdout() -> Out {
        Out { to: std::io::BufWriter::with_capacity(1 << 16, std::io::stdout()), style: Style::of_stdout() }
    }

    pub fn text(&mut self, text: &str) -> Done {
        self.to.write_all(text.as_bytes()).map_err(told)
    }

    pub fn line(&mut self, line: &str) -> Done {
        self.text(line)?;
        self.text("\n")
    }

    pub fn flush(&mut self) -> Done {
        self.to.flush().map_err(told)
    }
}

fn told(fault: std::io::Error) -> Fault {
    Fault::input(format!("standard output: {fault}"))
}

/// The words behind a command: its options, each with its value where it has one, and what is left.
#[derive(Debug, Default)]
pub struct Words {
    given: Vec<(String, String)>,
    pub rest: Vec<String>,
}

impl Words {
    /// `flags` stand alone, `values` take the next word or what follows `=`. Behind `--` nothing is an option.
    pub fn parse(words: &[String], flags: &[&str], values: &[&str]) -> Result<Words, Fault> {
        let mut parsed = Words::default();
        let mut words = words.iter();
        while let Some(word) = words.next() {
            let (name, value) = match word.split_once('=') {
                Some((name, value)) if word.starts_with("--") => (name, Some(value.to_string())),
                _ => (word.as_str(), None),
            };
            if word == "--" {
                parsed.rest.extend(words.by_ref().cloned());
            } else if flags.contains(&name) && value.is_none() {
                parsed.given.push((name.to_string(), String::new()));
            } else if values.contains(&name) {
                let value = value.or_else(|| words.next().cloned());
                let value = value.ok_or_else(|| Fault::usage(format!("{name} wants a value")))?;
                parsed.given.push((name.to_string(), value));
            } else if word.starts_with('-') && word != "-" {
                return Err(Fault::usage(format!("there is no option {}", forms::policy_text::named(word))));
            } else {
                parsed.rest.push(word.clone());
            }
        }
        Ok(parsed)
    }

    pub fn has(&self, flag: &str) -> bool {
        self.given.iter().any(|(name, _)| name == flag)
    }

    /// The value of an option, the last one where it is given twice.
    pub fn value(&self, option: &str) -> Option<&str> {
        self.given.iter().rev().find(|(name, _)| name == option).map(|(_, value)| value.as_str())
    }

    pub fn number(&self, option: &str) -> Result<Option<u32>, Fault> {
        let Some(value) = self.value(option) else { return Ok(None) };
        let wrong =
            || Fault::usage(format!("{option} wants a number, not {}", forms::policy_text::named(value)));
        value.parse().map(Some).map_err(|_| wrong())
    }
}
