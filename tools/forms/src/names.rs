//! The name rules, with the byte at which a text breaks its rule.

/// What a text should be.
#[derive(Clone, Copy, Debug, PartialEq, Eq)]
pub enum Form {
    /// Interface names; error names have the same form.
    Interface,
    WellKnown,
    Unique,
    /// A well-known or a unique name.
    Bus,
    Member,
    Path,
}

/// Where a text breaks its rule, and what was wanted there.
#[derive(Clone, Debug, PartialEq, Eq)]
pub struct NameFault {
    pub at: usize,
    pub wanted: String,
}

/// The most bytes of a name. Object paths have no limit of their own.
const NAME_LIMIT: usize = 255;

/// What the forms differ in.
struct Shape {
    /// The byte in front of the first element.
    lead: Option<u8>,
    /// The byte between two elements.
    separator: Option<u8>,
    has_dash: bool,
    may_begin_with_digit: bool,
    least_elements: usize,
    most_bytes: usize,
}

impl Shape {
    /// A bus name is a unique name exactly where it begins with a colon.
    fn of(form: Form, text: &[u8]) -> Shape {
        let interface = Shape {
            lead: None,
            separator: Some(b'.'),
            has_dash: false,
            may_begin_with_digit: false,
            least_elements: 2,
            most_bytes: NAME_LIMIT,
        };
        match form {
            Form::Interface => interface,
            Form::Member => Shape { separator: None, least_elements: 1, ..interface },
            Form::Bus if text.first() == Some(&b':') => Shape::of(Form::Unique, text),
            Form::WellKnown | Form::Bus => Shape { has_dash: true, ..interface },
            Form::Unique => {
                Shape { lead: Some(b':'), has_dash: true, may_begin_with_digit: true, ..interface }
            }
            Form::Path => Shape {
                lead: Some(b'/'),
                separator: Some(b'/'),
                may_begin_with_digit: true,
                least_elements: 1,
                most_bytes: usize::MAX,
                ..interface
            },
        }
    }

    fn has(&self, byte: u8, at_start: bool) -> bool {
        match byte {
            b'0'..=b'9' => !at_start || self.may_begin_with_digit,
            b'-' => self.has_dash,
            byte => byte.is_ascii_alphabetic() || byte == b'_',
        }
    }

    /// What may stand at a place, in words.
    fn wanted(&self, at_start: bool) -> String {
        let mut words = vec!["a letter"];
        if self.has(b'0', at_start) {
            words.push("a digit");
        }
        words.push("_");
        if self.has_dash {
            words.push("-");
        }
        match self.separator {
            Some(b'.') if !at_start => words.push("a dot"),
            Some(_) if !at_start => words.push("/"),
            _ => {}
        }
        let last = words.pop().unwrap_or_default();
        format!("{} or {last}", words.join(", "))
    }
}

/// The first byte at which a text breaks its rule; its length where only more bytes could mend it.
pub fn fault(form: Form, text: &[u8]) -> Option<NameFault> {
    let shape = Shape::of(form, text);
    let breach = |at, wanted: &str| Some(NameFault { at, wanted: wanted.to_string() });
    if let Some(lead) = shape.lead {
        match text {
            [first, ..] if *first == lead => {}
            _ => return breach(0, &format!("{} at the start", char::from(lead))),
        }
    }
    if form == Form::Path && text == b"/" {
        return None;
    }
    let (mut at_start, mut elements) = (true, 1);
    for (at, &byte) in text.iter().enumerate().skip(usize::from(shape.lead.is_some())) {
        if at == shape.most_bytes {
            return breach(at, "at most 255 bytes");
        }
        let is_separator = !at_start && Some(byte) == shape.separator;
        if !is_separator && !shape.has(byte, at_start) {
            return breach(at, &wanted_for(form, &shape, byte, at, at_start));
        }
        elements += usize::from(is_separator);
        at_start = is_separator;
    }
    match at_start {
        true => breach(text.len(), &wanted_at_end(form, &shape, text)),
        false if elements < shape.least_elements => breach(text.len(), "two elements at least"),
        false => None,
    }
}

fn wanted_for(form: Form, shape: &Shape, byte: u8, at: usize, at_start: bool) -> String {
    match byte {
        b'0'..=b'9' => "no digit at the start of an element".to_string(),
        _ if form == Form::Bus && at == 0 => "a letter, _, - or :".to_string(),
        _ => shape.wanted(at_start),
    }
}

/// The text ends where an element should begin.
fn wanted_at_end(form: Form, shape: &Shape, text: &[u8]) -> String {
    match text.last() {
        Some(b'.') => "another element behind the dot".to_string(),
        Some(b'/') => "another element behind the /".to_string(),
        None if form == Form::Bus => "a letter, _, - or :".to_string(),
        _ => shape.wanted(true),
    }
}

pub fn is(form: Form, text: &[u8]) -> bool {
    fault(form, text).is_none()
}

/// Whether a name is the prefix, or begins with the prefix and a dot.
pub fn is_under(name: &str, prefix: &str) -> bool {
    name.strip_prefix(prefix).is_some_and(|rest| rest.is_empty() || rest.starts_with('.'))
}
