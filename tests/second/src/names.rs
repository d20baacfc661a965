//! The name rules of the D-Bus Specification, as the paper states them.

pub const MAX_NAME_LENGTH: usize = 255;
pub const BUS_NAME: &str = "org.freedesktop.DBus";

fn is_interface_byte(byte: u8) -> bool {
    byte.is_ascii_alphanumeric() || byte == b'_'
}

fn is_bus_name_byte(byte: u8) -> bool {
    is_interface_byte(byte) || byte == b'-'
}

fn starts_with_digit(element: &[u8]) -> bool {
    element.first().is_some_and(u8::is_ascii_digit)
}

/// Whether `text` is two or more elements between dots, each of which is good.
fn is_two_or_more(text: &[u8], good: impl Fn(&[u8]) -> bool) -> bool {
    let elements: Vec<&[u8]> = text.split(|&byte| byte == b'.').collect();
    elements.len() >= 2 && elements.into_iter().all(good)
}

fn is_interface_element(element: &[u8]) -> bool {
    !element.is_empty() && !starts_with_digit(element) && element.iter().all(|&b| is_interface_byte(b))
}

fn is_unique_element(element: &[u8]) -> bool {
    !element.is_empty() && element.iter().all(|&b| is_bus_name_byte(b))
}

fn is_well_known_element(element: &[u8]) -> bool {
    is_unique_element(element) && !starts_with_digit(element)
}

pub fn is_interface(text: &[u8]) -> bool {
    text.len() <= MAX_NAME_LENGTH && is_two_or_more(text, is_interface_element)
}

/// Error names have the rules of interfaces.
pub fn is_error_name(text: &[u8]) -> bool {
    is_interface(text)
}

pub fn is_member(text: &[u8]) -> bool {
    text.len() <= MAX_NAME_LENGTH && is_interface_element(text)
}

pub fn is_well_known(text: &[u8]) -> bool {
    text.len() <= MAX_NAME_LENGTH && is_two_or_more(text, is_well_known_element)
}

/// The colon counts towards the 255 bytes.
pub fn is_unique(text: &[u8]) -> bool {
    text.len() <= MAX_NAME_LENGTH
        && text.first() == Some(&b':')
        && is_two_or_more(&text[1..], is_unique_element)
}

/// What may stand as destination or sender.
pub fn is_bus_name(text: &[u8]) -> bool {
    is_well_known(text) || is_unique(text)
}

/// A path has no length limit of its own.
pub fn is_path(text: &[u8]) -> bool {
    match text {
        b"/" => true,
        [b'/', rest @ ..] => rest
            .split(|&byte| byte == b'/')
            .all(|element| !element.is_empty() && element.iter().all(|&b| is_interface_byte(b))),
        _ => false,
    }
}

/// The unique name of peer `number`.
pub fn unique_name_of(number: u32) -> String {
    format!(":1.{number}")
}
