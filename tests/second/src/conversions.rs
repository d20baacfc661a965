//! Conversion files: images to convert, each with a list of names and the length of a lent room.

use crate::convert::retire;
use crate::wire::ByteOrder;
use std::fmt::Write;

/// What each byte of a lent room holds before the call.
pub const FILLING: u8 = 0xa5;

#[derive(Clone, Debug, Default, PartialEq, Eq)]
pub struct Conversion {
    pub image: Vec<u8>,
    pub list: Vec<u8>,
    pub room: u32,
}

fn take<'a>(file: &mut &'a [u8], length: usize) -> Option<&'a [u8]> {
    let taken = file.get(..length)?;
    *file = &file[length..];
    Some(taken)
}

fn take_u32(file: &mut &[u8]) -> Option<u32> {
    take(file, 4).map(|four| ByteOrder::Little.read_u32(four, 0))
}

fn take_bytes(file: &mut &[u8]) -> Option<Vec<u8>> {
    let length = take_u32(file)? as usize;
    take(file, length).map(<[u8]>::to_vec)
}

fn take_conversion(file: &mut &[u8]) -> Option<Conversion> {
    let (image, list, room) = (take_bytes(file)?, take_bytes(file)?, take_u32(file)?);
    Some(Conversion { image, list, room })
}

/// The conversions before the first that is cut, and whether all are whole.
pub fn read(mut file: &[u8]) -> (Vec<Conversion>, bool) {
    let mut conversions = Vec::new();
    while !file.is_empty() {
        match take_conversion(&mut file) {
            Some(conversion) => conversions.push(conversion),
            None => return (conversions, false),
        }
    }
    (conversions, true)
}

pub fn write(conversions: &[Conversion]) -> Vec<u8> {
    let mut file = Vec::new();
    for conversion in conversions {
        for bytes in [&conversion.image, &conversion.list] {
            file.extend((bytes.len() as u32).to_le_bytes());
            file.extend(bytes);
        }
        file.extend(conversion.room.to_le_bytes());
    }
    file
}

/// One line for each conversion that is whole: its number, answer and length, and the whole room
/// behind the call. Beside them, whether the file is whole.
pub fn lines(file: &[u8]) -> (String, bool) {
    let (conversions, is_whole) = read(file);
    let mut lines = String::new();
    for (number, conversion) in conversions.iter().enumerate() {
        let mut room = vec![FILLING; conversion.room as usize];
        let converted = retire(&conversion.image, &conversion.list, &mut room);
        let (answer, length) = (converted.answer.number(), converted.length);
        lines += &format!("{number} {answer} {length} {}\n", hex(&room));
    }
    (lines, is_whole)
}

fn hex(bytes: &[u8]) -> String {
    if bytes.is_empty() {
        return "-".to_string();
    }
    let mut text = String::with_capacity(2 * bytes.len());
    for byte in bytes {
        // Writing into a string does not fail.
        let _ = write!(text, "{byte:02x}");
    }
    text
}
