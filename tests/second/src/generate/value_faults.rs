//! Unknown header fields with a single fault, in every way that the walk through a value knows.

use super::random::Random;
use super::{unknown, values, vocabulary};
use crate::message::{Field, FieldValue, Message};
use crate::typed::{Site, Typed, Writer};
use crate::value::MAX_OPEN;
use crate::wire::ByteOrder;

#[derive(Clone, Copy, Debug, PartialEq, Eq)]
pub enum Fault {
    Padding,
    NoZeroAfterSignature,
    NoZeroAfterText,
    ZeroInText,
    Overlong,
    Surrogate,
    AboveUnicode,
    CutSequence,
    StrayByte,
    Path,
    SignatureValue,
    Boolean,
    /// An array that says a little less than its elements have.
    ArrayShort,
    /// An array that says a little more.
    ArrayLong,
    /// A text or array that says far more than there is.
    HugeLength,
    /// An array without elements, and without the padding in front of them.
    NoPaddingBeforeNothing,
    NoType,
    SeveralTypes,
    NotASignature,
    TooManyOpen,
    /// The array ends before the value does.
    CutValue,
}

impl Fault {
    pub const ALL: [Fault; 21] = [
        Fault::Padding,
        Fault::NoZeroAfterSignature,
        Fault::NoZeroAfterText,
        Fault::ZeroInText,
        Fault::Overlong,
        Fault::Surrogate,
        Fault::AboveUnicode,
        Fault::CutSequence,
        Fault::StrayByte,
        Fault::Path,
        Fault::SignatureValue,
        Fault::Boolean,
        Fault::ArrayShort,
        Fault::ArrayLong,
        Fault::HugeLength,
        Fault::NoPaddingBeforeNothing,
        Fault::NoType,
        Fault::SeveralTypes,
        Fault::NotASignature,
        Fault::TooManyOpen,
        Fault::CutValue,
    ];

    /// What makes these a fault is that nothing follows.
    fn stands_last(self) -> bool {
        matches!(self, Fault::NoPaddingBeforeNothing | Fault::CutValue)
    }

    /// Whether the written value is broken at such a place.
    fn is_made_at(self, site: &Site) -> bool {
        match site {
            Site::Padding { .. } => self == Fault::Padding,
            Site::SignatureEnd { .. } => self == Fault::NoZeroAfterSignature,
            Site::TextEnd { .. } => self == Fault::NoZeroAfterText,
            Site::TextLength { .. } => self == Fault::HugeLength,
            Site::ArrayLength { .. } => {
                matches!(self, Fault::HugeLength | Fault::ArrayShort | Fault::ArrayLong)
            }
        }
    }

    /// Whether the value had the fault before it was written.
    fn is_in_the_value(self) -> bool {
        use Fault::*;
        !matches!(
            self,
            Padding | NoZeroAfterSignature | NoZeroAfterText | ArrayShort | ArrayLong | HugeLength
        )
    }
}

/// The message with one unknown field more, which has a fault. Where such a field would make the
/// array too long, others are tried, and a message that has no room stays as it is.
pub fn with_fault(random: &mut Random, message: &Message) -> Message {
    for _ in 0..10 {
        let fault = random.pick(&Fault::ALL);
        let rest = broken(random, message.order, fault);
        let mut longer = message.clone();
        let last = longer.fields.len();
        let place = if fault.stands_last() { last } else { random.between(0, last) };
        let field = Field { code: unknown::code(random), letter: 0, value: FieldValue::Raw(rest) };
        longer.fields.insert(place, field);
        if unknown::fits(&longer) {
            return longer;
        }
    }
    message.clone()
}

/// The bytes behind the code of a field with that fault.
pub fn broken(random: &mut Random, order: ByteOrder, fault: Fault) -> Vec<u8> {
    loop {
        let variant = variant(random, fault);
        let mut writer = Writer::field(order, 0, &variant);
        if break_site(random, &mut writer, fault) {
            return writer.bytes.split_off(1);
        }
    }
}

/// A value that has the fault, or that has a place for it.
fn variant(random: &mut Random, fault: Fault) -> Typed {
    match fault {
        Fault::TooManyOpen => {
            let open = MAX_OPEN + random.pick(&[1, 1, 1, 1, 2, 9]);
            values::deep(random, open)
        }
        Fault::NoType | Fault::SeveralTypes | Fault::NotASignature => {
            let odd = odd_variant(random, fault);
            if random.chance(50) {
                return odd;
            }
            Typed::variant(wrapped(random, odd))
        }
        Fault::NoPaddingBeforeNothing => Typed::variant(ends_with_nothing(random)),
        _ => {
            let leaf = leaf(random, fault);
            Typed::variant(wrapped(random, leaf))
        }
    }
}

/// A value inside a few containers, with good neighbours.
fn wrapped(random: &mut Random, leaf: Typed) -> Typed {
    let layers = random.pick(&[0, 0, 1, 1, 2, 3]);
    (0..layers).fold(leaf, |inside, _| wrap(random, inside))
}

fn wrap(random: &mut Random, inside: Typed) -> Typed {
    let signature = inside.signature();
    match random.below(4) {
        0 => Typed::variant(inside),
        1 => {
            let count = random.between(0, 2);
            let mut row: Vec<Typed> = (0..count).map(|_| values::value_of(random, &signature, 1)).collect();
            row.insert(random.between(0, count), inside);
            Typed::array(row)
        }
        2 => {
            let count = random.between(0, 2);
            let mut row: Vec<Typed> = (0..count).map(|_| values::value(random, 1)).collect();
            row.insert(random.between(0, count), inside);
            Typed::Struct(row)
        }
        _ if values::BASIC.contains(&signature[0]) && random.chance(50) => {
            let value = values::value(random, 1);
            Typed::array(vec![Typed::entry(inside, value)])
        }
        _ => {
            let letter = random.pick(values::BASIC);
            let key = values::basic(random, letter);
            Typed::array(vec![Typed::entry(key, inside)])
        }
    }
}

/// The innermost value: one that has the fault itself, or one that can be broken.
fn leaf(random: &mut Random, fault: Fault) -> Typed {
    let sequence = |random: &mut Random, sequences: &[&[u8]]| {
        let (before, after) = (values::text(random), values::text(random));
        Typed::Text(b's', [before.as_bytes(), random.pick(sequences), after.as_bytes()].concat())
    };
    match fault {
        Fault::ZeroInText => sequence(random, &[b"\0"]),
        Fault::Overlong => sequence(random, OVERLONG),
        Fault::Surrogate => sequence(random, SURROGATES),
        Fault::AboveUnicode => sequence(random, ABOVE_UNICODE),
        Fault::CutSequence => sequence(random, CUT),
        Fault::StrayByte => sequence(random, &[b"\x80", b"\xbf", b"\xf8", b"\xfe", b"\xff"]),
        Fault::Path => Typed::Text(b'o', vocabulary::bad_value(random, crate::header::PATH)),
        Fault::SignatureValue => Typed::Text(b'g', vocabulary::bad_value(random, crate::header::SIGNATURE)),
        // The third is a 1 in the other byte order.
        Fault::Boolean => {
            Typed::Number(b'b', random.pick(&[2, 3, 0x100_0000, 0x100, 0xffff_ffff, 0x8000_0000]))
        }
        Fault::NoZeroAfterText => {
            let letter = random.pick(b"sog");
            values::basic(random, letter)
        }
        Fault::ArrayShort | Fault::ArrayLong => {
            let element = random.pick(&["u", "t", "s", "(yu)", "{yv}", "aq", "v", "q", "y"]).as_bytes();
            let elements = (0..random.between(1, 3)).map(|_| values::value_of(random, element, 1)).collect();
            Typed::Array(element.to_vec(), elements)
        }
        Fault::HugeLength => {
            let one_type = random.pick(&["s", "o", "ay", "as", "at", "av"]).as_bytes();
            values::value_of(random, one_type, 1)
        }
        Fault::Padding => {
            let letter = random.pick(b"xtdusn");
            values::basic(random, letter)
        }
        _ => values::value(random, 2),
    }
}

const OVERLONG: &[&[u8]] =
    &[b"\xc0\x80", b"\xc1\xbf", b"\xe0\x80\x80", b"\xe0\x9f\xbf", b"\xf0\x80\x80\x80", b"\xf0\x8f\xbf\xbf"];
const SURROGATES: &[&[u8]] = &[b"\xed\xa0\x80", b"\xed\xad\xbf", b"\xed\xb0\x80", b"\xed\xbf\xbf"];
const ABOVE_UNICODE: &[&[u8]] = &[b"\xf4\x90\x80\x80", b"\xf5\x80\x80\x80", b"\xf7\xbf\xbf\xbf"];
const CUT: &[&[u8]] = &[b"\xc3", b"\xe2\x82", b"\xe2", b"\xf0\x9f\x98", b"\xf0\x9f", b"\xf4"];

/// A variant whose signature is not one complete type.
fn odd_variant(random: &mut Random, fault: Fault) -> Typed {
    let mut values: Vec<Typed> = Vec::new();
    if fault == Fault::SeveralTypes {
        values.extend((0..random.between(2, 3)).map(|_| values::value(random, 1)));
    }
    if fault == Fault::NotASignature {
        let bytes = vocabulary::bad_value(random, crate::header::SIGNATURE);
        values.push(values::value(random, 0));
        return Typed::Variant(bytes, values);
    }
    Typed::Variant(values.iter().flat_map(Typed::signature).collect(), values)
}

/// A value at the end of which an array has no elements, but padding in front of them.
fn ends_with_nothing(random: &mut Random) -> Typed {
    let element = random.pick(&["x", "t", "d", "(y)", "(sv)", "{yv}", "{tt}"]);
    let empty = Typed::Array(element.into(), Vec::new());
    match random.below(4) {
        0 => Typed::Struct(vec![values::value(random, 1), empty]),
        1 => Typed::variant(empty),
        _ => empty,
    }
}

/// Breaks the written field where its value is still good; false where it has no place for the
/// fault.
fn break_site(random: &mut Random, writer: &mut Writer, fault: Fault) -> bool {
    if fault.stands_last() {
        return cut_off(random, writer, fault);
    }
    if fault.is_in_the_value() {
        return true;
    }
    let sites: Vec<Site> = writer.sites.iter().copied().filter(|site| fault.is_made_at(site)).collect();
    if sites.is_empty() {
        return false;
    }
    match random.pick(&sites) {
        Site::Padding { start, end } => {
            let at = random.between(start, end - 1);
            writer.bytes[at] = random.pick(&[1, 0x80, 0xff]);
        }
        Site::SignatureEnd { at } | Site::TextEnd { at } => {
            writer.bytes[at] = random.pick(&[1, b'y', 0x80, 0xff]);
        }
        Site::TextLength { at } | Site::ArrayLength { at } => {
            let length = changed_length(random, writer.order.read_u32(&writer.bytes, at), fault);
            writer.put_u32(at, length);
        }
    }
    true
}

fn changed_length(random: &mut Random, length: u32, fault: Fault) -> u32 {
    let off_by = random.pick(&[1, 1, 1, 2, 3, 4, 7]);
    let huge = [u32::MAX, u32::MAX - 3, u32::MAX - 40, 0x8000_0000, 0x0400_0001, 4_000, length | 0x100_0000];
    match fault {
        Fault::HugeLength => random.pick(&huge),
        Fault::ArrayShort if length > off_by => length - off_by,
        _ => length + off_by,
    }
}

/// Takes away padding at the very end, or any bytes of the value.
fn cut_off(random: &mut Random, writer: &mut Writer, fault: Fault) -> bool {
    let length = writer.bytes.len();
    let most = match (fault, writer.sites.last()) {
        (Fault::CutValue, _) => length - 2,
        (_, Some(Site::Padding { start, end })) if *end == length => end - start,
        _ => return false,
    };
    let less = if random.chance(60) { most.min(4) } else { most };
    writer.bytes.truncate(length - random.between(1, less));
    true
}
