//! The generator's values of unknown fields: good ones are good, broken ones have their fault.

use second::generate::random::Random;
use second::generate::value_faults::{broken, Fault};
use second::generate::values;
use second::header::{HeadFault, Header, Malformed};
use second::message::Message;
use second::signature::types_of;
use second::typed::Typed;
use second::utf8::Utf8Fault;
use second::value::ValueFault;
use second::wire::ByteOrder;
use std::collections::BTreeSet;

fn order(random: &mut Random) -> ByteOrder {
    random.pick(&[ByteOrder::Little, ByteOrder::Big])
}

/// Reads a message of type 5 with this field alone, the way a stream would.
fn read(message: &Message) -> Result<Header, HeadFault> {
    Header::read(&message.bytes())
}

#[test]
fn good_values() {
    let mut random = Random::new(1);
    let mut letters = BTreeSet::new();
    for _ in 0..3000 {
        let depth = random.below(6);
        let value = values::value(&mut random, depth);
        let signature = value.signature();
        assert_eq!(types_of(&signature), Some(vec![signature.as_slice()]));
        let message = Message::new(5, 1).order(order(&mut random)).variant(10, Typed::variant(value));
        match read(&message) {
            Ok(header) => letters.extend(&header.unknown[0].letters),
            Err(fault) => assert_eq!(fault, HeadFault::ArrayTooLong),
        }
    }
    assert_eq!(letters.into_iter().collect::<Vec<u8>>(), b"(abdghinoqstuvxy{");
}

#[test]
fn long_signatures() {
    let mut random = Random::new(1);
    let mut lengths = BTreeSet::new();
    for _ in 0..100 {
        let value = values::long(&mut random);
        lengths.insert(value.signature().len());
        let message = Message::new(5, 1).order(order(&mut random)).variant(10, Typed::variant(value));
        assert!(read(&message).is_ok());
    }
    assert_eq!(lengths.last(), Some(&255));
}

#[test]
fn deep_values() {
    let mut random = Random::new(1);
    for open in 2..=70 {
        for _ in 0..50 {
            let message =
                Message::new(5, 1).order(order(&mut random)).variant(10, values::deep(&mut random, open));
            match read(&message) {
                Ok(header) => assert_eq!(header.unknown[0].deepest, open),
                Err(fault) => {
                    assert!(open > 64);
                    assert_eq!(fault, HeadFault::Malformed(Malformed::Unknown(ValueFault::TooManyOpen)));
                }
            }
        }
    }
}

fn expected(fault: Fault) -> ValueFault {
    match fault {
        Fault::Padding => ValueFault::Padding,
        Fault::NoZeroAfterSignature => ValueFault::NoZeroAfterSignature,
        Fault::NoZeroAfterText => ValueFault::NoZeroAfterText,
        Fault::ZeroInText => ValueFault::ZeroInText,
        Fault::Overlong => ValueFault::Text(Utf8Fault::Overlong),
        Fault::Surrogate => ValueFault::Text(Utf8Fault::Surrogate),
        Fault::AboveUnicode => ValueFault::Text(Utf8Fault::AboveUnicode),
        Fault::CutSequence => ValueFault::Text(Utf8Fault::CutSequence),
        Fault::StrayByte => ValueFault::Text(Utf8Fault::StrayByte),
        Fault::Path => ValueFault::NotAPath,
        Fault::SignatureValue => ValueFault::NotASignatureValue,
        Fault::Boolean => ValueFault::Boolean,
        Fault::ArrayShort => ValueFault::ArrayEnd,
        Fault::ArrayLong | Fault::HugeLength | Fault::CutValue => ValueFault::PastTheArray,
        Fault::NoPaddingBeforeNothing => ValueFault::CutPadding,
        Fault::NoType => ValueFault::NoType,
        Fault::SeveralTypes => ValueFault::SeveralTypes,
        Fault::NotASignature => ValueFault::NotASignature,
        Fault::TooManyOpen => ValueFault::TooManyOpen,
    }
}

/// Most of them have just the fault that they are named after. An array that is a little too long
/// takes in what follows, and may fit again by chance.
#[test]
fn broken_values() {
    let mut random = Random::new(1);
    for fault in Fault::ALL {
        let mut as_named = 0;
        for _ in 0..300 {
            let order = order(&mut random);
            let rest = broken(&mut random, order, fault);
            let found = read(&Message::new(5, 1).order(order).raw(10, &rest));
            let may_fit = matches!(fault, Fault::ArrayShort | Fault::ArrayLong);
            assert!(found.is_err() || may_fit, "{fault:?} {rest:02x?}");
            let named = HeadFault::Malformed(Malformed::Unknown(expected(fault)));
            as_named += usize::from(found == Err(named));
        }
        assert!(as_named >= 100, "{fault:?}: {as_named}");
    }
}
