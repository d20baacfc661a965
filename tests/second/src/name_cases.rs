//! Refused names: the cases in which a single kind of fault keeps a text from being a name.

use crate::image::{Breach, OWN_SIZE, TRANSACTION_SIZE};
use crate::name_forms::Form;
use crate::wire::ByteOrder;

const STRANGE_BYTE: &str = "a byte that is no character";
const LEADING_DIGIT: &str = "a leading digit";
const EMPTY_ELEMENT: &str = "an empty element";

/// Mends one kind of fault in an element and leaves everything else as it is.
type Mend = fn(Form, &mut Vec<u8>);

const MENDS: [(&str, Mend); 3] = [
    (STRANGE_BYTE, |form, element| {
        element.iter_mut().filter(|byte| !form.is_character(**byte)).for_each(|byte| *byte = b'a')
    }),
    (LEADING_DIGIT, |_, element| {
        if element.first().is_some_and(u8::is_ascii_digit) {
            element[0] = b'a'
        }
    }),
    (EMPTY_ELEMENT, |_, element| {
        if element.is_empty() {
            element.push(b'a')
        }
    }),
];

/// The answers that refuse names, each with the forms of the names that it is about.
const REFUSALS: [(u32, &[Form]); 3] = [
    (8, &Form::ALL),
    (31, &[Form::WellKnown]),
    (50, &[Form::WellKnown, Form::Path, Form::Interface, Form::Member]),
];

/// Some forms cannot be broken in some ways. An empty member is no name with an empty element.
fn can_have(form: Form, fault: &str) -> bool {
    match fault {
        LEADING_DIGIT => !form.is_led_by_digits(),
        EMPTY_ELEMENT => form.separator().is_some(),
        _ => true,
    }
}

/// Every case; a good set of captures meets each of them.
pub fn cases() -> Vec<String> {
    let mut cases = Vec::new();
    for (answer, forms) in REFUSALS {
        for &form in forms {
            let faults = MENDS.iter().filter(|(fault, _)| can_have(form, fault));
            cases.extend(faults.map(|(fault, _)| words(answer, form, fault)));
        }
    }
    cases
}

fn words(answer: u32, form: Form, fault: &str) -> String {
    format!("{answer} {} with {fault}", form.name())
}

/// The case of a text that was refused; none where it breaks its rule in another way, or in
/// more ways than one.
pub fn of_text(answer: u32, form: Form, text: &[u8]) -> Option<String> {
    if form.is_kept_by(text) {
        return None;
    }
    let elements = form.split(text)?;
    let is_alone = |mend: Mend| form.is_kept_by(&form.join(&mended(form, &elements, mend)));
    let (fault, _) = MENDS.iter().find(|(fault, mend)| can_have(form, fault) && is_alone(*mend))?;
    Some(words(answer, form, fault))
}

fn mended(form: Form, elements: &[Vec<u8>], mend: Mend) -> Vec<Vec<u8>> {
    let mut elements = elements.to_vec();
    elements.iter_mut().for_each(|element| mend(form, element));
    elements
}

fn form_of_breach(breach: Breach) -> Option<Form> {
    match breach {
        Breach::NotAWellKnownName => Some(Form::WellKnown),
        Breach::NotAPath => Some(Form::Path),
        Breach::NotAnInterface => Some(Form::Interface),
        Breach::NotAMember => Some(Form::Member),
        _ => None,
    }
}

/// The case of an image that one of its texts spoils.
pub fn of_image(image: &[u8], breach: Breach) -> Option<String> {
    let form = form_of_breach(breach)?;
    let mut of_that_form = texts(image).into_iter().filter(|(other, _)| *other == form);
    of_that_form.find_map(|(_, text)| of_text(50, form, text))
}

/// The texts that rules cite, with their forms. A text can only be at fault where the sections
/// are right, so they are not tested here.
fn texts(image: &[u8]) -> Vec<(Form, &[u8])> {
    let word = |at: usize| ByteOrder::Little.read_u32(image, at) as usize;
    let [own, transaction, strings] = [16, 24, 28].map(word);
    let mut places: Vec<(Form, usize)> = Vec::new();
    places.extend((own..transaction).step_by(OWN_SIZE).map(|rule| (Form::WellKnown, rule + 8)));
    for rule in (transaction..strings).step_by(TRANSACTION_SIZE) {
        places.extend([(Form::WellKnown, rule + 8), (Form::Path, rule + 16)]);
        places.extend([(Form::Interface, rule + 24), (Form::Member, rule + 32)]);
    }
    let cut = |(form, at)| Some((form, image[strings..].get(word(at)..word(at) + word(at + 4))?));
    places.into_iter().filter_map(cut).collect()
}
