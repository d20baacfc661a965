//! Random messages from one peer to the others, most of them good.

use super::random::Random;
use super::{spelling, unknown, vocabulary};
use crate::guard::Guard;
use crate::header::{
    DESTINATION, ERROR, ERROR_NAME, INTERFACE, MEMBER, METHOD_CALL, METHOD_RETURN, PATH, REPLY_SERIAL, SIGNAL,
};
use crate::message::Message;
use crate::name_forms::Form;
use crate::names::{unique_name_of, BUS_NAME};
use crate::typed::Typed;
use crate::wait::Wait;
use crate::wire::{ByteOrder, MAX_ARRAY_LENGTH, NO_REPLY_EXPECTED};

/// Well-formed destinations that are nobody's, some of them close to a peer's name.
const NOBODYS: [&str; 9] =
    [":1.0", ":1.07", ":1.01", ":2.1", ":1.1.1", ":1.4294967297", ":1.1a", "org.nobody.here", ":1.-1"];

/// A good message from peer `sender`.
pub fn good(random: &mut Random, guard: &Guard, sender: u32) -> Message {
    let awaited: Vec<Wait> = guard.waits().iter().filter(|wait| wait.callee == sender).copied().collect();
    match random.below(100) {
        0..=39 => call(random, guard),
        40..=59 => signal(random, guard),
        60..=89 if !awaited.is_empty() => awaited_reply(random, guard, &awaited),
        60..=79 => call(random, guard),
        80..=93 => stray_reply(random, guard),
        _ => unknown_type(random, guard),
    }
}

fn call(random: &mut Random, guard: &Guard) -> Message {
    let message = Message::call(serial(random), &vocabulary::path(random), &vocabulary::member(random));
    let message = match random.chance(60) {
        true => message.interface(&vocabulary::interface(random)),
        false => message,
    };
    addressed(random, guard, message, 12)
}

fn signal(random: &mut Random, guard: &Guard) -> Message {
    let (path, interface, member) =
        (vocabulary::path(random), vocabulary::interface(random), vocabulary::member(random));
    let message = Message::signal(serial(random), &path, &interface, &member);
    addressed(random, guard, message, 45)
}

/// A reply that somebody awaits, sometimes spoiled just a little.
fn awaited_reply(random: &mut Random, guard: &Guard, awaited: &[Wait]) -> Message {
    let wait = random.pick(awaited);
    let spoil = random.below(20);
    let number = if spoil == 0 { wait.serial.wrapping_add(1).max(1) } else { wait.serial };
    let message = reply(random, number);
    match spoil {
        1 => message,
        2 => message.to(BUS_NAME),
        3 => message.to(&format!(":1.0{}", wait.caller)),
        4 => addressed(random, guard, message, 0),
        _ => message.to(&a_name_of(random, guard, wait.caller)),
    }
}

fn stray_reply(random: &mut Random, guard: &Guard) -> Message {
    let number = serial(random);
    let message = reply(random, number);
    addressed(random, guard, message, 10)
}

pub fn reply(random: &mut Random, reply_serial: u32) -> Message {
    match random.chance(65) {
        true => Message::method_return(serial(random), reply_serial),
        false => Message::error(serial(random), reply_serial, &vocabulary::error_name(random)),
    }
}

fn unknown_type(random: &mut Random, guard: &Guard) -> Message {
    let message_type = random.pick(&[5, 6, 100, 255]);
    let message = Message::new(message_type, serial(random));
    addressed(random, guard, message, 50)
}

/// Small serials meet again; a large one now and then tries the full width.
pub fn serial(random: &mut Random) -> u32 {
    match random.below(30) {
        0 => u32::MAX,
        1 => random.between(1, 0x0100_0000) as u32,
        2..=9 => random.between(1, 40) as u32,
        _ => random.between(1, 5) as u32,
    }
}

/// The unique name of a peer, or one of the names it owns.
fn a_name_of(random: &mut Random, guard: &Guard, number: u32) -> String {
    match guard.peer(number) {
        Some(peer) if !peer.names.is_empty() && random.chance(50) => random.pick(&peer.names),
        _ => unique_name_of(number),
    }
}

fn nobodys(random: &mut Random) -> String {
    match random.chance(30) {
        true => spelling::good(random, Form::Unique),
        false => random.pick(&NOBODYS).to_string(),
    }
}

/// Whatever a message says of its sender is read and then ignored.
fn sender(random: &mut Random) -> String {
    match random.below(10) {
        0..=1 => spelling::good(random, Form::Unique),
        2 => spelling::good(random, Form::WellKnown),
        _ => random.pick(&[":1.1", ":9.9", "org.a.x", "a.b"]).to_string(),
    }
}

pub fn addressed(random: &mut Random, guard: &Guard, message: Message, absent: usize) -> Message {
    if random.chance(absent) {
        return message;
    }
    let peers: Vec<u32> = guard.peers().map(|peer| peer.number).collect();
    let destination = match random.below(20) {
        0..=1 => BUS_NAME.to_string(),
        2 => nobodys(random),
        3 => unique_name_of(random.between(1, guard.last_number() as usize + 1) as u32),
        4..=6 => vocabulary::name(random),
        _ if peers.is_empty() => ":1.1".to_string(),
        _ => {
            let number = random.pick(&peers);
            a_name_of(random, guard, number)
        }
    };
    message.to(&destination)
}

/// Optional fields, flags, a body, either byte order, and fields in any order.
pub fn dress(random: &mut Random, mut message: Message) -> Message {
    if random.chance(15) {
        message = message.sender(&sender(random));
    }
    if random.chance(25) {
        message = message.signature(&vocabulary::signature(random));
    }
    if random.chance(5) {
        message = message.descriptors(random.next_u64() as u32);
    }
    for code in [PATH, INTERFACE, ERROR_NAME, REPLY_SERIAL] {
        if random.chance(3) && !message.fields.iter().any(|field| field.code == code) {
            message = extra_field(random, message, code);
        }
    }
    if random.chance(30) {
        random.shuffle(&mut message.fields);
    }
    if random.chance(25) {
        message = unknown::add(random, message);
    }
    let flags = match random.below(10) {
        0..=5 => 0,
        6..=7 => NO_REPLY_EXPECTED,
        _ => random.byte(),
    };
    // A few bodies need more than 16 bits to count.
    let body = match random.below(2000) {
        0 => random.between(65_000, 66_000),
        1..=100 => random.between(21, 400),
        101..=800 => random.between(1, 20),
        _ => 0,
    };
    let order = if random.chance(50) { ByteOrder::Little } else { ByteOrder::Big };
    message.flags(flags).order(order).body(&random.bytes(body))
}

/// A field that this type does not require, with a good value.
fn extra_field(random: &mut Random, message: Message, code: u8) -> Message {
    match code {
        PATH => message.text(code, &vocabulary::path(random)),
        INTERFACE => message.text(code, &vocabulary::interface(random)),
        ERROR_NAME => message.text(code, &vocabulary::error_name(random)),
        _ => message.number(code, serial(random)),
    }
}

/// A call whose field array has exactly `array_length` bytes, by way of a long path or of a long
/// string in an unknown field.
pub fn with_array_length(random: &mut Random, array_length: usize) -> Message {
    let order = if random.chance(50) { ByteOrder::Little } else { ByteOrder::Big };
    let message = Message::new(METHOD_CALL, 1).order(order).text(MEMBER, "M");
    match random.chance(35) {
        true => message.text(PATH, &vocabulary::longer("/", array_length - 16 - 9)),
        false => {
            let text = Typed::text(b's', &vocabulary::longer("", array_length - 32 - 9));
            message.text(PATH, "/").variant(unknown::code(random), Typed::variant(text))
        }
    }
}

/// Messages that stand at a limit or one beyond it.
pub fn at_limit(random: &mut Random) -> Message {
    let length = random.pick(&[255, 256]);
    let less = random.below(9);
    let limit = MAX_ARRAY_LENGTH as usize;
    let any = |code: u8, start: &str| Message::new(7, 3).text(code, &vocabulary::longer(start, length));
    match random.below(9) {
        0 => with_array_length(random, limit),
        1 => with_array_length(random, limit + 1),
        2 => with_array_length(random, limit - less),
        3 => any(INTERFACE, "a.b"),
        4 => any(MEMBER, "M"),
        5 => any(ERROR_NAME, "a.b"),
        6 => any(DESTINATION, random.pick(&["a.b", ":1.b"])),
        7 => any(PATH, "/"),
        _ => Message::new(random.pick(&[METHOD_RETURN, ERROR, SIGNAL, 5]), 1).body(&[0; 3]),
    }
}
