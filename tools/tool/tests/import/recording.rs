//! Recordings that tests make: messages as a bus has them, in the classic form.

use forms::message::{
    ByteOrder, Message, DESTINATION, INTERFACE, MEMBER, METHOD_CALL, METHOD_RETURN, PATH, REPLY_SERIAL,
    SENDER, SIGNAL, SIGNATURE,
};

pub const BUS: &str = "org.freedesktop.DBus";

/// A file in the classic form, to which messages are added.
pub struct Recording {
    pub file: Vec<u8>,
    pub order: ByteOrder,
}

impl Recording {
    pub fn new() -> Recording {
        Recording::with(ByteOrder::Little, 0xa1b2_c3d4, 231)
    }

    pub fn with(order: ByteOrder, magic: u32, link: u32) -> Recording {
        let mut file = order.bytes(magic).to_vec();
        file.extend(match order {
            ByteOrder::Little => [2, 0, 4, 0],
            ByteOrder::Big => [0, 2, 0, 4],
        });
        for number in [0, 0, 134_217_728, link] {
            file.extend(order.bytes(number));
        }
        Recording { file, order }
    }

    /// A record that keeps some bytes of a message that was longer or as long.
    pub fn record(mut self, kept: &[u8], length: u32) -> Recording {
        for number in [1_000_000_000, 7, kept.len() as u32, length] {
            self.file.extend(self.order.bytes(number));
        }
        self.file.extend(kept);
        self
    }

    pub fn bytes(self, bytes: &[u8]) -> Recording {
        let length = bytes.len() as u32;
        self.record(bytes, length)
    }

    pub fn message(self, message: Message) -> Recording {
        self.bytes(&message.bytes())
    }

    pub fn hello(self, peer: &str) -> Recording {
        self.message(to_bus(peer, 1, "Hello"))
    }

    /// A peer comes: its Hello, and what the bus tells everybody.
    pub fn comes(self, peer: &str) -> Recording {
        self.hello(peer).owner_changed(peer, "", peer)
    }

    pub fn leaves(self, peer: &str) -> Recording {
        self.owner_changed(peer, peer, "")
    }

    pub fn owner_changed(self, name: &str, old: &str, new: &str) -> Recording {
        self.message(of_bus(SIGNAL, "NameOwnerChanged", &[name, old, new]))
    }

    /// A question to the bus and its answer.
    pub fn asked(self, peer: &str, serial: u32, question: Message, answer: Message) -> Recording {
        let answer = answer.text(DESTINATION, peer).number(REPLY_SERIAL, serial);
        self.message(Message { serial, ..question }).message(answer)
    }
}

/// Strings as a body has them.
pub fn texts(order: ByteOrder, texts: &[&str]) -> Vec<u8> {
    let mut body = Vec::new();
    for text in texts {
        put_text(&mut body, order, text);
    }
    body
}

pub fn put_text(body: &mut Vec<u8>, order: ByteOrder, text: &str) {
    body.resize(body.len().next_multiple_of(4), 0);
    body.extend(order.bytes(text.len() as u32));
    body.extend(text.as_bytes());
    body.push(0);
}

/// A call from peer to peer.
pub fn call(sender: &str, serial: u32, destination: &str, member: &str) -> Message {
    Message::new(METHOD_CALL, serial)
        .text(PATH, "/org/theatre")
        .text(INTERFACE, "org.theatre.Test")
        .text(MEMBER, member)
        .text(DESTINATION, destination)
        .text(SENDER, sender)
}

pub fn reply(sender: &str, serial: u32, destination: &str, to: u32) -> Message {
    Message::new(METHOD_RETURN, serial)
        .number(REPLY_SERIAL, to)
        .text(DESTINATION, destination)
        .text(SENDER, sender)
}

/// A call to the bus with no argument.
pub fn to_bus(sender: &str, serial: u32, member: &str) -> Message {
    Message::new(METHOD_CALL, serial)
        .text(PATH, "/org/freedesktop/DBus")
        .text(INTERFACE, BUS)
        .text(MEMBER, member)
        .text(DESTINATION, BUS)
        .text(SENDER, sender)
}

/// A question to the bus about a name.
pub fn question(sender: &str, member: &str, name: &str) -> Message {
    let body = texts(ByteOrder::Little, &[name]);
    Message { body, ..to_bus(sender, 0, member).text(SIGNATURE, "s") }
}

/// A message of the bus with strings in its body.
pub fn of_bus(message_type: u8, member: &str, body: &[&str]) -> Message {
    let message = Message { body: texts(ByteOrder::Little, body), ..Message::new(message_type, 9) };
    message
        .text(PATH, "/org/freedesktop/DBus")
        .text(INTERFACE, BUS)
        .text(MEMBER, member)
        .text(SIGNATURE, &"s".repeat(body.len()))
        .text(SENDER, BUS)
}

/// A reply of the bus, whose destination and reply serial are still to be said.
pub fn answer(signature: &str, body: &[u8]) -> Message {
    let message = Message { body: body.to_vec(), ..Message::new(METHOD_RETURN, 9) };
    message.text(SIGNATURE, signature).text(SENDER, BUS)
}
