//! What several tests share: policies as text, and a guard with peers in it.
#![allow(dead_code)]

use second::answer::{Answer, Receiver};
use second::capture::Call;
use second::guard::{Guard, Judged};
use second::header::HeadFault;
use second::message::Message;
use second::policy::{Gid, Policy, Uid};
use second::replay::run;
use second::{image, image_write};

pub const OPEN: &str = "connect default allow any
    own default allow any
    transaction default allow send any
    transaction default allow receive any";

/// The image of a policy text. It is written by the tool's forms; read and written again here it is the same.
pub fn image_of(text: &str) -> Vec<u8> {
    let written = forms::policy_text::parse(text).expect("the policy text is good").policy;
    let image = forms::image::write(&written).expect("the policy has an image");
    let read = image::read(&image).expect("the image is good");
    assert_eq!(image_write::write(&read).expect("it has an image"), image);
    image
}

/// The policy of a text, by way of its image.
pub fn policy(text: &str) -> Policy {
    image::read(&image_of(text)).expect("the image is good")
}

/// A guard under one policy; its peers have uid 1000 and gid 5 unless said otherwise.
pub struct Bench {
    pub guard: Guard,
    pub policy: Policy,
}

impl Bench {
    pub fn new(text: &str) -> Bench {
        Bench { guard: Guard::default(), policy: policy(text) }
    }

    pub fn with_peers(text: &str, peers: u32) -> Bench {
        let mut bench = Bench::new(text);
        for number in 1..=peers {
            assert_eq!(bench.connect(1000, &[5]), number);
        }
        bench
    }

    pub fn connect(&mut self, uid: u32, gids: &[u32]) -> u32 {
        let gids: Vec<Gid> = gids.iter().map(|&gid| Gid(gid)).collect();
        let connected = self.guard.connect(Some(&self.policy), Uid(uid), &gids);
        assert_eq!(connected.answer, Answer::Done);
        connected.number
    }

    pub fn own(&mut self, peer: u32, name: &str) -> u32 {
        self.guard.own(Some(&self.policy), peer, name.as_bytes()).answer.number()
    }

    pub fn piece(&mut self, peer: u32, bytes: &[u8]) -> Judged {
        self.guard.piece(Some(&self.policy), peer, bytes)
    }

    /// The answer and taken count of one piece.
    pub fn answers(&mut self, peer: u32, bytes: &[u8]) -> (u32, usize) {
        let judged = self.piece(peer, bytes);
        (judged.answer.number(), judged.taken)
    }

    /// Sends a whole message; it must be taken whole.
    pub fn send(&mut self, peer: u32, message: Message) -> (u32, Receiver) {
        let bytes = message.bytes();
        let judged = self.piece(peer, &bytes);
        assert_eq!(judged.taken, bytes.len());
        if judged.answer != Answer::Done {
            assert_eq!(judged.receiver, Receiver::Nobody);
        }
        (judged.answer.number(), judged.receiver)
    }

    pub fn sends(&mut self, peer: u32, message: Message) -> u32 {
        self.send(peer, message).0
    }

    /// The line that a call prints.
    pub fn line(&mut self, call: Call) -> String {
        run(&mut self.guard, Some(&self.policy), &call).line()
    }

    pub fn connect_line(&mut self, uid: u32, gids: &[u32]) -> String {
        let gids = gids.iter().map(|&gid| Gid(gid)).collect();
        self.line(Call::Connect { uid: Uid(uid), gids })
    }

    pub fn own_line(&mut self, peer: u32, name: &str) -> String {
        self.line(Call::Own { peer, name: name.as_bytes().to_vec() })
    }

    pub fn piece_line(&mut self, peer: u32, bytes: &[u8]) -> String {
        self.line(Call::Piece { peer, bytes: bytes.to_vec() })
    }

    pub fn message_line(&mut self, peer: u32, message: Message) -> String {
        self.piece_line(peer, &message.bytes())
    }
}

/// Five messages of one peer of two: to the bus, to the other peer, to everybody, a reply that nobody
/// awaits, and one of an unknown type.
pub fn five() -> Vec<u8> {
    [
        Message::call(1, "/", "M"),
        Message::call(2, "/", "M").to(":1.2"),
        Message::signal(3, "/", "a.b", "S"),
        Message::method_return(4, 9).to(":1.2"),
        Message::new(5, 5),
    ]
    .iter()
    .flat_map(Message::bytes)
    .collect()
}

/// Feeds the bytes to a fresh peer at once and byte by byte; both must agree.
pub fn judge(bytes: &[u8]) -> (u32, usize, Option<HeadFault>) {
    let whole = Bench::with_peers(OPEN, 1).piece(1, bytes);
    let mut bench = Bench::with_peers(OPEN, 1);
    let mut taken = 0;
    for byte in bytes {
        let step = bench.piece(1, std::slice::from_ref(byte));
        taken += step.taken;
        if step.answer.number() != 10 {
            assert_eq!((whole.answer, whole.taken, whole.receiver), (step.answer, taken, step.receiver));
        }
        if taken == whole.taken {
            break;
        }
    }
    assert_eq!(taken, whole.taken);
    (whole.answer.number(), whole.taken, whole.fault)
}
