//! Seeded captures that reach every answer a test can reach.

mod batches;
pub mod conversions;
mod deciders;
mod faults;
mod full;
mod images;
mod interfaces;
mod messages;
mod policies;
pub mod random;
pub mod spelling;
mod split;
mod stored;
mod talks;
mod ticks;
mod unknown;
pub mod value_faults;
pub mod values;
mod vocabulary;
mod world;

use crate::capture::{self, Capture};
use crate::policy::Policy;
use crate::replay::lent_policy;
use random::Random;
use world::World;

/// What kind of capture is wanted.
#[derive(Clone, Copy, Debug, PartialEq, Eq)]
pub enum Mode {
    /// A good policy and all kinds of calls.
    Mixed,
    /// An open policy and a guard that is filled to its limits again and again.
    Full,
    /// A policy image that breaks a rule.
    BadImage,
    /// A capture whose layout is broken.
    BadLayout,
    /// Pieces of many messages.
    Batches,
}

impl Mode {
    pub fn of_word(word: &str) -> Option<Mode> {
        match word {
            "mixed" => Some(Mode::Mixed),
            "full" => Some(Mode::Full),
            "image" => Some(Mode::BadImage),
            "layout" => Some(Mode::BadLayout),
            "batches" => Some(Mode::Batches),
            _ => None,
        }
    }
}

/// The policy that calls of a capture are lent, none where its image is bad, and the image.
fn policy_and_image(random: &mut Random, mode: Mode) -> (Option<Policy>, Vec<u8>) {
    let good = |(policy, image)| (Some(policy), image);
    match mode {
        Mode::BadImage => {
            let image = images::broken(random);
            (lent_policy(&image), image)
        }
        Mode::Full => good(policies::open_image(random)),
        Mode::Mixed | Mode::BadLayout => good(policies::policy_and_image(random)),
        Mode::Batches => batches::policy_and_image(random),
    }
}

/// The bytes of the capture file that `seed` stands for.
pub fn generate(seed: u64, calls: usize, mode: Mode) -> Vec<u8> {
    let mut random = Random::new(seed);
    let (policy, image) = policy_and_image(&mut random, mode);
    let mut world = World::new(random, policy);
    if world.random.chance(20) {
        ticks::tick(&mut world);
    }
    let mut next_fill = 0;
    while world.length() < calls {
        if mode == Mode::Full && world.length() >= next_fill {
            full::fill(&mut world);
            next_fill = world.length() + 300;
            continue;
        }
        if mode == Mode::Batches {
            batches::step(&mut world);
            continue;
        }
        if let Some(peer) = world.step() {
            world.send_piece(peer);
        }
    }
    if matches!(mode, Mode::Mixed | Mode::Full) && world.random.chance(80) {
        talks::last_talk(&mut world);
    }
    let file = capture::write(&Capture { image, calls: world.calls });
    match mode {
        Mode::BadLayout => with_broken_layout(&mut world.random, &file),
        Mode::Mixed | Mode::Full | Mode::BadImage | Mode::Batches => file,
    }
}

/// The captures of mode `split`: offered whole, and cut at other places.
pub fn generate_pair(seed: u64, calls: usize) -> (Vec<u8>, Vec<u8>) {
    let mut random = Random::new(seed);
    let (policy, image) = policies::policy_and_image(&mut random);
    let pair = split::generate(random, &policy, calls);
    let file = |calls| capture::write(&Capture { image: image.clone(), calls });
    (file(pair.whole), file(pair.split))
}

fn with_broken_layout(random: &mut Random, file: &[u8]) -> Vec<u8> {
    loop {
        // A file that is cut just between two calls is whole.
        let broken = break_layout(random, file.to_vec());
        if !capture::read(&broken).is_whole {
            return broken;
        }
    }
}

/// Breaks the layout: a file cut short, or a call that no capture may have.
fn break_layout(random: &mut Random, mut file: Vec<u8>) -> Vec<u8> {
    let image_length = u32::from_le_bytes([file[0], file[1], file[2], file[3]]);
    match random.below(10) {
        0 => file.truncate(random.below(8)),
        1 => file[..4].copy_from_slice(&u32::MAX.to_le_bytes()),
        2 => file.truncate(4 + image_length as usize - 1),
        3..=5 => file.truncate(random.between(file.len() / 2, file.len() - 1)),
        _ => {
            let (kind, length): (u32, u32) = random.pick(&[
                (0, 1),
                (1, 0),
                (1, 3),
                (1, 7),
                (2, 3),
                (3, 0),
                (4, 3),
                (5, 0),
                (5, 5),
                (6, 0),
                (6, 4),
                (6, 8),
                (6, 15),
                (6, 17),
                (6, 20),
                (7, 16),
                (u32::MAX, 0),
                (4, u32::MAX),
            ]);
            file.extend(kind.to_le_bytes());
            file.extend(length.to_le_bytes());
            file.extend(random.bytes(length.min(100) as usize));
            if random.chance(50) {
                // A good start call behind the fault must not be run any more.
                file.extend([0; 8]);
            }
        }
    }
    file
}
