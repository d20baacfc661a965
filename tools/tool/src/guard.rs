//! The proved guard: its calls as `include/aygeshunt.h` declares them, on memory that is kept here.

use forms::capture::Call;
use forms::policy::{Gid, Uid};

// Declared as in `include/aygeshunt.h`, whose list of what nobody checks for the caller is kept to below.
#[link(name = "aygeshunt", kind = "static")]
extern "C" {
    fn aygeshunt_memory_length() -> usize;
    fn aygeshunt_start(memory: *mut u8, memory_len: usize, place: *mut u8, place_len: usize) -> usize;
    fn aygeshunt_connect(
        image: *const u8,
        image_len: usize,
        memory: *mut u8,
        memory_len: usize,
        uid: u32,
        gids: *const u32,
        gids_count: usize,
        place: *mut u8,
        place_len: usize,
    ) -> usize;
    fn aygeshunt_own(
        image: *const u8,
        image_len: usize,
        memory: *mut u8,
        memory_len: usize,
        peer: u32,
        name: *const u8,
        name_len: usize,
        place: *mut u8,
        place_len: usize,
    ) -> usize;
    fn aygeshunt_release(
        memory: *mut u8,
        memory_len: usize,
        peer: u32,
        name: *const u8,
        name_len: usize,
        place: *mut u8,
        place_len: usize,
    ) -> usize;
    fn aygeshunt_piece(
        image: *const u8,
        image_len: usize,
        memory: *mut u8,
        memory_len: usize,
        peer: u32,
        bytes: *const u8,
        bytes_len: usize,
        place: *mut u8,
        place_len: usize,
    ) -> usize;
    fn aygeshunt_disconnect(
        memory: *mut u8,
        memory_len: usize,
        peer: u32,
        place: *mut u8,
        place_len: usize,
    ) -> usize;
    fn aygeshunt_tick(
        memory: *mut u8,
        memory_len: usize,
        tick: u64,
        limit: u64,
        place: *mut u8,
        place_len: usize,
    ) -> usize;
}

/// Bytes of a place.
const PLACE_LENGTH: usize = 28;

/// Who decided, by the first of the last two numbers.
pub const NOT_SHOWN: u32 = 0;
pub const BY_RULE: u32 = 1;
pub const NO_RULE: u32 = 2;

/// Whom a message goes to, by its kind.
pub const TO_NOBODY: u32 = 0;
pub const TO_BUS: u32 = 1;
pub const TO_PEER: u32 = 2;
pub const TO_SLOTS: u32 = 3;

/// What a call reports: the seven numbers of a place. Connect has its number in `value` and its slot in `count`,
/// disconnect has its bytes and tick the count of ended waits in `value`.
#[derive(Clone, Copy, Debug, Default, PartialEq, Eq)]
pub struct Place {
    pub answer: u32,
    pub taken: u32,
    pub kind: u32,
    pub value: u32,
    pub count: u32,
    pub decider: u32,
    pub position: u32,
}

impl Place {
    fn of(bytes: &[u8; PLACE_LENGTH]) -> Place {
        let mut words =
            bytes.chunks_exact(4).map(|four| u32::from_le_bytes([four[0], four[1], four[2], four[3]]));
        let mut next = || words.next().unwrap_or_default();
        Place {
            answer: next(),
            taken: next(),
            kind: next(),
            value: next(),
            count: next(),
            decider: next(),
            position: next(),
        }
    }
}

/// A guard with its memory. A copy goes its own way, so that one can ask what would be.
#[derive(Clone)]
pub struct Guard {
    memory: Vec<u8>,
}

impl Default for Guard {
    fn default() -> Guard {
        Guard::new()
    }
}

impl Guard {
    /// An empty guard.
    pub fn new() -> Guard {
        // SAFETY: the function takes nothing and only says a number.
        let length = unsafe { aygeshunt_memory_length() };
        let mut guard = Guard { memory: vec![0; length] };
        guard.start();
        guard
    }

    /// Makes a call that writes one place. Memory and place are two blocks of their own, which nothing else borrows.
    fn report(&mut self, call: impl FnOnce(*mut u8, usize, *mut u8) -> usize) -> Place {
        let mut place = [0; PLACE_LENGTH];
        call(self.memory.as_mut_ptr(), self.memory.len(), place.as_mut_ptr());
        Place::of(&place)
    }

    pub fn start(&mut self) -> Place {
        // SAFETY: the pointers and lengths are those of live slices; the pointer of an empty slice is not null.
        self.report(|memory, length, place| unsafe { aygeshunt_start(memory, length, place, PLACE_LENGTH) })
    }

    pub fn connect(&mut self, image: &[u8], uid: Uid, gids: &[Gid]) -> Place {
        let gids: Vec<u32> = gids.iter().map(|gid| gid.0).collect();
        // SAFETY: as for start; gids are aligned as their type is.
        self.report(|memory, length, place| unsafe {
            let (lent, count) = (gids.as_ptr(), gids.len());
            aygeshunt_connect(
                image.as_ptr(),
                image.len(),
                memory,
                length,
                uid.0,
                lent,
                count,
                place,
                PLACE_LENGTH,
            )
        })
    }

    pub fn own(&mut self, image: &[u8], peer: u32, name: &[u8]) -> Place {
        // SAFETY: as for start.
        self.report(|memory, length, place| unsafe {
            let (lent, count) = (name.as_ptr(), name.len());
            aygeshunt_own(image.as_ptr(), image.len(), memory, length, peer, lent, count, place, PLACE_LENGTH)
        })
    }

    pub fn release(&mut self, peer: u32, name: &[u8]) -> Place {
        // SAFETY: as for start.
        self.report(|memory, length, place| unsafe {
            aygeshunt_release(memory, length, peer, name.as_ptr(), name.len(), place, PLACE_LENGTH)
        })
    }

    pub fn piece(&mut self, image: &[u8], peer: u32, bytes: &[u8]) -> Place {
        // SAFETY: as for start.
        self.report(|memory, length, place| unsafe {
            let (lent, count) = (bytes.as_ptr(), bytes.len());
            aygeshunt_piece(
                image.as_ptr(),
                image.len(),
                memory,
                length,
                peer,
                lent,
                count,
                place,
                PLACE_LENGTH,
            )
        })
    }

    pub fn disconnect(&mut self, peer: u32) -> Place {
        // SAFETY: as for start.
        self.report(|memory, length, place| unsafe {
            aygeshunt_disconnect(memory, length, peer, place, PLACE_LENGTH)
        })
    }

    pub fn tick(&mut self, tick: u64, limit: u64) -> Place {
        // SAFETY: as for start.
        self.report(|memory, length, place| unsafe {
            aygeshunt_tick(memory, length, tick, limit, place, PLACE_LENGTH)
        })
    }

    /// Makes a call of a capture under an image.
    pub fn make(&mut self, image: &[u8], call: &Call) -> Place {
        match call {
            Call::Start => self.start(),
            Call::Connect { uid, gids } => self.connect(image, *uid, gids),
            Call::Own { peer, name } => self.own(image, *peer, name),
            Call::Release { peer, name } => self.release(*peer, name),
            Call::Piece { peer, bytes } => self.piece(image, *peer, bytes),
            Call::Disconnect { peer } => self.disconnect(*peer),
            Call::Tick { tick, limit } => self.tick(*tick, *limit),
        }
    }
}
