//! The proved converter: of an image whose own rules may be for prefixes it makes one without such rules, as
//! `include/aygeshunt.h` declares it.

/// The longest image that there is, so a room that is long enough for every result.
pub const ROOM_LENGTH: usize = 65_536;

/// The answers that come here, as docs/ANSWERS.md has them.
pub const BAD_IMAGE: u32 = 50;
pub const TOO_LARGE: u32 = 53;
pub const BAD_LIST: u32 = 54;

#[link(name = "aygeshunt", kind = "static")]
extern "C" {
    fn aygeshunt_retire(
        image: *const u8,
        image_len: usize,
        names: *const u8,
        names_len: usize,
        room: *mut u8,
        room_len: usize,
        length: *mut usize,
    ) -> u8;
}

/// The new image, or the answer with which the conversion is refused. Each name of the list stands behind its length byte.
pub fn retire(image: &[u8], names: &[u8]) -> Result<Vec<u8>, u32> {
    let mut room = vec![0; ROOM_LENGTH];
    let mut length = 0;
    // SAFETY: the pointers and lengths are those of live slices, whose pointers are not null even where they are empty; room and
    // length are blocks of their own, which nothing else borrows.
    let answer = unsafe {
        aygeshunt_retire(
            image.as_ptr(),
            image.len(),
            names.as_ptr(),
            names.len(),
            room.as_mut_ptr(),
            room.len(),
            &mut length,
        )
    };
    room.truncate(length);
    match answer {
        0 => Ok(room),
        answer => Err(answer.into()),
    }
}
