//! The proved library, called as Rust calls C. All that is known of it stands here: the functions that it exports, what their
//! numbers mean, and safe functions over them that lend memory with other memory around it.

use crate::lent::Lent;

/// Whether the library's texts refuse more than 65,536 bytes with 9, as the programs do.
pub const REFUSES_LONG_KITS: bool = false;

mod exported {
    extern "C" {
        /// The kit number, 0 to 5.
        pub fn ritungkale_kit_number(bytes: *const u8, len: usize) -> u32;
        /// Fills the buffer with the printed play; gives how many bytes it filled. What does not fit is left out.
        pub fn ritungkale_play_text(bytes: *const u8, len: usize, out: *mut u8, room: usize) -> usize;
        /// The same for the printed room after n events.
        pub fn ritungkale_room_text(bytes: *const u8, len: usize, n: usize, out: *mut u8, room: usize) -> usize;
        /// Writes a kit: 16 times the bytes filled, plus the kit number.
        pub fn ritungkale_write_kit(numbers: *const u32, len: usize, out: *mut u8, room: usize) -> u64;
        /// Reads a kit's numbers: 16 times the numbers filled, plus the kit number (6: they do not fit).
        pub fn ritungkale_read_kit(bytes: *const u8, len: usize, numbers: *mut u32, room: usize) -> u64;
    }
}

/// The two numbers that `write_kit` and `read_kit` give in one.
fn taken_apart(result: u64) -> Result<usize, u8> {
    match result % 16 {
        0 => Ok((result / 16) as usize),
        number => Err(number as u8),
    }
}

pub fn kit_number(bytes: &[u8]) -> Result<u32, String> {
    let lent = Lent::full(bytes);
    // SAFETY: the pointer is valid for so many bytes, and the function reads them only during the call.
    let number = unsafe { exported::ritungkale_kit_number(lent.pointer(), lent.len()) };
    lent.is_still(bytes)?;
    Ok(number)
}

/// The printed play, in a buffer of so many bytes.
pub fn play_text(bytes: &[u8], room: usize) -> Result<Vec<u8>, String> {
    let (lent, mut out) = (Lent::full(bytes), Lent::empty(room));
    // SAFETY: both pointers are valid for so many bytes, they do not overlap, and they are used only during the call.
    let count = unsafe { exported::ritungkale_play_text(lent.pointer(), lent.len(), out.pointer_to_fill(), out.len()) };
    lent.is_still(bytes)?;
    out.filled(count).map(<[u8]>::to_vec)
}

/// The printed room after n events, in a buffer of so many bytes.
pub fn room_text(bytes: &[u8], n: usize, room: usize) -> Result<Vec<u8>, String> {
    let (lent, mut out) = (Lent::full(bytes), Lent::empty(room));
    // SAFETY: as for `play_text`.
    let count = unsafe { exported::ritungkale_room_text(lent.pointer(), lent.len(), n, out.pointer_to_fill(), out.len()) };
    lent.is_still(bytes)?;
    out.filled(count).map(<[u8]>::to_vec)
}

/// The bytes that the writer puts into a buffer of so many, or the kit number.
pub fn write_kit(numbers: &[u32], room: usize) -> Result<Result<Vec<u8>, u8>, String> {
    let (lent, mut out) = (Lent::full(numbers), Lent::empty(room));
    // SAFETY: as for `play_text`; the first pointer is one to so many aligned numbers.
    let result =
        taken_apart(unsafe { exported::ritungkale_write_kit(lent.pointer(), lent.len(), out.pointer_to_fill(), out.len()) });
    lent.is_still(numbers)?;
    let filled = out.filled(result.unwrap_or(0))?.to_vec();
    Ok(result.map(|_| filled))
}

/// The numbers that the reader puts into a buffer of so many, or the kit number.
pub fn read_kit(bytes: &[u8], room: usize) -> Result<Result<Vec<u32>, u8>, String> {
    let (lent, mut out) = (Lent::full(bytes), Lent::empty(room));
    // SAFETY: as for `play_text`; the second pointer is one to so many aligned numbers.
    let result =
        taken_apart(unsafe { exported::ritungkale_read_kit(lent.pointer(), lent.len(), out.pointer_to_fill(), out.len()) });
    lent.is_still(bytes)?;
    let filled = out.filled(result.unwrap_or(0))?.to_vec();
    Ok(result.map(|_| filled))
}

// ---- the same without the memory around, for measuring

/// The kit number.
pub fn plain_kit_number(bytes: &[u8]) -> u32 {
    // SAFETY: as above.
    unsafe { exported::ritungkale_kit_number(bytes.as_ptr(), bytes.len()) }
}

/// The printed play into a buffer.
pub fn plain_play_text(bytes: &[u8], out: &mut [u8]) -> usize {
    // SAFETY: as above.
    unsafe { exported::ritungkale_play_text(bytes.as_ptr(), bytes.len(), out.as_mut_ptr(), out.len()) }
}

/// The printed room into a buffer.
pub fn plain_room_text(bytes: &[u8], n: usize, out: &mut [u8]) -> usize {
    // SAFETY: as above.
    unsafe { exported::ritungkale_room_text(bytes.as_ptr(), bytes.len(), n, out.as_mut_ptr(), out.len()) }
}
