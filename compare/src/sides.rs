//! The two sides that are held against each other: the proved library and the plain board. Both
//! read, check and run a sheet into the answer room and hand back the number of the sheet's answer.

use crate::board::answer::DONE;
use crate::sheet;
use std::hint::black_box;

pub type Side = fn(&[u8], &mut [u8]) -> u8;

/// The board is kept alive to the end of the run, as it is where somebody wants to see it.
pub fn plain(bytes: &[u8], room: &mut [u8]) -> u8 {
    match sheet::run(bytes, room) {
        Ok(board) => {
            black_box(&board);
            DONE
        }
        Err(refusal) => refusal,
    }
}

#[cfg(feature = "linked")]
pub fn ours() -> Result<Side, String> {
    // A slice is lent as a pointer and a length.
    extern "C" {
        fn sparkcushion_run(s: *const u8, s_length: usize, room: *mut u8, room_length: usize) -> u8;
    }
    fn run(bytes: &[u8], room: &mut [u8]) -> u8 {
        // SAFETY: the library reads the sheet and writes the room within the lengths it is given,
        // and keeps neither.
        unsafe { sparkcushion_run(bytes.as_ptr(), bytes.len(), room.as_mut_ptr(), room.len()) }
    }
    Ok(run)
}

#[cfg(not(feature = "linked"))]
pub fn ours() -> Result<Side, String> {
    Err("built without the proved library: run `rt lib` in crates/linked, then \
         `cargo build --release --offline --features linked`"
        .to_string())
}
