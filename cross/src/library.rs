//! The foreign call into the project's static library.

use crate::call::{Call, Outcome};

unsafe extern "C" {
    fn sklandupa_explain(
        file: *const u8,
        file_len: usize,
        trace: u32,
        budget: u32,
        room: *mut u8,
        room_len: usize,
        area: *mut u8,
        area_len: usize,
    ) -> u32;
}

/// The outcome of the library. It is lent copies of exactly the length that it
/// is told, so that a memory checker notices a step beyond them.
pub fn outcome(call: &Call) -> Outcome {
    let mut file = call.file.clone();
    let mut room = call.room.clone();
    let mut area = call.area.clone();
    // SAFETY: each pointer leads to as many bytes as stated beside it, or is
    // null beside a length of 0; the three memories are apart.
    let status = unsafe {
        sklandupa_explain(
            lent(&mut file, call.null),
            file.len(),
            call.trace,
            call.budget,
            lent(&mut room, call.null),
            room.len(),
            lent(&mut area, call.null),
            area.len(),
        )
    };
    Outcome {
        status,
        file,
        room,
        area,
    }
}

fn lent(memory: &mut [u8], null: bool) -> *mut u8 {
    if memory.is_empty() && null {
        std::ptr::null_mut()
    } else {
        memory.as_mut_ptr()
    }
}
