//! What is common to the types that threads share: a handle, and the room for the ids of an answer.

use crate::{Answer, Refusal, Told, MOST_IDS};
use std::cell::UnsafeCell;
use std::ffi::c_void;
use std::ptr;

#[repr(C)]
pub(crate) struct Handle {
    at: *mut c_void,
    kind: u32,
}

extern "C" {
    fn eb_close(handle: *mut Handle);
}

/// A handle. One thread at a time can reach it, since it isn't `Sync`; and no call calls back, so one call at a time has it.
pub(crate) struct Side(UnsafeCell<Handle>);

// SAFETY: what a handle leads to may go to another thread, which the library proves.
unsafe impl Send for Side {}

impl Side {
    pub(crate) fn closed() -> Side {
        Side(UnsafeCell::new(Handle { at: ptr::null_mut(), kind: 0 }))
    }

    pub(crate) fn at(&self) -> *mut Handle {
        self.0.get()
    }

    pub(crate) fn is_closed(&mut self) -> bool {
        self.0.get_mut().kind == 0
    }
}

impl Drop for Side {
    fn drop(&mut self) {
        // SAFETY: a handle that no other call has, and that is used no more.
        unsafe { eb_close(self.at()) }
    }
}

/// The room for the ids of an answer.
pub(crate) struct Room(Vec<u64>);

impl Room {
    pub(crate) fn new() -> Room {
        Room(vec![0; MOST_IDS])
    }

    /// The answer of a call that is given the room for its ids and what it tells.
    pub(crate) fn answer(&mut self, ask: impl FnOnce(*mut u64, usize, &mut Told) -> u32) -> Result<Answer, Refusal> {
        let mut told = Told::default();
        let done = ask(self.0.as_mut_ptr(), self.0.len(), &mut told);
        Refusal::of(done, told.column)?;
        Ok(Answer { seen: told.seen, ids: self.0[..told.written as usize].to_vec() })
    }
}
