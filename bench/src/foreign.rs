//! The function under test, and a call of it that watches the bytes around its buffers.

#[cfg(feature = "foreign")]
pub fn replay(list: &[u8], out: &mut [u8]) -> u32 {
    unsafe extern "C" {
        fn two_gate_replay(list: *const u8, list_len: usize, out: *mut u8, out_len: usize) -> u32;
    }
    // The function reads `list_len` bytes and writes at most `out_len`.
    unsafe { two_gate_replay(list.as_ptr(), list.len(), out.as_mut_ptr(), out.len()) }
}

#[cfg(not(feature = "foreign"))]
pub use crate::replay::replay;

#[cfg(feature = "foreign")]
pub const NAME: &str = "two_gate_replay";
#[cfg(not(feature = "foreign"))]
pub const NAME: &str = "the plain board again";

const GUARD: usize = 64;

/// A buffer with guard bytes on either side.
#[derive(Default)]
struct Guarded {
    bytes: Vec<u8>,
}

impl Guarded {
    fn fill(&mut self, len: usize, guard: u8) -> &mut [u8] {
        self.bytes.clear();
        self.bytes.resize(GUARD + len + GUARD, guard);
        &mut self.bytes[GUARD..GUARD + len]
    }

    fn inner(&self) -> &[u8] {
        &self.bytes[GUARD..self.bytes.len() - GUARD]
    }

    fn guards_stand(&self, guard: u8) -> bool {
        let (before, rest) = self.bytes.split_at(GUARD);
        let after = &rest[rest.len() - GUARD..];
        before.iter().chain(after).all(|byte| *byte == guard)
    }
}

/// Buffers for calls, used again and again.
#[derive(Default)]
pub struct Caller {
    list: Guarded,
    out: Guarded,
}

impl Caller {
    /// Plays a list with `room` bytes for the answers, all bytes around and in `out` being
    /// `guard` before. Says what bytes it changed that are not its own.
    pub fn call(&mut self, list: &[u8], room: usize, guard: u8) -> Result<(u32, &[u8]), String> {
        self.list.fill(list.len(), guard).copy_from_slice(list);
        let out = self.out.fill(room, guard);
        let code = replay(self.list.inner(), out);
        if !self.out.guards_stand(guard) {
            return Err("bytes next to `out` were changed".to_string());
        }
        if !self.list.guards_stand(guard) || self.list.inner() != list {
            return Err("the list or bytes next to it were changed".to_string());
        }
        Ok((code, self.out.inner()))
    }
}
