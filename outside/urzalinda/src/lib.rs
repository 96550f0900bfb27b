//! The proved scheduler for Rust: safe wrappers of the library of crates/driver. `unsafe` stands here and nowhere else.
//!
//! Each exported function takes any bytes at all, and tests for itself: its contract has no `requires`. What a caller owes is said by its types:
//! a pointer and a length are those of one slice, borrowed for the call, and slices that are written do not overlap others.
//! Refusals are answered by the numbers of README.md; a refused call changes no byte.

/// How many bytes a state takes.
pub const STATE_BYTES: usize = 1206;

unsafe extern "C" {
    fn urzalinda_replay(input: *const u8, input_len: usize, out: *mut u8, out_len: usize) -> u64;
    fn urzalinda_room(bytes: u64) -> u64;
    fn urzalinda_read_table(input: *const u8, len: usize) -> u64;
    fn urzalinda_refused_at(input: *const u8, len: usize) -> u64;
    fn urzalinda_fresh(table: *const u8, table_len: usize, state: *mut u8, state_len: usize) -> u32;
    fn urzalinda_apply(state: *mut u8, state_len: usize, event: *const u8, event_len: usize, memory: *mut u8, memory_len: usize) -> u32;
    fn urzalinda_running(state: *const u8, len: usize) -> u32;
    fn urzalinda_system_ceiling(state: *const u8, len: usize) -> u32;
    fn urzalinda_ceiling(state: *const u8, len: usize, resource: u8) -> u32;
    fn urzalinda_number_waiting(state: *const u8, len: usize) -> u32;
    fn urzalinda_waiting_word(state: *const u8, len: usize) -> u64;
    fn urzalinda_frame_start(state: *const u8, len: usize, memory_length: u64) -> u64;
    fn urzalinda_frame_length(state: *const u8, len: usize, memory_length: u64) -> u64;
}

/// An answer that is a number, or a refusal from 2^32 on.
fn said(answer: u64) -> Result<u64, u32> {
    match answer.checked_sub(1 << 32) {
        Some(refusal) => Err(refusal as u32),
        None => Ok(answer),
    }
}

/// An answer that is a number from 256 on, or a refusal below. 0 says nothing, and so it does as Ok(None).
fn said_small(answer: u32) -> Result<Option<u32>, u32> {
    match answer.checked_sub(256) {
        Some(number) => Ok(Some(number)),
        None if answer == 0 => Ok(None),
        None => Err(answer),
    }
}

/// The buffer that a replay of so many bytes needs.
pub fn room(bytes: usize) -> usize {
    // SAFETY: numbers alone.
    (unsafe { urzalinda_room(bytes as u64) }) as usize
}

/// Replays a log into a buffer: how many bytes were written, or the refusal.
pub fn replay(input: &[u8], out: &mut [u8]) -> Result<usize, u32> {
    // SAFETY: each pointer goes with its own slice's length, and both slices are borrowed for the call.
    let answer = unsafe { urzalinda_replay(input.as_ptr(), input.len(), out.as_mut_ptr(), out.len()) };
    said(answer).map(|written| written as usize)
}

/// How many bytes the table at the front takes, or the refusal.
pub fn read_table(input: &[u8]) -> Result<usize, u32> {
    // SAFETY: the pointer and the length are of one slice, borrowed for the call. So it is in each call below.
    said(unsafe { urzalinda_read_table(input.as_ptr(), input.len()) }).map(|bytes| bytes as usize)
}

/// The place of a refused table.
pub fn refused_at(input: &[u8]) -> u64 {
    // SAFETY: as above.
    unsafe { urzalinda_refused_at(input.as_ptr(), input.len()) }
}

/// A state, as the library holds it: bytes.
#[derive(Clone, Debug, PartialEq, Eq)]
pub struct State {
    pub bytes: Vec<u8>,
}

impl State {
    /// The fresh state of the table at the front of some bytes.
    pub fn fresh(table: &[u8]) -> Result<State, u32> {
        let mut state = State { bytes: vec![0; STATE_BYTES] };
        state.store_fresh(table).map(|()| state)
    }

    /// Stores the fresh state of the table at the front of some bytes over the bytes of this one.
    pub fn store_fresh(&mut self, table: &[u8]) -> Result<(), u32> {
        // SAFETY: as above; the table and the state are lent apart from each other.
        let answer = unsafe { urzalinda_fresh(table.as_ptr(), table.len(), self.bytes.as_mut_ptr(), self.bytes.len()) };
        if answer == 0 { Ok(()) } else { Err(answer) }
    }

    /// Applies the event at the front of some bytes: the job started, or the refusal.
    pub fn apply(&mut self, event: &[u8], memory: &mut [u8]) -> Result<Option<u32>, u32> {
        // SAFETY: as above; state and memory are lent apart from each other.
        said_small(unsafe {
            urzalinda_apply(self.bytes.as_mut_ptr(), self.bytes.len(), event.as_ptr(), event.len(), memory.as_mut_ptr(), memory.len())
        })
    }

    /// The running job, if any.
    pub fn running(&self) -> Result<Option<u32>, u32> {
        // SAFETY: as above.
        said_small(unsafe { urzalinda_running(self.bytes.as_ptr(), self.bytes.len()) })
    }

    /// The system ceiling: a level.
    pub fn system_ceiling(&self) -> Result<Option<u32>, u32> {
        // SAFETY: as above.
        said_small(unsafe { urzalinda_system_ceiling(self.bytes.as_ptr(), self.bytes.len()) })
    }

    /// The ceiling of a resource as its free units are: a level.
    pub fn ceiling(&self, resource: u8) -> Result<Option<u32>, u32> {
        // SAFETY: as above.
        said_small(unsafe { urzalinda_ceiling(self.bytes.as_ptr(), self.bytes.len(), resource) })
    }

    /// How many jobs wait.
    pub fn number_waiting(&self) -> Result<Option<u32>, u32> {
        // SAFETY: as above.
        said_small(unsafe { urzalinda_number_waiting(self.bytes.as_ptr(), self.bytes.len()) })
    }

    /// Which jobs wait: bit j is job j.
    pub fn waiting_word(&self) -> Result<u64, u32> {
        // SAFETY: as above.
        said(unsafe { urzalinda_waiting_word(self.bytes.as_ptr(), self.bytes.len()) })
    }

    /// Where the running job's frame starts in a memory of so many bytes.
    pub fn frame_start(&self, memory_length: usize) -> u64 {
        // SAFETY: as above.
        unsafe { urzalinda_frame_start(self.bytes.as_ptr(), self.bytes.len(), memory_length as u64) }
    }

    /// How long that frame is: 0 if the state or the memory is refused, or nothing runs.
    pub fn frame_length(&self, memory_length: usize) -> u64 {
        // SAFETY: as above.
        unsafe { urzalinda_frame_length(self.bytes.as_ptr(), self.bytes.len(), memory_length as u64) }
    }
    /// The running job's own part of the lent stack memory, to be written: empty if the state or the memory is refused, or nothing runs.
    pub fn running_frame<'a>(&self, memory: &'a mut [u8]) -> &'a mut [u8] {
        let start = self.frame_start(memory.len()) as usize;
        let length = self.frame_length(memory.len()) as usize;
        &mut memory[start..start + length]
    }
}
