//! The proved engine, linked from its archive by the C interface. A slice passes as a pointer and a length.

use crate::engine::Engine;
use crate::second::Counts;

/// The functions of the archive, as `include/overlay.h` declares them.
pub mod interface {
    extern "C" {
        pub fn overlay_found(
            state: *mut u64,
            state_len: usize,
            tables: *mut u8,
            tables_len: usize,
            base: u64,
            digits: u64,
            depth: u64,
            id: u32,
        ) -> u64;

        pub fn overlay_read(
            state: *mut u64,
            state_len: usize,
            tables: *mut u8,
            tables_len: usize,
            image: *const u8,
            image_len: usize,
        ) -> u64;

        pub fn overlay_begin(
            state: *mut u64,
            state_len: usize,
            tables: *mut u8,
            tables_len: usize,
            id: u32,
            gateway: u64,
        ) -> u64;

        pub fn overlay_withdraw(
            state: *mut u64,
            state_len: usize,
            tables: *mut u8,
            tables_len: usize,
            node: u64,
        ) -> u64;

        pub fn overlay_deliver(
            state: *mut u64,
            state_len: usize,
            tables: *mut u8,
            tables_len: usize,
            sender: u64,
            receiver: u64,
        ) -> u64;

        pub fn overlay_lookup(
            state: *const u64,
            state_len: usize,
            tables: *const u8,
            tables_len: usize,
            from: u64,
            to: u64,
            failed: u64,
        ) -> u64;

        pub fn overlay_verdict(
            state: *const u64,
            state_len: usize,
            tables: *const u8,
            tables_len: usize,
        ) -> u64;

        pub fn overlay_write(
            state: *const u64,
            state_len: usize,
            tables: *const u8,
            tables_len: usize,
            version: u64,
            out: *mut u8,
            out_len: usize,
        ) -> u64;

        pub fn overlay_sound(
            state: *const u64,
            state_len: usize,
            tables: *const u8,
            tables_len: usize,
        ) -> u64;

        /// To `counts` go nine words.
        pub fn overlay_survey(
            state: *const u64,
            state_len: usize,
            tables: *const u8,
            tables_len: usize,
            failed: u64,
            counts: *mut u64,
        ) -> u64;

        pub fn overlay_trace(
            state: *const u64,
            state_len: usize,
            tables: *const u8,
            tables_len: usize,
            trace: *const u8,
            trace_len: usize,
        ) -> u64;

        pub fn overlay_fill(
            state: *const u64,
            state_len: usize,
            tables: *mut u8,
            tables_len: usize,
            out: *mut u8,
            out_len: usize,
        ) -> u64;
    }
}

/// The proved engine.
pub struct Archive;

// SAFETY of every call below: the slices are valid for their lengths, may be written where the call writes, and do not
// overlap.
impl Engine for Archive {
    fn name(&self) -> &str {
        "proved"
    }

    fn sound(&self, state: &mut [u64], tables: &mut [u8]) -> u64 {
        let (words, bytes) = (state.len(), tables.len());
        unsafe { interface::overlay_sound(state.as_mut_ptr(), words, tables.as_mut_ptr(), bytes) }
    }

    fn found(&self, state: &mut [u64], tables: &mut [u8], settings: [u64; 3], id: u32) -> u64 {
        let (words, bytes) = (state.len(), tables.len());
        let (state, tables) = (state.as_mut_ptr(), tables.as_mut_ptr());
        let [base, digits, depth] = settings;
        unsafe { interface::overlay_found(state, words, tables, bytes, base, digits, depth, id) }
    }

    fn read(&self, state: &mut [u64], tables: &mut [u8], image: &[u8]) -> u64 {
        let (words, bytes) = (state.len(), tables.len());
        let (state, tables) = (state.as_mut_ptr(), tables.as_mut_ptr());
        unsafe { interface::overlay_read(state, words, tables, bytes, image.as_ptr(), image.len()) }
    }

    fn begin(&self, state: &mut [u64], tables: &mut [u8], id: u32, gateway: u64) -> u64 {
        let (words, bytes) = (state.len(), tables.len());
        let (state, tables) = (state.as_mut_ptr(), tables.as_mut_ptr());
        unsafe { interface::overlay_begin(state, words, tables, bytes, id, gateway) }
    }

    fn withdraw(&self, state: &mut [u64], tables: &mut [u8], node: u64) -> u64 {
        let (words, bytes) = (state.len(), tables.len());
        let (state, tables) = (state.as_mut_ptr(), tables.as_mut_ptr());
        unsafe { interface::overlay_withdraw(state, words, tables, bytes, node) }
    }

    fn deliver(&self, state: &mut [u64], tables: &mut [u8], sender: u64, receiver: u64) -> u64 {
        let (words, bytes) = (state.len(), tables.len());
        let (state, tables) = (state.as_mut_ptr(), tables.as_mut_ptr());
        unsafe { interface::overlay_deliver(state, words, tables, bytes, sender, receiver) }
    }

    fn lookup(&self, state: &mut [u64], tables: &mut [u8], from: u64, to: u64, failed: u64) -> u64 {
        let (words, bytes) = (state.len(), tables.len());
        let (state, tables) = (state.as_mut_ptr(), tables.as_mut_ptr());
        unsafe { interface::overlay_lookup(state, words, tables, bytes, from, to, failed) }
    }

    fn verdict(&self, state: &mut [u64], tables: &mut [u8]) -> u64 {
        let (words, bytes) = (state.len(), tables.len());
        unsafe { interface::overlay_verdict(state.as_mut_ptr(), words, tables.as_mut_ptr(), bytes) }
    }

    fn write(&self, state: &mut [u64], tables: &mut [u8], version: u64, out: &mut [u8]) -> u64 {
        let (words, bytes, length) = (state.len(), tables.len(), out.len());
        let (state, tables, out) = (state.as_mut_ptr(), tables.as_mut_ptr(), out.as_mut_ptr());
        unsafe { interface::overlay_write(state, words, tables, bytes, version, out, length) }
    }

    fn survey(
        &self,
        state: &mut [u64],
        tables: &mut [u8],
        failed: u64,
        counts: &mut Counts,
    ) -> u64 {
        let (words, bytes) = (state.len(), tables.len());
        let (state, tables) = (state.as_mut_ptr(), tables.as_mut_ptr());
        let counts = counts.as_mut_ptr();
        unsafe { interface::overlay_survey(state, words, tables, bytes, failed, counts) }
    }

    fn trace(&self, state: &mut [u64], tables: &mut [u8], trace: &[u8]) -> u64 {
        let (words, bytes) = (state.len(), tables.len());
        let (state, tables) = (state.as_mut_ptr(), tables.as_mut_ptr());
        unsafe {
            interface::overlay_trace(state, words, tables, bytes, trace.as_ptr(), trace.len())
        }
    }

    fn fill(&self, state: &mut [u64], tables: &mut [u8], out: &mut [u8]) -> u64 {
        let (words, bytes, length) = (state.len(), tables.len(), out.len());
        let (state, tables, out) = (state.as_mut_ptr(), tables.as_mut_ptr(), out.as_mut_ptr());
        unsafe { interface::overlay_fill(state, words, tables, bytes, out, length) }
    }
}
