//! The proved engine on memory beside a page without access: a read or a write past that side of it ends the process. What a
//! call only reads is lent without leave to write.

use std::ffi::c_void;
use std::{ptr, slice};

use crate::archive::interface;
use crate::engine::Engine;
use crate::second::Counts;

mod system {
    use std::ffi::{c_int, c_void};

    pub const PROT_NONE: c_int = 0;
    pub const PROT_READ: c_int = 1;
    pub const PROT_WRITE: c_int = 2;
    pub const MAP_PRIVATE: c_int = 2;
    pub const MAP_ANONYMOUS: c_int = 0x20;

    extern "C" {
        pub fn mmap(
            at: *mut c_void,
            bytes: usize,
            access: c_int,
            flags: c_int,
            file: c_int,
            offset: i64,
        ) -> *mut c_void;

        pub fn mprotect(at: *mut c_void, bytes: usize, access: c_int) -> c_int;

        pub fn munmap(at: *mut c_void, bytes: usize) -> c_int;
    }
}

const PAGE: usize = 4096;

/// Where memory lies, and where the pointer of a memory of length 0 goes.
#[derive(Clone, Copy, Debug, PartialEq, Eq)]
pub enum Place {
    /// It ends at a page without access, to which it points if its length is 0.
    Before,
    /// It begins after a page without access, to which it points if its length is 0.
    After,
    /// It ends at a page without access; NULL if its length is 0.
    BeforeOrNull,
}

impl Place {
    pub const ALL: [Place; 3] = [Place::Before, Place::After, Place::BeforeOrNull];
}

/// A copy of some memory at a place: pages with access between two without.
pub struct Fenced<T: Copy> {
    mapped: *mut u8,
    bytes: usize,
    first: *mut T,
    length: usize,
}

impl<T: Copy> Fenced<T> {
    pub fn new(place: Place, contents: &[T]) -> Fenced<T> {
        let (length, size) = (contents.len(), size_of_val(contents));
        let inner = size.next_multiple_of(PAGE);
        let bytes = inner + 2 * PAGE;
        // SAFETY: a new mapping at no place that is asked for; the pointers made from it stay inside.
        unsafe {
            let flags = system::MAP_PRIVATE | system::MAP_ANONYMOUS;
            let mapped = system::mmap(ptr::null_mut(), bytes, system::PROT_NONE, flags, -1, 0);
            assert_ne!(mapped as isize, -1, "no memory to map");
            let mapped: *mut u8 = mapped.cast();
            let first = match (place, length) {
                (Place::BeforeOrNull, 0) => ptr::null_mut(),
                (Place::After, 0) => mapped,
                (Place::After, _) => mapped.add(PAGE),
                _ => mapped.add(PAGE + inner - size),
            };
            let fenced: Fenced<T> = Fenced {
                mapped,
                bytes,
                first: first.cast(),
                length,
            };
            if length > 0 {
                fenced.allow(system::PROT_READ | system::PROT_WRITE);
                fenced
                    .first
                    .copy_from_nonoverlapping(contents.as_ptr(), length);
            }
            fenced
        }
    }

    /// The same, not to be written.
    pub fn constant(place: Place, contents: &[T]) -> Fenced<T> {
        let fenced = Fenced::new(place, contents);
        fenced.allow(system::PROT_READ);
        fenced
    }

    fn allow(&self, access: i32) {
        let inner = self.bytes - 2 * PAGE;
        // SAFETY: the pages between the two without access are ours.
        let done = inner == 0
            || unsafe { system::mprotect(self.mapped.add(PAGE).cast(), inner, access) } == 0;
        assert!(done, "the access cannot be changed");
    }

    pub fn pointer(&self) -> *mut T {
        self.first
    }

    fn put_back(&self, into: &mut [T]) {
        if self.length > 0 {
            // SAFETY: so many elements were copied there.
            into.copy_from_slice(unsafe { slice::from_raw_parts(self.first, self.length) });
        }
    }
}

impl<T: Copy> Drop for Fenced<T> {
    fn drop(&mut self) {
        // SAFETY: our own mapping, and no pointer into it is used after this.
        unsafe { system::munmap(self.mapped.cast::<c_void>(), self.bytes) };
    }
}

/// The proved engine on copies of what it is lent, which lie at this place.
pub struct FencedArchive(pub Place);

type Call<'a> = &'a dyn Fn(*mut u64, usize, *mut u8, usize) -> u64;

impl FencedArchive {
    /// A call that may write state and tables.
    fn changing(&self, state: &mut [u64], tables: &mut [u8], call: Call) -> u64 {
        let words = Fenced::new(self.0, state);
        let bytes = Fenced::new(self.0, tables);
        let answer = call(words.pointer(), state.len(), bytes.pointer(), tables.len());
        words.put_back(state);
        bytes.put_back(tables);
        answer
    }

    /// A call that may write the tables, and only looks at the state.
    fn filling(&self, state: &[u64], tables: &mut [u8], call: Call) -> u64 {
        let words = Fenced::constant(self.0, state);
        let bytes = Fenced::new(self.0, tables);
        let answer = call(words.pointer(), state.len(), bytes.pointer(), tables.len());
        bytes.put_back(tables);
        answer
    }

    /// A call that only looks at them.
    fn looking(&self, state: &[u64], tables: &[u8], call: Call) -> u64 {
        let words = Fenced::constant(self.0, state);
        let bytes = Fenced::constant(self.0, tables);
        call(words.pointer(), state.len(), bytes.pointer(), tables.len())
    }
}

// SAFETY of every call below: each pointer is valid for its length, for writing where the call writes, and none overlap.
impl Engine for FencedArchive {
    fn name(&self) -> &str {
        "proved, fenced"
    }

    fn sound(&self, state: &mut [u64], tables: &mut [u8]) -> u64 {
        self.looking(state, tables, &|words, n, bytes, m| unsafe {
            interface::overlay_sound(words, n, bytes, m)
        })
    }

    fn found(&self, state: &mut [u64], tables: &mut [u8], settings: [u64; 3], id: u32) -> u64 {
        let [base, digits, depth] = settings;
        self.changing(state, tables, &|words, n, bytes, m| unsafe {
            interface::overlay_found(words, n, bytes, m, base, digits, depth, id)
        })
    }

    fn read(&self, state: &mut [u64], tables: &mut [u8], image: &[u8]) -> u64 {
        let length = image.len();
        let image = Fenced::constant(self.0, image);
        self.changing(state, tables, &|words, n, bytes, m| unsafe {
            interface::overlay_read(words, n, bytes, m, image.pointer(), length)
        })
    }

    fn begin(&self, state: &mut [u64], tables: &mut [u8], id: u32, gateway: u64) -> u64 {
        self.changing(state, tables, &|words, n, bytes, m| unsafe {
            interface::overlay_begin(words, n, bytes, m, id, gateway)
        })
    }

    fn withdraw(&self, state: &mut [u64], tables: &mut [u8], node: u64) -> u64 {
        self.changing(state, tables, &|words, n, bytes, m| unsafe {
            interface::overlay_withdraw(words, n, bytes, m, node)
        })
    }

    fn deliver(&self, state: &mut [u64], tables: &mut [u8], sender: u64, receiver: u64) -> u64 {
        self.changing(state, tables, &|words, n, bytes, m| unsafe {
            interface::overlay_deliver(words, n, bytes, m, sender, receiver)
        })
    }

    fn lookup(&self, state: &mut [u64], tables: &mut [u8], from: u64, to: u64, failed: u64) -> u64 {
        self.looking(state, tables, &|words, n, bytes, m| unsafe {
            interface::overlay_lookup(words, n, bytes, m, from, to, failed)
        })
    }

    fn verdict(&self, state: &mut [u64], tables: &mut [u8]) -> u64 {
        self.looking(state, tables, &|words, n, bytes, m| unsafe {
            interface::overlay_verdict(words, n, bytes, m)
        })
    }

    fn write(&self, state: &mut [u64], tables: &mut [u8], version: u64, out: &mut [u8]) -> u64 {
        let length = out.len();
        let fenced = Fenced::new(self.0, out);
        let answer = self.looking(state, tables, &|words, n, bytes, m| unsafe {
            interface::overlay_write(words, n, bytes, m, version, fenced.pointer(), length)
        });
        fenced.put_back(out);
        answer
    }

    fn survey(
        &self,
        state: &mut [u64],
        tables: &mut [u8],
        failed: u64,
        counts: &mut Counts,
    ) -> u64 {
        let fenced = Fenced::new(self.0, counts);
        let answer = self.looking(state, tables, &|words, n, bytes, m| unsafe {
            interface::overlay_survey(words, n, bytes, m, failed, fenced.pointer())
        });
        fenced.put_back(counts);
        answer
    }

    fn trace(&self, state: &mut [u64], tables: &mut [u8], trace: &[u8]) -> u64 {
        let length = trace.len();
        let trace = Fenced::constant(self.0, trace);
        self.looking(state, tables, &|words, n, bytes, m| unsafe {
            interface::overlay_trace(words, n, bytes, m, trace.pointer(), length)
        })
    }

    fn fill(&self, state: &mut [u64], tables: &mut [u8], out: &mut [u8]) -> u64 {
        let length = out.len();
        let fenced = Fenced::new(self.0, out);
        let answer = self.filling(state, tables, &|words, n, bytes, m| unsafe {
            interface::overlay_fill(words, n, bytes, m, fenced.pointer(), length)
        });
        fenced.put_back(out);
        answer
    }
}
