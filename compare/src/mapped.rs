//! Mapped memory: words that take no room until they are touched, for a tape of the greatest room,
//! and octets that a call must not touch.

use std::ffi::{c_int, c_long, c_void};
use std::ops::{Deref, DerefMut};
use std::ptr::{self, NonNull};
use std::slice;

/// Whether the numbers below are those of this system.
const IS_KNOWN: bool = cfg!(all(
    target_os = "linux",
    any(target_arch = "x86_64", target_arch = "aarch64")
));

/// The pages may be neither read nor written.
const NEITHER: c_int = 0;

/// The pages may be read and written.
const READ_AND_WRITE: c_int = 0x1 | 0x2;

/// The pages are this process's own, of no file, and nothing is set aside for them.
const PRIVATE_ANONYMOUS_UNRESERVED: c_int = 0x02 | 0x20 | 0x4000;

unsafe extern "C" {
    /// The system's call that maps pages.
    fn mmap(
        wanted: *mut c_void,
        length: usize,
        access: c_int,
        kind: c_int,
        file: c_int,
        offset: c_long,
    ) -> *mut c_void;
    /// The system's call that says what may be done with mapped pages.
    fn mprotect(start: *mut c_void, length: usize, access: c_int) -> c_int;
    /// The system's call that gives mapped pages back.
    fn munmap(start: *mut c_void, length: usize) -> c_int;
}

/// Words in mapped memory, all 0 at first.
#[derive(Debug)]
pub struct Mapped {
    start: NonNull<u64>,
    count: usize,
}

impl Mapped {
    /// So many words; nothing where the system does not give them.
    pub fn words(count: usize) -> Option<Self> {
        let length = count.checked_mul(size_of::<u64>())?;
        if !IS_KNOWN || length == 0 || isize::try_from(length).is_err() {
            return None;
        }
        // SAFETY: no place is asked for, so no memory in use is touched, and
        // a file of -1 is what pages of no file take.
        let start = unsafe {
            mmap(
                ptr::null_mut(),
                length,
                READ_AND_WRITE,
                PRIVATE_ANONYMOUS_UNRESERVED,
                -1,
                0,
            )
        };
        // The system says no with -1.
        if start.addr() == usize::MAX {
            return None;
        }
        NonNull::new(start.cast()).map(|start| Self { start, count })
    }
}

impl Deref for Mapped {
    type Target = [u64];

    fn deref(&self) -> &[u64] {
        // SAFETY: the words are mapped at a page's start, are 0 until they are
        // written, and stay while this does.
        unsafe { slice::from_raw_parts(self.start.as_ptr(), self.count) }
    }
}

impl DerefMut for Mapped {
    fn deref_mut(&mut self) -> &mut [u64] {
        // SAFETY: as for reading, and nothing else has the words.
        unsafe { slice::from_raw_parts_mut(self.start.as_ptr(), self.count) }
    }
}

impl Drop for Mapped {
    fn drop(&mut self) {
        let length = self.count * size_of::<u64>();
        // SAFETY: these pages were mapped with this length, and nothing has them any more.
        let given = unsafe { munmap(self.start.as_ptr().cast(), length) };
        assert_eq!(given, 0, "pages cannot be given back");
    }
}

/// Octets of which the first can be neither read nor written: who touches one ends the run.
#[derive(Debug)]
pub struct PartlyShut {
    words: Mapped,
    count: usize,
}

impl PartlyShut {
    /// How many of the first octets are shut: whole pages, whatever a page has.
    pub const SHUT: usize = 65_536;

    /// The shut octets and so many open ones, all 0; nothing where the system does not give them.
    pub fn with_open(open: usize) -> Option<Self> {
        let count = Self::SHUT.checked_add(open)?;
        let words = Mapped::words(count.div_ceil(size_of::<u64>()))?;
        // SAFETY: these pages were mapped above, and nothing refers to them yet.
        let answer = unsafe { mprotect(words.start.as_ptr().cast(), Self::SHUT, NEITHER) };
        (answer == 0).then_some(Self { words, count })
    }

    /// Where the octets start, the shut ones first.
    pub fn start(&mut self) -> *mut u8 {
        self.words.start.as_ptr().cast()
    }

    /// The number of all octets.
    pub fn count(&self) -> usize {
        self.count
    }

    /// The open octets.
    pub fn open(&mut self) -> &mut [u8] {
        // SAFETY: these octets are mapped behind the shut ones, can be read and written, stay while
        // this does, and nothing else has them.
        unsafe { slice::from_raw_parts_mut(self.start().add(Self::SHUT), self.count - Self::SHUT) }
    }
}

#[cfg(test)]
mod tests {
    use super::*;

    #[test]
    fn mapped_words_are_0_and_can_be_written() {
        let Some(mut words) = Mapped::words(1_000) else {
            return println!("this system maps no words");
        };
        assert_eq!(*words, [0; 1_000]);
        words[999] = 7;
        assert_eq!((words.len(), words[998], words[999]), (1_000, 0, 7));
    }

    #[test]
    fn octets_behind_shut_ones_are_0_and_can_be_written() {
        let Some(mut octets) = PartlyShut::with_open(3) else {
            return println!("this system shuts no octets");
        };
        assert_eq!(octets.open(), [0; 3]);
        octets.open()[2] = 7;
        assert_eq!(octets.open(), [0, 0, 7]);
        assert_eq!(octets.count(), PartlyShut::SHUT + 3);
    }

    #[test]
    fn more_words_than_there_can_be_are_not_mapped() {
        for count in [0, usize::MAX / 16, usize::MAX / 8, usize::MAX] {
            assert!(Mapped::words(count).is_none(), "{count}");
        }
    }
}
