//! The proved library over its C boundary: all that is unsafe in this crate. The declarations are
//! those of include/wakkemosut.h.

use core::mem::MaybeUninit;

use crate::layout::{Slim, Usual};

/// The words of a record, as a read gives them.
pub type Words = [u64; 6];

/// The numbers that a call gives back.
#[repr(C)]
#[derive(Clone, Copy)]
pub struct Numbers {
    /// 0 when done, otherwise why the call was refused.
    pub(crate) answer: u64,
    /// The octets that complete entries cover.
    pub(crate) covered: u64,
    /// What was written: records, or the octets of a name.
    pub(crate) written: u64,
    /// The records that the call needs.
    pub(crate) needed: u64,
}

/// The form of the walk and push calls.
type AreaCall = unsafe extern "C" fn(
    area: *const u8,
    area_length: usize,
    base: u64,
    registry: u64,
    tape: *mut u64,
    words: usize,
    numbers: *mut Numbers,
);

/// The form of the clear call.
type ClearCall = unsafe extern "C" fn(tape: *mut u64, words: usize, numbers: *mut Numbers);

/// The form of the cut back call.
type CutBackCall =
    unsafe extern "C" fn(tape: *mut u64, words: usize, mark: u64, numbers: *mut Numbers);

/// The form of the read call.
type ReadCall = unsafe extern "C" fn(
    tape: *const u64,
    words: usize,
    at: u64,
    record: *mut Words,
    numbers: *mut Numbers,
);

/// The form of the nest test: 1 for yes, 0 for no.
type NestTestCall = unsafe extern "C" fn(tape: *const u64, words: usize) -> u8;

/// The library's calls on a tape of one layout.
///
/// # Safety
///
/// Each asks of its caller what include/wakkemosut.h says, and no more.
pub unsafe trait Calls {
    /// The walk call.
    const WALK: AreaCall;
    /// The push call.
    const PUSH: AreaCall;
    /// The clear call.
    const CLEAR: ClearCall;
    /// The cut back call.
    const CUT_BACK: CutBackCall;
    /// The read call.
    const READ: ReadCall;
    /// The nest test.
    const NEST_TEST: NestTestCall;
}

/// Declares the library's calls on a tape, and makes them those of a layout.
macro_rules! calls {
    ($layout:ident:
        $walk:ident, $push:ident, $clear:ident,
        $cut_back:ident, $read:ident, $nest_test:ident
    ) => {
        unsafe extern "C" {
            fn $walk(
                _: *const u8,
                _: usize,
                _: u64,
                _: u64,
                _: *mut u64,
                _: usize,
                _: *mut Numbers,
            );
            fn $push(
                _: *const u8,
                _: usize,
                _: u64,
                _: u64,
                _: *mut u64,
                _: usize,
                _: *mut Numbers,
            );
            fn $clear(_: *mut u64, _: usize, _: *mut Numbers);
            fn $cut_back(_: *mut u64, _: usize, _: u64, _: *mut Numbers);
            fn $read(_: *const u64, _: usize, _: u64, _: *mut Words, _: *mut Numbers);
            fn $nest_test(_: *const u64, _: usize) -> u8;
        }

        // SAFETY: these are functions of include/wakkemosut.h, declared as there.
        unsafe impl Calls for $layout {
            const WALK: AreaCall = $walk;
            const PUSH: AreaCall = $push;
            const CLEAR: ClearCall = $clear;
            const CUT_BACK: CutBackCall = $cut_back;
            const READ: ReadCall = $read;
            const NEST_TEST: NestTestCall = $nest_test;
        }
    };
}

calls! { Usual:
    wakkemosut_walk, wakkemosut_push, wakkemosut_clear,
    wakkemosut_cut_back, wakkemosut_read, wakkemosut_nest_test
}

calls! { Slim:
    wakkemosut_slim_walk, wakkemosut_slim_push, wakkemosut_slim_clear,
    wakkemosut_slim_cut_back, wakkemosut_slim_read, wakkemosut_slim_nest_test
}

unsafe extern "C" {
    /// The library's name call.
    fn wakkemosut_name(
        registry: u64,
        t: u64,
        out: *mut u8,
        out_length: usize,
        numbers: *mut Numbers,
    );
    /// The library's mask call.
    fn wakkemosut_mask(prefix: *mut u8, prefix_length: usize, bits: usize);
}

/// The numbers that a call writes to the place that it is given.
fn numbers(call: impl FnOnce(*mut Numbers)) -> Numbers {
    let mut numbers = MaybeUninit::uninit();
    call(numbers.as_mut_ptr());
    // SAFETY: each of the library's calls writes all four numbers, whatever it answers.
    unsafe { numbers.assume_init() }
}

/// Walks an area onto a tape.
pub(crate) fn walk<L: Calls>(tape: &mut [u64], registry: u64, base: u64, area: &[u8]) -> Numbers {
    let (octets, length) = (area.as_ptr(), area.len());
    // SAFETY: the area is good for reads, the tape for reads and writes, the numbers for writes for
    // the whole call, the lengths are theirs, and no two of them overlap.
    numbers(|to| unsafe {
        let (lent, words) = (tape.as_mut_ptr(), tape.len());
        L::WALK(octets, length, base, registry, lent, words, to)
    })
}

/// Pushes an area onto a tape.
pub(crate) fn push<L: Calls>(tape: &mut [u64], registry: u64, base: u64, area: &[u8]) -> Numbers {
    let (octets, length) = (area.as_ptr(), area.len());
    // SAFETY: as of the walk.
    numbers(|to| unsafe {
        let (lent, words) = (tape.as_mut_ptr(), tape.len());
        L::PUSH(octets, length, base, registry, lent, words, to)
    })
}

/// Writes the header of a tape without records.
pub(crate) fn clear<L: Calls>(tape: &mut [u64]) -> Numbers {
    // SAFETY: the tape is good for reads and writes, the numbers for writes for the whole call, the
    // length is the tape's, and the two do not overlap.
    numbers(|to| unsafe { L::CLEAR(tape.as_mut_ptr(), tape.len(), to) })
}

/// Lowers the count of records to a mark.
pub(crate) fn cut_back<L: Calls>(tape: &mut [u64], mark: u64) -> Numbers {
    // SAFETY: as of clear.
    numbers(|to| unsafe { L::CUT_BACK(tape.as_mut_ptr(), tape.len(), mark, to) })
}

/// Reads the record at a position.
pub(crate) fn read<L: Calls>(tape: &[u64], at: u64) -> (Words, Numbers) {
    let mut record = Words::default();
    // SAFETY: the tape is good for reads, the record and the numbers for writes for the whole call,
    // the length is the tape's, and no two of them overlap.
    let numbers = numbers(|to| unsafe {
        L::READ(tape.as_ptr(), tape.len(), at, &mut record, to);
    });
    (record, numbers)
}

/// Whether the used records split into trees.
pub(crate) fn nest_test<L: Calls>(tape: &[u64]) -> bool {
    // SAFETY: the tape is good for reads for the whole call, and the length is its.
    unsafe { L::NEST_TEST(tape.as_ptr(), tape.len()) == 1 }
}

/// Writes the name of a type to the front of the lent octets.
pub(crate) fn name(registry: u64, t: u64, out: &mut [u8]) -> Numbers {
    // SAFETY: the octets are good for reads and writes, the numbers for writes for the whole call,
    // the length is that of the octets, and the two do not overlap.
    numbers(|to| unsafe { wakkemosut_name(registry, t, out.as_mut_ptr(), out.len(), to) })
}

/// Clears the bits of a prefix after the first `bits`.
pub(crate) fn mask(prefix: &mut [u8], bits: usize) {
    // SAFETY: the prefix is good for reads and writes for the whole call, and the length is its.
    unsafe { wakkemosut_mask(prefix.as_mut_ptr(), prefix.len(), bits) };
}
