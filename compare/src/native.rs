//! The proved library over its C boundary.

// The binding links the library; nothing else of it is used here.
use wakkemosut as _;

use crate::layout::Layout;
use crate::mapped::PartlyShut;

/// The numbers that a call gives back.
#[repr(C)]
#[derive(Clone, Copy, Debug, PartialEq, Eq)]
pub struct Outcome {
    /// 0 when done, otherwise why the call was refused.
    pub answer: u64,
    /// The octets that complete entries cover.
    pub covered: u64,
    /// What was written: records, or the octets of a name.
    pub written: u64,
    /// The records that the call needs.
    pub needed: u64,
}

impl Outcome {
    /// An outcome that no call gives.
    const UNSET: Self = Self {
        answer: u64::MAX,
        covered: u64::MAX,
        written: u64::MAX,
        needed: u64::MAX,
    };
}

/// Words beside a lent place.
const GUARD: [u64; 4] = [0x5A5A_A5A5_0123_4567; 4];

/// A place that is lent for a result, between words that must stay.
#[repr(C)]
struct Guarded<Place> {
    before: [u64; 4],
    place: Place,
    after: [u64; 4],
}

impl<Place> Guarded<Place> {
    /// A place that holds this.
    fn holding(place: Place) -> Self {
        Self {
            before: GUARD,
            place,
            after: GUARD,
        }
    }

    /// What the place holds, where the words beside it stayed.
    fn opened(self) -> Place {
        assert_eq!((self.before, self.after), (GUARD, GUARD), "beside a place");
        self.place
    }
}

/// A record as a read gives it, in either layout: word 0, start, end, number, first child, child
/// end.
pub type Record = [u64; 6];

/// An area that is lent to a walk or a push.
#[derive(Clone, Copy, Debug, PartialEq, Eq)]
pub struct Area<'a> {
    /// The number of the registry.
    pub registry: u64,
    /// The place of the first octet.
    pub base: u64,
    /// The octets to be walked.
    pub octets: &'a [u8],
}

impl<'a> Area<'a> {
    /// These octets at this base, in this registry.
    pub fn new(registry: u64, base: u64, octets: &'a [u8]) -> Self {
        Self {
            registry,
            base,
            octets,
        }
    }
}

/// The form of the library's walk and push calls.
type OnArea = unsafe extern "C" fn(
    area: *const u8,
    area_length: usize,
    base: u64,
    registry: u64,
    tape: *mut u64,
    words: usize,
    outcome: *mut Outcome,
);

/// A record that no call gives.
const UNSET_RECORD: Record = [u64::MAX; 6];

unsafe extern "C" {
    /// The library's name call.
    fn wakkemosut_name(registry: u64, t: u64, out: *mut u8, length: usize, outcome: *mut Outcome);
    /// The library's mask call.
    fn wakkemosut_mask(prefix: *mut u8, length: usize, bits: usize);
}

/// The library's calls on tapes of one layout.
struct Calls {
    /// Clear.
    clear: unsafe extern "C" fn(tape: *mut u64, length: usize, outcome: *mut Outcome),
    /// Cut back.
    cut_back: unsafe extern "C" fn(tape: *mut u64, length: usize, mark: u64, outcome: *mut Outcome),
    /// Read.
    read: unsafe extern "C" fn(
        tape: *const u64,
        length: usize,
        at: u64,
        record: *mut Record,
        outcome: *mut Outcome,
    ),
    /// The nest test: 1 for yes, 0 for no.
    nest_test: unsafe extern "C" fn(tape: *const u64, length: usize) -> u8,
    /// Walk.
    walk: OnArea,
    /// Push.
    push: OnArea,
}

/// Declares the library's calls on tapes of one layout, and gathers them under a name.
macro_rules! calls {
    (
        $name:ident: $clear:ident $cut_back:ident $read:ident
        $nest_test:ident $walk:ident $push:ident
    ) => {
        unsafe extern "C" {
            /// The library's clear call.
            fn $clear(tape: *mut u64, length: usize, outcome: *mut Outcome);
            /// The library's cut back call.
            fn $cut_back(tape: *mut u64, length: usize, mark: u64, outcome: *mut Outcome);
            /// The library's read call.
            fn $read(
                tape: *const u64,
                length: usize,
                at: u64,
                record: *mut Record,
                outcome: *mut Outcome,
            );
            /// The library's nest test.
            fn $nest_test(tape: *const u64, length: usize) -> u8;
            /// The library's walk call.
            fn $walk(
                area: *const u8,
                area_length: usize,
                base: u64,
                registry: u64,
                tape: *mut u64,
                words: usize,
                outcome: *mut Outcome,
            );
            /// The library's push call.
            fn $push(
                area: *const u8,
                area_length: usize,
                base: u64,
                registry: u64,
                tape: *mut u64,
                words: usize,
                outcome: *mut Outcome,
            );
        }

        /// The calls of this layout.
        static $name: Calls = Calls {
            clear: $clear,
            cut_back: $cut_back,
            read: $read,
            nest_test: $nest_test,
            walk: $walk,
            push: $push,
        };
    };
}

calls! {
    USUAL:
    wakkemosut_clear
    wakkemosut_cut_back
    wakkemosut_read
    wakkemosut_nest_test
    wakkemosut_walk
    wakkemosut_push
}

calls! {
    SLIM:
    wakkemosut_slim_clear
    wakkemosut_slim_cut_back
    wakkemosut_slim_read
    wakkemosut_slim_nest_test
    wakkemosut_slim_walk
    wakkemosut_slim_push
}

/// The library's calls on tapes of this layout.
fn calls(layout: Layout) -> &'static Calls {
    match layout {
        Layout::Usual => &USUAL,
        Layout::Slim => &SLIM,
    }
}

/// Writes the name of a type to the front of the lent octets.
pub fn name(registry: u64, t: u64, out: &mut [u8]) -> Outcome {
    let mut outcome = Guarded::holding(Outcome::UNSET);
    // SAFETY: both pointers are good for writes for the whole call, and the
    // length is that of the lent octets.
    unsafe { wakkemosut_name(registry, t, out.as_mut_ptr(), out.len(), &mut outcome.place) };
    outcome.opened()
}

/// Asks for the name of a type and lends nothing: a null pointer with a length of 0.
pub fn name_into_nothing(registry: u64, t: u64) -> Outcome {
    let mut outcome = Guarded::holding(Outcome::UNSET);
    // SAFETY: the outcome is good for writes for the whole call, and no octet is lent.
    unsafe { wakkemosut_name(registry, t, std::ptr::null_mut(), 0, &mut outcome.place) };
    outcome.opened()
}

/// Masks nothing: a null pointer with a length of 0.
pub fn mask_nothing(bits: usize) {
    // SAFETY: no octet is lent.
    unsafe { wakkemosut_mask(std::ptr::null_mut(), 0, bits) };
}

/// Clears the bits of the lent prefix after the first `bits`.
pub fn mask(prefix: &mut [u8], bits: usize) {
    // SAFETY: the pointer is good for reads and writes for the whole call,
    // and the length is that of the lent prefix.
    unsafe { wakkemosut_mask(prefix.as_mut_ptr(), prefix.len(), bits) };
}

/// Clears the bits of the lent octets after the first `bits`; where the call touches a shut one, the
/// run ends.
pub fn mask_partly_shut(octets: &mut PartlyShut, bits: usize) {
    // SAFETY: the octets are mapped, and the length is theirs; those that are shut can be neither
    // read nor written, by no mistake of the library either.
    unsafe { wakkemosut_mask(octets.start(), octets.count(), bits) };
}

/// Writes the header of an empty tape.
pub fn clear(layout: Layout, tape: &mut [u64]) -> Outcome {
    let mut outcome = Guarded::holding(Outcome::UNSET);
    // SAFETY: both pointers are good for reads and writes for the whole call,
    // and the length is that of the lent tape.
    unsafe { (calls(layout).clear)(tape.as_mut_ptr(), tape.len(), &mut outcome.place) };
    outcome.opened()
}

/// Clears nothing: a null pointer with a length of 0.
pub fn clear_nothing(layout: Layout) -> Outcome {
    let mut outcome = Guarded::holding(Outcome::UNSET);
    // SAFETY: the outcome is good for writes for the whole call, and no word is lent.
    unsafe { (calls(layout).clear)(std::ptr::null_mut(), 0, &mut outcome.place) };
    outcome.opened()
}

/// Lowers the count of records to a mark.
pub fn cut_back(layout: Layout, tape: &mut [u64], mark: u64) -> Outcome {
    let mut outcome = Guarded::holding(Outcome::UNSET);
    // SAFETY: both pointers are good for reads and writes for the whole call,
    // and the length is that of the lent tape.
    unsafe { (calls(layout).cut_back)(tape.as_mut_ptr(), tape.len(), mark, &mut outcome.place) };
    outcome.opened()
}

/// Cuts nothing back: a null pointer with a length of 0.
pub fn cut_back_nothing(layout: Layout, mark: u64) -> Outcome {
    let mut outcome = Guarded::holding(Outcome::UNSET);
    // SAFETY: the outcome is good for writes for the whole call, and no word is lent.
    unsafe { (calls(layout).cut_back)(std::ptr::null_mut(), 0, mark, &mut outcome.place) };
    outcome.opened()
}

/// Reads the record at a position.
pub fn read(layout: Layout, tape: &[u64], at: u64) -> (Record, Outcome) {
    let mut record = Guarded::holding(UNSET_RECORD);
    let mut outcome = Guarded::holding(Outcome::UNSET);
    // SAFETY: the tape is good for reads, the record and the outcome are good
    // for writes for the whole call, and the length is that of the lent tape.
    unsafe {
        (calls(layout).read)(
            tape.as_ptr(),
            tape.len(),
            at,
            &mut record.place,
            &mut outcome.place,
        )
    };
    (record.opened(), outcome.opened())
}

/// Reads a record of nothing: a null pointer with a length of 0.
pub fn read_nothing(layout: Layout, at: u64) -> (Record, Outcome) {
    let mut record = Guarded::holding(UNSET_RECORD);
    let mut outcome = Guarded::holding(Outcome::UNSET);
    // SAFETY: the record and the outcome are good for writes for the whole
    // call, and no word is lent.
    unsafe {
        (calls(layout).read)(
            std::ptr::null(),
            0,
            at,
            &mut record.place,
            &mut outcome.place,
        )
    };
    (record.opened(), outcome.opened())
}

/// Whether the used records split into trees.
pub fn nest_test(layout: Layout, tape: &[u64]) -> bool {
    // SAFETY: the pointer is good for reads for the whole call, and the
    // length is that of the lent tape.
    yes_or_no(unsafe { (calls(layout).nest_test)(tape.as_ptr(), tape.len()) })
}

/// Tests the nest of nothing: a null pointer with a length of 0.
pub fn nest_test_nothing(layout: Layout) -> bool {
    // SAFETY: no word is lent.
    yes_or_no(unsafe { (calls(layout).nest_test)(std::ptr::null(), 0) })
}

/// Appends what a walk shows of an area to the tape.
pub fn walk(layout: Layout, area: Area<'_>, tape: &mut [u64]) -> Outcome {
    append(calls(layout).walk, area, tape)
}

/// Appends what a push shows of an area to the tape.
pub fn push(layout: Layout, area: Area<'_>, tape: &mut [u64]) -> Outcome {
    append(calls(layout).push, area, tape)
}

/// Walks no octets onto no tape: null pointers with a length of 0.
pub fn walk_nothing(layout: Layout, registry: u64, base: u64) -> Outcome {
    append_nothing(calls(layout).walk, registry, base)
}

/// Pushes no octets onto no tape: null pointers with a length of 0.
pub fn push_nothing(layout: Layout, registry: u64, base: u64) -> Outcome {
    append_nothing(calls(layout).push, registry, base)
}

/// Walks no octets, a null pointer with a length of 0, onto this tape.
pub fn walk_no_octets(layout: Layout, registry: u64, base: u64, tape: &mut [u64]) -> Outcome {
    append_no_octets(calls(layout).walk, registry, base, tape)
}

/// Pushes no octets, a null pointer with a length of 0, onto this tape.
pub fn push_no_octets(layout: Layout, registry: u64, base: u64, tape: &mut [u64]) -> Outcome {
    append_no_octets(calls(layout).push, registry, base, tape)
}

/// Appends what a call shows of an area to the tape.
fn append(call: OnArea, area: Area<'_>, tape: &mut [u64]) -> Outcome {
    let Area {
        registry,
        base,
        octets,
    } = area;
    let (start, length) = (octets.as_ptr(), octets.len());
    let mut outcome = Guarded::holding(Outcome::UNSET);
    let place = &mut outcome.place;
    // SAFETY: the area is good for reads, the tape and the outcome are good
    // for reads and writes for the whole call, no two of them overlap, and
    // the lengths are those of the lent area and the lent tape.
    unsafe {
        call(
            start,
            length,
            base,
            registry,
            tape.as_mut_ptr(),
            tape.len(),
            place,
        )
    };
    outcome.opened()
}

/// Lends a call null pointers with a length of 0.
fn append_nothing(call: OnArea, registry: u64, base: u64) -> Outcome {
    let (area, tape) = (std::ptr::null(), std::ptr::null_mut());
    let mut outcome = Guarded::holding(Outcome::UNSET);
    // SAFETY: the outcome is good for writes for the whole call, and neither
    // an octet nor a word is lent.
    unsafe { call(area, 0, base, registry, tape, 0, &mut outcome.place) };
    outcome.opened()
}

/// Lends a call a tape, and for the area a null pointer with a length of 0.
fn append_no_octets(call: OnArea, registry: u64, base: u64, tape: &mut [u64]) -> Outcome {
    let area = std::ptr::null();
    let (words, count) = (tape.as_mut_ptr(), tape.len());
    let mut outcome = Guarded::holding(Outcome::UNSET);
    // SAFETY: the tape and the outcome are good for reads and writes for the
    // whole call, the count is that of the lent tape, and no octet is lent.
    unsafe { call(area, 0, base, registry, words, count, &mut outcome.place) };
    outcome.opened()
}

/// What the nest test's octet says.
fn yes_or_no(octet: u8) -> bool {
    match octet {
        0 => false,
        1 => true,
        _ => panic!("the nest test gives {octet}, neither 0 nor 1"),
    }
}

#[cfg(test)]
mod tests {
    use super::*;

    #[test]
    fn a_place_gives_what_it_holds() {
        assert_eq!(Guarded::holding(7).opened(), 7);
    }

    #[test]
    #[should_panic(expected = "beside a place")]
    fn a_word_that_changed_before_a_place_is_seen() {
        let mut guarded = Guarded::holding(7);
        guarded.before[3] += 1;
        guarded.opened();
    }

    #[test]
    #[should_panic(expected = "beside a place")]
    fn a_word_that_changed_after_a_place_is_seen() {
        let mut guarded = Guarded::holding(7);
        guarded.after[0] += 1;
        guarded.opened();
    }
}
