//! The limits: bare stores of as many octets as the records of the usual layout have. Nothing is
//! read. All that is unsafe in this program is here.

use std::hint::black_box;
use std::marker::PhantomData;
use std::mem::transmute;
use std::ptr::{from_mut, write_volatile};

#[cfg(target_arch = "aarch64")]
use std::arch::aarch64::uint64x2_t as Vector;
#[cfg(target_arch = "x86_64")]
use std::arch::x86_64::__m128i as Vector;

use crate::areas::Input;
use crate::loads::Packet;
use crate::pushers::{Pusher, most_records_of};

/// A record, as three pairs of words.
type Record = [u128; 3];

/// How many octets one store writes.
pub trait Width {
    /// Fills a pair of words with a number.
    fn fill(pair: &mut u128, number: u64);
}

/// Stores of 8 octets: six a record, in rising order. They are volatile, so that the compiler makes
/// one instruction of each and joins no two.
pub struct Of8;

/// Stores of 16 octets: three a record, in rising order, volatile too. Each is one of a vector
/// register, not one of two registers of 8 octets.
pub struct Of16;

impl Width for Of8 {
    #[inline(always)]
    fn fill(pair: &mut u128, number: u64) {
        let first: *mut u64 = from_mut(pair).cast();
        // SAFETY: a pair is two words, at a place that their size divides, and is borrowed to be
        // written; each number is one.
        unsafe {
            write_volatile(first, number);
            write_volatile(first.add(1), number);
        }
    }
}

impl Width for Of16 {
    #[inline(always)]
    fn fill(pair: &mut u128, number: u64) {
        let place: *mut Vector = from_mut(pair).cast();
        // SAFETY: a vector has the size and the alignment of a pair, which is borrowed to be
        // written, and any two words are one.
        unsafe { write_volatile(place, transmute::<[u64; 2], Vector>([number; 2])) };
    }
}

/// One that stores as many records as an area has, onto a tape of its own.
pub struct Stores<W> {
    tape: Vec<Record>,
    used: usize,
    width: PhantomData<W>,
}

impl<W> Stores<W> {
    /// With room for as many records as ours has for these packets.
    pub fn with_room_for(packets: &[Packet<'_>]) -> Self {
        Self {
            tape: vec![[0; 3]; most_records_of(packets)],
            used: 0,
            width: PhantomData,
        }
    }
}

impl<W: Width> Pusher<'_> for Stores<W> {
    fn empty(&mut self) {
        self.used = 0;
    }

    fn push(&mut self, area: Input<'_>) -> usize {
        let end = self.used + area.records;
        for record in &mut self.tape[self.used..end] {
            for pair in record {
                W::fill(pair, end as u64);
            }
        }
        self.used = end;
        black_box(&self.tape[..]);
        end
    }
}

#[cfg(test)]
mod tests {
    use std::slice;

    use super::*;
    use crate::areas::areas;

    /// Asserts that two pushes of five records fill ten, and no more.
    fn assert_fills<W: Width>() {
        let areas = areas();
        let packet = vec![areas[0].input(); 2];
        let mut stores = Stores::<W>::with_room_for(slice::from_ref(&packet));
        let counts: Vec<usize> = packet.iter().map(|area| stores.push(*area)).collect();
        assert_eq!(counts, [5, 10]);
        let record = |number: u64| [u128::from(number) * ((1 << 64) + 1); 3];
        let filled = [[record(5); 5], [record(10); 5]].concat();
        assert_eq!(stores.tape[..10], filled);
        assert!(stores.tape.len() > 10);
        assert!(stores.tape[10..].iter().all(|record| *record == [0; 3]));
    }

    #[test]
    fn stores_of_either_width_fill_the_records_of_an_area() {
        assert_fills::<Of8>();
        assert_fills::<Of16>();
    }

    #[test]
    fn an_emptied_tape_is_filled_from_its_front() {
        let areas = areas();
        let mut stores = Stores::<Of8>::with_room_for(&[vec![areas[0].input()]]);
        stores.push(areas[0].input());
        stores.empty();
        assert_eq!(stores.push(areas[0].input()), 5);
    }

    #[test]
    fn a_vector_is_a_pair_of_words() {
        assert_eq!(size_of::<Vector>(), size_of::<u128>());
        assert_eq!(align_of::<Vector>(), align_of::<u128>());
        assert_eq!(size_of::<Record>(), 48);
    }
}
