//! Memory that is lent to the library, between guard words in one allocation.

use std::fmt::Debug;

/// The number of guard words on each side.
const GUARD: usize = 8;

/// What stands in memory that nobody wrote. No result of a plan holds these numbers of 16 and 32 bits.
pub trait Word: Copy + Debug + PartialEq {
    fn pattern(at: usize) -> Self;

    /// Whether two words hold the same.
    fn same(self, other: Self) -> bool {
        self == other
    }
}

impl Word for u8 {
    fn pattern(at: usize) -> u8 {
        (at * 7 + 90) as u8
    }
}

impl Word for u16 {
    fn pattern(at: usize) -> u16 {
        0xA000 + (at % 0x1000) as u16
    }
}

impl Word for u32 {
    fn pattern(at: usize) -> u32 {
        0xA5A5_0000 + at as u32
    }
}

impl Word for f64 {
    fn pattern(at: usize) -> f64 {
        f64::from_bits(0x4A5A_5A5A_0000_0000 + at as u64)
    }

    /// The same bits, or NaN in both: sign and payload of a NaN are not fixed.
    fn same(self, other: f64) -> bool {
        self.to_bits() == other.to_bits() || self.is_nan() && other.is_nan()
    }
}

pub struct Guarded<T> {
    memory: Vec<T>,
    room: usize,
}

impl<T: Word> Guarded<T> {
    /// Room for so many entries, which hold the pattern, as the guards do.
    pub fn room(room: usize) -> Guarded<T> {
        Guarded { memory: (0..room + 2 * GUARD).map(T::pattern).collect(), room }
    }

    /// Exactly these entries between guards.
    pub fn holding(content: &[T]) -> Guarded<T> {
        let mut guarded = Guarded::room(content.len());
        guarded.lent().copy_from_slice(content);
        guarded
    }

    pub fn len(&self) -> usize {
        self.room
    }

    pub fn lent(&mut self) -> &mut [T] {
        &mut self.memory[GUARD..GUARD + self.room]
    }

    pub fn shown(&self) -> &[T] {
        &self.memory[GUARD..GUARD + self.room]
    }

    /// The first lent entry, by a pointer that may read and write the whole allocation.
    pub fn pointer(&mut self) -> *mut T {
        self.memory[..].as_mut_ptr().wrapping_add(GUARD)
    }

    /// The whole allocation is the pattern, but for `front`, which stands at the front of the lent entries.
    pub fn check(&self, front: &[T], what: &str) {
        assert!(front.len() <= self.room, "{what}: {} entries expected where {} have room", front.len(), self.room);
        let behind = GUARD + front.len();
        let untouched = |from: usize, to: usize| (from..to).find(|at| !self.memory[*at].same(T::pattern(*at)));
        assert_eq!(untouched(0, GUARD), None, "{what}: a guard word before the slice has changed");
        let differs = (0..front.len()).find(|at| !self.memory[GUARD + at].same(front[*at]));
        if let Some(at) = differs {
            panic!("{what}: entry {at} is {:?}, expected {:?}", self.memory[GUARD + at], front[at]);
        }
        assert_eq!(
            untouched(behind, self.memory.len()),
            None,
            "{what}: an entry past those used, or a guard, has changed"
        );
    }
}

/// Memory that holds a changed guard word, or a changed entry past those used, is found.
#[test]
fn every_word_is_watched() {
    for at in 0..2 * GUARD + 5 {
        let mut memory = Guarded::<u16>::room(5);
        memory.lent()[..2].copy_from_slice(&[1, 2]);
        memory.check(&[1, 2], "as found");
        memory.memory[at] ^= 1;
        assert!(std::panic::catch_unwind(|| memory.check(&[1, 2], "changed")).is_err());
    }
}

/// Bits count, so that -0.0 is not 0.0, but those of a NaN do not.
#[test]
fn floats_are_compared_by_bits() {
    let nan = f64::from_bits(0xFFF8_0000_0000_0001);
    let pairs = [(0.0, -0.0, false), (-0.0, -0.0, true), (f64::NAN, nan, true), (nan, 1.0, false), (1.0, nan, false)];
    for (a, b, same) in pairs {
        assert_eq!(Word::same(a, b), same, "{a} and {b}");
    }
}
