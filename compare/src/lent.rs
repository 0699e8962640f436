//! What is lent to a call: slices between guards, all filled so that a stray write shows.

use std::fmt;

use compare::ffi::Unit;
use reference::streams::Random;

use crate::cable::Run;

/// A slice with guards on both sides, at any alignment. Two are the same only if their guards are too.
#[derive(Clone, PartialEq, Eq)]
pub struct Lent<T> {
    whole: Vec<T>,
    start: usize,
}

impl<T: Copy + Fill> Lent<T> {
    /// Lends these elements.
    pub fn new(random: &mut Random, elements: &[T]) -> Self {
        let start = T::GUARD + random.below(T::GUARD);
        let mut whole: Vec<T> = (0..start).map(|_| T::fill(random)).collect();
        whole.extend_from_slice(elements);
        whole.extend((0..T::GUARD).map(|_| T::fill(random)));
        Self { whole, start }
    }

    /// Lends this many elements of any value.
    pub fn filled(random: &mut Random, length: usize) -> Self {
        let elements: Vec<T> = (0..length).map(|_| T::fill(random)).collect();
        Self::new(random, &elements)
    }

    /// The slice.
    pub fn get(&self) -> &[T] {
        &self.whole[self.start..self.whole.len() - T::GUARD]
    }

    /// The slice, to be written.
    pub fn get_mut(&mut self) -> &mut [T] {
        let end = self.whole.len() - T::GUARD;
        &mut self.whole[self.start..end]
    }

    /// What stands before the slice, the slice, and what stands behind it.
    pub fn parts(&self) -> [&[T]; 3] {
        let (before, rest) = self.whole.split_at(self.start);
        let (slice, behind) = rest.split_at(rest.len() - T::GUARD);
        [before, slice, behind]
    }
}

/// Elements that a slice can be filled with before it is lent.
pub trait Fill: Sized {
    /// How many of them stand behind each slice, and at least as many before it.
    const GUARD: usize = 16;

    /// Any element.
    fn fill(random: &mut Random) -> Self;
}

impl Fill for u8 {
    fn fill(random: &mut Random) -> Self {
        random.byte()
    }
}

impl Fill for usize {
    fn fill(random: &mut Random) -> Self {
        random.draw() as Self
    }
}

impl fmt::Debug for Lent<u8> {
    fn fmt(&self, f: &mut fmt::Formatter<'_>) -> fmt::Result {
        let [before, slice, behind] = self.parts().map(hex);
        write!(f, "{before} [{slice}] {behind}")
    }
}

impl fmt::Debug for Lent<usize> {
    fn fmt(&self, f: &mut fmt::Formatter<'_>) -> fmt::Result {
        let [before, slice, behind] = self.parts();
        write!(f, "{before:?} [{slice:?}] {behind:?}")
    }
}

/// Bytes as they are printed.
pub fn hex(bytes: &[u8]) -> String {
    bytes.iter().map(|byte| format!("{byte:02X}")).collect()
}

/// All that a call is given.
#[derive(Clone, PartialEq, Eq)]
pub struct Call {
    /// What the routine reads first: the input, patch, split, bank or master.
    pub first: Lent<u8>,
    /// What it reads or writes next: the buffer, output, name or second patch.
    pub second: Lent<u8>,
    /// What it reads or writes behind two patches: the list or the output.
    pub third: Lent<u8>,
    /// Where reports go.
    pub room: Lent<usize>,
    /// The place to walk from.
    pub place: usize,
    /// The number of a patch or a split, the bytes of an edit or an operation, or an ID.
    pub bytes: [u8; 4],
    /// The unit that a message is for.
    pub unit: Unit,
    /// A reader straight from the cable, which is fed what is read first.
    pub run: Option<Box<Run>>,
}

impl fmt::Display for Call {
    fn fmt(&self, f: &mut fmt::Formatter<'_>) -> fmt::Result {
        writeln!(f, "    first   {:?}", self.first)?;
        writeln!(f, "    second  {:?}", self.second)?;
        writeln!(f, "    third   {:?}", self.third)?;
        writeln!(f, "    room    {:?}", self.room)?;
        writeln!(f, "    place {}, bytes {:02X?}", self.place, self.bytes)?;
        write!(f, "    {:?}", self.unit)?;
        self.run.iter().try_for_each(|run| write!(f, "\n{run}"))
    }
}
