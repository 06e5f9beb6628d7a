//! Which slot has the row of a number: an array for each block of numbers.

use std::mem::MaybeUninit;

/// The slots of a block's numbers, by their places in it.
pub struct Slots<S, const COUNT: usize> {
    /// As many places, from the first one on, have been used.
    pub used: u16,
    slots: [MaybeUninit<S>; COUNT],
}

impl<S: Copy + PartialEq, const COUNT: usize> Slots<S, COUNT> {
    /// The slot of a place, or `nothing`.
    #[inline(always)]
    pub fn get(&self, place: u32, nothing: S) -> S {
        if place >= self.used.into() {
            return nothing;
        }
        self.of_used(place as u16)
    }

    /// The slot of a place that has been used.
    #[inline(always)]
    pub fn of_used(&self, place: u16) -> S {
        debug_assert!(place < self.used);
        // SAFETY: a place that has been used has a slot, or what is none
        unsafe { self.slots.get_unchecked(usize::from(place)).assume_init() }
    }

    /// Replaces the slot of a place that has been used.
    #[inline(always)]
    pub fn replace(&mut self, place: u16, slot: S) {
        debug_assert!(place < self.used);
        // SAFETY: so is it of the block
        unsafe { *self.slots.get_unchecked_mut(usize::from(place)) = MaybeUninit::new(slot) }
    }

    /// Gives this slot to the first place from the cursor on that has `nothing`, around the block. There is one.
    #[inline(always)]
    pub fn add(&mut self, cursor: u16, slot: S, nothing: S) -> u16 {
        let mut place = cursor;
        while place != self.used && self.of_used(place) != nothing {
            place = Self::after(place);
        }
        self.used += u16::from(place == self.used);
        self.replace(place, slot);
        place
    }

    #[inline(always)]
    pub fn after(place: u16) -> u16 {
        if usize::from(place) + 1 < COUNT {
            place + 1
        } else {
            0
        }
    }

    /// Uses as many places as others at least, each with `nothing` before it gets a slot.
    #[inline]
    pub fn use_as_many(&mut self, others: &Slots<S, COUNT>, nothing: S) {
        if let Some(more) = self.slots.get_mut(self.used.into()..others.used.into()) {
            more.fill(MaybeUninit::new(nothing));
            self.used = others.used;
        }
    }
}
