//! A buffer to lend: noise before it, in it and after it, so that a number
//! written where none is due shows, inside the lent part or beyond it. And a
//! text to lend, between bytes that would carry it on.

use second::random::Random;
use std::fmt::{self, Debug};

const GUARD: usize = 16;

pub struct Lent<T> {
    all: Vec<T>,
    before: Vec<T>,
    room: usize,
}

impl<T: Copy + PartialEq + Debug> Lent<T> {
    pub fn new(room: usize, noise: impl FnMut() -> T) -> Self {
        let mut all = Vec::new();
        all.resize_with(GUARD + room + GUARD, noise);
        let before = all.clone();
        Lent { all, before, room }
    }

    /// The part that is lent.
    pub fn part(&mut self) -> &mut [T] {
        &mut self.all[GUARD..GUARD + self.room]
    }

    /// Asserts that every number but the first `free` of the lent part, inside
    /// it and around it, is what it was.
    pub fn assert_kept(&self, free: usize, case: fmt::Arguments) {
        self.assert_holds(&self.all[GUARD..GUARD + free], case);
    }

    /// Asserts that the lent part begins with `written` and that every
    /// other number, inside it and around it, is what it was.
    pub fn assert_holds(&self, written: &[T], case: fmt::Arguments) {
        assert!(
            written.len() <= self.room,
            "{case}: {} numbers are due in a buffer of {}",
            written.len(),
            self.room
        );
        let mut due = self.before.clone();
        due[GUARD..GUARD + written.len()].copy_from_slice(written);
        if let Some(at) = (0..due.len()).find(|&at| self.all[at] != due[at]) {
            panic!(
                "{case}: buffer[{}] of {} is {:?}, was {:?}, should be {:?}",
                at as isize - GUARD as isize,
                self.room,
                self.all[at],
                self.before[at],
                due[at]
            );
        }
    }
}

/// A text in a message: whole when it could be a circuit, else its start.
pub struct Shown<'a>(pub &'a [u8]);

impl fmt::Display for Shown<'_> {
    fn fmt(&self, f: &mut fmt::Formatter) -> fmt::Result {
        let start = &self.0[..self.0.len().min(3000)];
        write!(f, "{} bytes \"{}\"", self.0.len(), start.escape_ascii())?;
        if start.len() < self.0.len() {
            write!(f, " and so on")?;
        }
        Ok(())
    }
}

/// What stands before and after a lent text.
const BEFORE: [&[u8]; 5] = [b"", b"\n", b",", b"1", b"gate,and,1,1\n"];
const AFTER: [&[u8]; 7] = [
    b"",
    b"\n",
    b"0",
    b",",
    b",1\n",
    b"1\nfault,1,0\n",
    b"fault,1,0\nfault,1,1\n",
];

/// The text between what is drawn to stand before and after it.
pub fn surround<'a>(random: &mut Random, text: &'a [u8]) -> [&'a [u8]; 3] {
    [random.pick(&BEFORE), text, random.pick(&AFTER)]
}

/// Lends the text between `before` and `after` to `call`, and asserts that
/// nothing was written there.
pub fn lend_text<T>(
    case: fmt::Arguments,
    [before, text, after]: [&[u8]; 3],
    call: impl FnOnce(&[u8]) -> T,
) -> T {
    let around = [before, text, after].concat();
    let found = call(&around[before.len()..before.len() + text.len()]);
    let again = [before, text, after].concat();
    assert!(around == again, "{case}: the text was written to");
    found
}

#[cfg(test)]
mod tests {
    use super::*;

    fn lent() -> Lent<i32> {
        let mut next = 100;
        Lent::new(4, || {
            next += 1;
            next
        })
    }

    #[test]
    fn what_was_written_and_an_untouched_tail_pass() {
        let mut lent = lent();
        lent.part()[..2].copy_from_slice(&[7, 8]);
        lent.assert_holds(&[7, 8], format_args!("two numbers"));
    }

    #[test]
    fn free_numbers_may_change() {
        let mut lent = lent();
        lent.part()[..2].copy_from_slice(&[7, 8]);
        lent.assert_kept(2, format_args!("two free numbers"));
    }

    #[test]
    #[should_panic(expected = "buffer[1] of 4")]
    fn a_number_past_the_free_ones_is_seen() {
        let mut lent = lent();
        lent.part()[..2].copy_from_slice(&[7, 8]);
        lent.assert_kept(1, format_args!("one free number"));
    }

    #[test]
    #[should_panic(expected = "buffer[2] of 4")]
    fn a_touched_tail_is_seen() {
        let mut lent = lent();
        lent.part()[..3].copy_from_slice(&[7, 8, 9]);
        lent.assert_holds(&[7, 8], format_args!("one number too many"));
    }

    #[test]
    #[should_panic(expected = "buffer[4] of 4")]
    fn a_number_past_the_buffer_is_seen() {
        let mut lent = lent();
        lent.all[GUARD + 4] = 7;
        lent.assert_holds(&[], format_args!("past the end"));
    }

    #[test]
    #[should_panic(expected = "buffer[-1] of 4")]
    fn a_number_before_the_buffer_is_seen() {
        let mut lent = lent();
        lent.all[GUARD - 1] = 7;
        lent.assert_holds(&[], format_args!("before the start"));
    }

    #[test]
    #[should_panic(expected = "buffer[0] of 4")]
    fn a_missing_number_is_seen() {
        lent().assert_holds(&[7], format_args!("nothing written"));
    }
}
