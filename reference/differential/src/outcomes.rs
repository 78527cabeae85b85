//! Holding what a call gives back against what is due, and counting how often
//! each outcome came.

use crate::lent::Lent;
use crate::library::Reply;
use second::random::Random;
use second::walsh::{number_and_place, Refusal};
use std::fmt;

/// What a call gives back that ends in this result.
pub fn answer<T>(result: &Result<T, Refusal>) -> Reply {
    let (number, place) = number_and_place(result);
    Reply { number, place }
}

/// Lends a buffer of `room` numbers of noise to `call` and asserts that the
/// number, the place and the whole buffer are what is due; gives number and
/// place.
pub fn compare(
    random: &mut Random,
    case: fmt::Arguments,
    room: usize,
    due: &Result<Vec<i32>, Refusal>,
    call: impl FnOnce(&mut [i32]) -> Reply,
) -> (u32, usize) {
    let mut lent = Lent::new(room, || random.noise());
    let found = call(lent.part());
    assert_eq!(
        found,
        answer(due),
        "{case}, room {room}: left what came back, right what is due"
    );
    lent.assert_holds(due.as_deref().unwrap_or_default(), case);
    (found.number, found.place)
}

/// What `call` writes into a buffer of `room` numbers; it must not refuse.
/// The second implementation is not asked.
pub fn written(
    case: impl fmt::Display,
    room: usize,
    call: impl FnOnce(&mut [i32]) -> Reply,
) -> Vec<i32> {
    let mut out = vec![i32::MIN; room];
    let found = call(&mut out);
    assert_eq!((found.number, found.place), (0, 0), "{case}");
    out
}

/// How often each number came back; index 0: done.
#[derive(Default)]
pub struct Outcomes {
    seen: [usize; 20],
}

impl Outcomes {
    pub fn note(&mut self, number: u32) {
        self.seen[number as usize] += 1;
    }

    pub fn seen(&self, number: u32) -> usize {
        self.seen[number as usize]
    }

    /// Each listed outcome came at least so often, and no other came.
    #[track_caller]
    pub fn assert_seen(&self, least: &[(u32, usize)]) {
        for number in 0..self.seen.len() as u32 {
            let seen = self.seen(number);
            match least.iter().find(|entry| entry.0 == number) {
                Some(&(_, count)) => assert!(seen >= count, "{number} came {seen} times only"),
                None => assert_eq!(seen, 0, "{number} came, which this group excludes"),
            }
        }
    }
}
