//! Buffers that are lent to a call: random bytes before it, with guards on both sides.

use crate::random::Random;
use std::fmt::Debug;

const GUARD: usize = 32;

pub struct Lent<T> {
    before: Vec<T>,
    now: Vec<T>,
    room: usize,
}

impl<T: Copy + PartialEq + Debug> Lent<T> {
    /// The content has the guards on both sides already.
    fn of(content: Vec<T>) -> Lent<T> {
        Lent { now: content.clone(), room: content.len() - 2 * GUARD, before: content }
    }

    pub fn room(&self) -> usize {
        self.room
    }

    pub fn pointer(&mut self) -> *mut T {
        self.now[GUARD..].as_mut_ptr()
    }

    /// What was lent, as it is now.
    pub fn content(&self) -> &[T] {
        &self.now[GUARD..GUARD + self.room]
    }

    /// What is wrong after a call that should have put the result at the front and changed nothing else.
    pub fn wrong(&self, name: &str, result: &[T]) -> Option<String> {
        let mut expected = self.before.clone();
        expected[GUARD..GUARD + result.len()].copy_from_slice(result);
        if expected == self.now {
            return None;
        }
        let place = (0..expected.len()).find(|&place| expected[place] != self.now[place])?;
        let (now, due) = (self.now[place], expected[place]);
        let offset = place as i64 - GUARD as i64;
        let room = self.room;
        Some(format!("{name}: entry {offset} of {room} is {now:?}, by the model {due:?}"))
    }

    /// What is wrong with the guards; the content is open.
    pub fn wrong_guards(&self, name: &str) -> Option<String> {
        let end = GUARD + self.room;
        let good = self.now[..GUARD] == self.before[..GUARD] && self.now[end..] == self.before[end..];
        (!good).then(|| format!("{name}: written outside of it"))
    }
}

impl Lent<u8> {
    pub fn bytes(random: &mut Random, room: usize) -> Lent<u8> {
        Lent::of(random.bytes(room + 2 * GUARD))
    }

    /// A buffer whose front holds something already.
    pub fn holding(random: &mut Random, front: &[u8], room: usize) -> Lent<u8> {
        let mut content = random.bytes(room + 2 * GUARD);
        content[GUARD..GUARD + front.len()].copy_from_slice(front);
        Lent::of(content)
    }
}

impl Lent<u16> {
    pub fn shorts(random: &mut Random, room: usize) -> Lent<u16> {
        Lent::of(random.shorts(room + 2 * GUARD))
    }
}

#[cfg(test)]
mod tests {
    use super::*;

    /// A result at the front is as it should be; one byte behind it, or in a guard, is not.
    #[test]
    fn every_change_is_seen() {
        let mut random = Random::of_case(1, 1);
        for place in 0..2 * GUARD + 10 {
            let mut lent = Lent::bytes(&mut random, 10);
            lent.now[GUARD..GUARD + 3].copy_from_slice(b"abc");
            assert_eq!(lent.wrong("lent", b"abc"), None);
            lent.now[place] ^= 1;
            assert!(lent.wrong("lent", b"abc").is_some());
            let in_guard = !(GUARD..GUARD + 10).contains(&place);
            assert_eq!(lent.wrong_guards("lent").is_some(), in_guard);
        }
    }
}
