//! Raw links, and the lists of slots that they stand for where they are sound.

use crate::lines::number;

/// A slot, or none.
pub type Link = Option<usize>;

/// Numbers from here on are no slots.
pub const SLOTS: u64 = 4096;

/// `-`, or a number below 4,096.
pub fn link(field: &str) -> Option<Link> {
    if field == "-" {
        return Some(None);
    }
    let n = number(field)?;
    (n < SLOTS).then_some(Some(n as usize))
}

/// Links of some lists over some slots, `place` naming the list of each slot that is in one.
#[derive(Clone, Default)]
pub struct Links {
    pub head: Vec<Link>,
    pub tail: Vec<Link>,
    pub next: Vec<Link>,
    pub prev: Vec<Link>,
    pub place: Vec<Link>,
    pub free: Link,
}

/// What sound links stand for: a list of slots for each place, and the free ones.
#[derive(Clone)]
pub struct Lists {
    pub at: Vec<Vec<usize>>,
    pub free: Vec<usize>,
}

impl Links {
    /// Slots from `first` by the next links, at most as many as there are, ending at none or at a link that is no slot.
    /// With it: whether the end was none.
    pub fn walk(&self, first: Link) -> (Vec<usize>, bool) {
        let mut slots = Vec::new();
        let mut at = first;
        while let Some(slot) = at {
            if slot >= self.next.len() || slots.len() == self.next.len() {
                return (slots, false);
            }
            slots.push(slot);
            at = self.next[slot];
        }
        (slots, true)
    }

    /// The list of one place, if its links run from head to tail and back over slots that name it.
    fn list(&self, place: usize) -> Option<Vec<usize>> {
        let (slots, ended) = self.walk(self.head[place]);
        let back = |(i, slot): (usize, &usize)| self.prev[*slot] == if i == 0 { None } else { Some(slots[i - 1]) };
        let named = |slot: &usize| self.place[*slot] == Some(place);
        let good = ended
            && self.tail[place] == slots.last().copied()
            && slots.iter().enumerate().all(back)
            && slots.iter().all(named);
        good.then_some(slots)
    }

    /// The lists, if each slot is in the list that it names once, or free and in the free chain once.
    pub fn lists(&self) -> Option<Lists> {
        let at = (0..self.head.len()).map(|place| self.list(place)).collect::<Option<Vec<_>>>()?;
        let (free, ended) = self.walk(self.free);
        let mut times = vec![0; self.next.len()];
        at.iter().flatten().chain(&free).for_each(|slot| times[*slot] += 1);
        let good = ended && times.iter().all(|n| *n == 1) && free.iter().all(|slot| self.place[*slot].is_none());
        good.then_some(Lists { at, free })
    }

    /// Writes the links of these lists. A free slot's prev is left as it is.
    pub fn store(&mut self, lists: &Lists) {
        for (place, slots) in lists.at.iter().enumerate() {
            self.head[place] = slots.first().copied();
            self.tail[place] = slots.last().copied();
            for (i, slot) in slots.iter().enumerate() {
                self.next[*slot] = slots.get(i + 1).copied();
                self.prev[*slot] = if i == 0 { None } else { Some(slots[i - 1]) };
                self.place[*slot] = Some(place);
            }
        }
        self.free = lists.free.first().copied();
        for (i, slot) in lists.free.iter().enumerate() {
            self.next[*slot] = lists.free.get(i + 1).copied();
        }
    }

    /// A slot that a call frees: its prev and place become none.
    pub fn forget(&mut self, slot: usize) {
        self.prev[slot] = None;
        self.place[slot] = None;
    }
}

impl Lists {
    /// The place and position of a slot that is in a list.
    pub fn find(&self, slot: usize) -> Option<(usize, usize)> {
        let place = self.at.iter().position(|slots| slots.contains(&slot))?;
        let i = self.at[place].iter().position(|s| *s == slot)?;
        Some((place, i))
    }
}
