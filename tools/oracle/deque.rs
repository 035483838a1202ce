//! The deques: each element of the Rust's deques carries its slot, so that the Rust's own order decides every answer.
//! Homes and free slots are the port's additions and are kept beside.

use crate::common::deque::{At, DeqNode, Deque, Link};
use crate::common::CacheRegion;
use crate::lines::{listed, number, ok, refused, Digest, Dump, Field, Module, Text};
use std::ptr::NonNull;

struct Item {
    slot: usize,
    element: u64,
}

/// A slot that is in a deque: which one, and the Rust's node.
type Home = (usize, NonNull<DeqNode<Item>>);

struct Made {
    deques: Vec<Deque<Item>>,
    slots: Vec<Option<Home>>,
    /// Free slots, the next one to take last.
    free: Vec<usize>,
}

#[derive(Default)]
pub struct Deques {
    made: Option<Made>,
    poked: bool,
}

fn slot(link: Link<Item>) -> Option<usize> {
    link.map(|node| unsafe { node.as_ref() }.element.slot)
}

fn look(item: Option<&Item>) -> String {
    item.map_or("nothing".to_string(), |item| format!("element {} {}", item.slot, item.element))
}

impl Made {
    fn new(deques: u64, nodes: u64) -> Self {
        Self {
            deques: (0..deques).map(|_| Deque::new(CacheRegion::Other)).collect(),
            slots: (0..nodes).map(|_| None).collect(),
            free: (0..nodes as usize).rev().collect(),
        }
    }

    fn push(&mut self, at: u64, element: u64) -> String {
        let Some(&slot) = self.free.last() else { return refused(10) };
        let Some(deque) = self.deques.get_mut(at as usize) else { return refused(16) };
        let node = deque.push_back(Box::new(DeqNode::new(Item { slot, element })));
        self.slots[slot] = Some((at as usize, node));
        self.free.pop();
        format!("slot {slot}")
    }

    fn release(&mut self, slot: usize) {
        self.slots[slot] = None;
        self.free.push(slot);
    }

    fn pop(&mut self, at: usize) -> String {
        let Some(node) = self.deques[at].pop_front() else { return "nothing".to_string() };
        self.release(node.element.slot);
        format!("popped {} {}", node.element.slot, node.element.element)
    }

    /// The Rust's node of a slot in this deque.
    fn member(&self, at: usize, slot: u64) -> Option<NonNull<DeqNode<Item>>> {
        let (home, node) = (*self.slots.get(usize::try_from(slot).ok()?)?)?;
        (home == at).then_some(node)
    }

    fn move_back(&mut self, at: usize, slot: u64) -> String {
        let Some(node) = self.member(at, slot) else { return refused(17) };
        unsafe { self.deques[at].move_to_back(node) };
        ok()
    }

    fn unlink(&mut self, at: usize, slot: u64) -> String {
        let Some(node) = self.member(at, slot) else { return refused(17) };
        let element = unsafe { node.as_ref() }.element.element;
        unsafe { self.deques[at].unlink_and_drop(node) };
        self.release(slot as usize);
        format!("element {element}")
    }

    /// A call on a deque that exists, with its further numbers.
    fn on(&mut self, word: &str, at: usize, rest: &[u64]) -> Option<String> {
        let deque = &mut self.deques[at];
        match (word, rest) {
            ("pop", []) => Some(self.pop(at)),
            ("front", []) => Some(look(deque.peek_front().map(|node| &node.element))),
            ("back", []) => Some(look(deque.peek_back().map(|node| &node.element))),
            ("move", &[slot]) => Some(self.move_back(at, slot)),
            ("unlink", &[slot]) => Some(self.unlink(at, slot)),
            ("length", []) => Some(format!("length {}", deque.len())),
            ("next", []) => Some(look(Iterator::next(&mut &mut *deque))),
            ("reset", []) => {
                deque.reset_cursor();
                Some(ok())
            }
            _ => None,
        }
    }

    fn list(&self, at: u64) -> Option<String> {
        let deque = self.deques.get(usize::try_from(at).ok()?)?;
        let slots: Vec<usize> = deque.members().filter_map(|node| slot(Some(node))).collect();
        Some(listed("list", &slots))
    }

    fn dump(&self, out: &mut dyn Dump) {
        for (at, deque) in self.deques.iter().enumerate() {
            let (head, tail) = deque.ends();
            let cursor = match deque.stands() {
                At::Nowhere => Field::None,
                At::End => Field::End,
                At::Node(node) => Field::link(slot(Some(node))),
            };
            let [head, tail] = [head, tail].map(|link| Field::link(slot(link)));
            out.line("deque", &[Field::Is(at as u64), head, tail, Field::Is(deque.len() as u64), cursor]);
        }
        let mut after = vec![None; self.slots.len()];
        for pair in self.free.windows(2) {
            after[pair[1]] = Some(pair[0]);
        }
        for (at, home) in self.slots.iter().enumerate() {
            let fields = match home {
                None => [Field::link(after[at]), Field::None, Field::None, Field::Is(0)],
                Some((home, node)) => {
                    let node = unsafe { node.as_ref() };
                    let (next, prev) = node.links();
                    [
                        Field::link(slot(next)),
                        Field::link(slot(prev)),
                        Field::link(Some(*home)),
                        Field::Is(node.element.element),
                    ]
                }
            };
            out.line("node", &[&[Field::Is(at as u64)], &fields[..]].concat());
        }
        out.line("free", &[Field::link(self.free.last().copied())]);
    }
}

impl Deques {
    fn make(&mut self, deques: u64, nodes: u64) -> String {
        if !(1..=256).contains(&deques) || !(1..=4096).contains(&nodes) {
            return refused(3);
        }
        self.made = Some(Made::new(deques, nodes));
        self.poked = false;
        ok()
    }
}

const ONE: [&str; 6] = ["pop", "front", "back", "length", "next", "reset"];
const TWO: [&str; 2] = ["move", "unlink"];

impl Module for Deques {
    fn call(&mut self, fields: &[&str]) -> Option<String> {
        if fields[0].starts_with("poke-") && self.made.is_some() {
            self.poked = true;
            return Some("unsupported".to_string());
        }
        let numbers: Vec<u64> = fields[1..].iter().map(|f| number(f)).collect::<Option<_>>()?;
        if let ("make", &[deques, nodes]) = (fields[0], &numbers[..]) {
            return Some(self.make(deques, nodes));
        }
        let made = self.made.as_mut()?;
        if self.poked {
            return Some("unsupported".to_string());
        }
        match (fields[0], &numbers[..]) {
            ("push", &[at, element]) => Some(made.push(at, element)),
            ("list", &[at]) => made.list(at),
            ("dump", []) => {
                let mut text = Text::default();
                made.dump(&mut text);
                Some(text.answer())
            }
            ("digest", []) => {
                let mut digest = Digest::default();
                made.dump(&mut digest);
                Some(digest.answer())
            }
            (word, &[at, ref rest @ ..])
                if (ONE.contains(&word) && rest.is_empty()) || (TWO.contains(&word) && rest.len() == 1) =>
            {
                if at >= made.deques.len() as u64 {
                    return Some(refused(16));
                }
                made.on(word, at as usize, rest)
            }
            _ => None,
        }
    }
}
