//! The deque by itself.

use crate::lines::{listed, number, ok, refused, Digest, Dump, Field, Module, Text};
use crate::links::{link, Link, Links, Lists};

/// Where a cursor stands.
#[derive(Clone, Copy, PartialEq)]
enum Cursor {
    None,
    End,
    At(usize),
}

struct Made {
    links: Links,
    element: Vec<u64>,
    length: Vec<u64>,
    cursor: Vec<Cursor>,
}

#[derive(Default)]
pub struct Deques {
    made: Option<Made>,
}

impl Made {
    fn new(deques: usize, nodes: usize) -> Self {
        let mut links = Links {
            head: vec![None; deques],
            tail: vec![None; deques],
            next: vec![None; nodes],
            prev: vec![None; nodes],
            place: vec![None; nodes],
            free: None,
        };
        links.store(&Lists { at: vec![Vec::new(); deques], free: (0..nodes).collect() });
        Self { links, element: vec![0; nodes], length: vec![0; deques], cursor: vec![Cursor::None; deques] }
    }

    /// Sound: the links stand for lists, lengths are theirs, a cursor is at none, at a node of its deque or past the
    /// end.
    fn sound(&self) -> Option<Lists> {
        let lists = self.links.lists()?;
        for (at, slots) in lists.at.iter().enumerate() {
            let stands = match self.cursor[at] {
                Cursor::At(slot) => slots.contains(&slot),
                _ => true,
            };
            if self.length[at] != slots.len() as u64 || !stands {
                return None;
            }
        }
        Some(lists)
    }

    fn store(&mut self, lists: &Lists) {
        self.links.store(lists);
        for (at, slots) in lists.at.iter().enumerate() {
            self.length[at] = slots.len() as u64;
        }
    }

    fn push(&mut self, at: u64, element: u64) -> String {
        let Some(mut lists) = self.sound() else { return refused(4) };
        if lists.free.is_empty() {
            return refused(10);
        }
        if at >= self.length.len() as u64 {
            return refused(16);
        }
        let slot = lists.free.remove(0);
        lists.at[at as usize].push(slot);
        self.element[slot] = element;
        self.store(&lists);
        format!("slot {slot}")
    }

    /// If the cursor is at the i-th slot it goes on to the next one, or past the end.
    fn cursor_on(&mut self, at: usize, slots: &[usize], i: usize) {
        if self.cursor[at] == Cursor::At(slots[i]) {
            self.cursor[at] = slots.get(i + 1).map_or(Cursor::End, |next| Cursor::At(*next));
        }
    }

    /// Takes the i-th node out and frees it.
    fn remove(&mut self, lists: &mut Lists, at: usize, i: usize) -> (usize, u64) {
        self.cursor_on(at, &lists.at[at], i);
        let slot = lists.at[at].remove(i);
        lists.free.insert(0, slot);
        let element = self.element[slot];
        self.links.forget(slot);
        self.element[slot] = 0;
        self.store(lists);
        (slot, element)
    }

    fn look(&self, slot: Option<&usize>) -> String {
        slot.map_or("nothing".to_string(), |slot| format!("element {slot} {}", self.element[*slot]))
    }

    fn next(&mut self, slots: &[usize], at: usize) -> String {
        let stands = match (self.cursor[at], slots.first()) {
            (Cursor::None, Some(head)) => Cursor::At(*head),
            (cursor, _) => cursor,
        };
        self.cursor[at] = stands;
        let Cursor::At(slot) = stands else {
            self.cursor[at] = Cursor::None;
            return "nothing".to_string();
        };
        let i = slots.iter().position(|s| *s == slot).expect("a sound cursor is in its deque");
        self.cursor_on(at, slots, i);
        self.look(Some(&slot))
    }

    fn move_back(&mut self, mut lists: Lists, at: usize, i: usize) -> String {
        if i + 1 < lists.at[at].len() {
            self.cursor_on(at, &lists.at[at], i);
            let slot = lists.at[at].remove(i);
            lists.at[at].push(slot);
            self.store(&lists);
        }
        ok()
    }

    /// A call with a deque's number.
    fn on(&mut self, word: &str, at: u64, slot: Option<u64>) -> String {
        let Some(mut lists) = self.sound() else { return refused(4) };
        if at >= self.length.len() as u64 {
            return refused(16);
        }
        let at = at as usize;
        let slots = lists.at[at].clone();
        let found = slot.map(|slot| slots.iter().position(|s| *s as u64 == slot));
        if found == Some(None) {
            return refused(17);
        }
        let i = found.flatten().unwrap_or(0);
        match word {
            "pop" if slots.is_empty() => "nothing".to_string(),
            "pop" => {
                let (slot, element) = self.remove(&mut lists, at, 0);
                format!("popped {slot} {element}")
            }
            "unlink" => format!("element {}", self.remove(&mut lists, at, i).1),
            "front" => self.look(slots.first()),
            "back" => self.look(slots.last()),
            "move" => self.move_back(lists, at, i),
            "next" => self.next(&slots, at),
            "length" => format!("length {}", self.length[at]),
            _ => {
                self.cursor[at] = Cursor::None;
                ok()
            }
        }
    }

    fn dump(&self, out: &mut dyn Dump) {
        for at in 0..self.length.len() {
            let cursor = match self.cursor[at] {
                Cursor::None => Field::None,
                Cursor::End => Field::End,
                Cursor::At(slot) => Field::Is(slot as u64),
            };
            let [head, tail] = [&self.links.head, &self.links.tail].map(|links| Field::link(links[at]));
            out.line("deque", &[Field::Is(at as u64), head, tail, Field::Is(self.length[at]), cursor]);
        }
        for slot in 0..self.element.len() {
            let [next, prev, home] =
                [&self.links.next, &self.links.prev, &self.links.place].map(|links| Field::link(links[slot]));
            out.line("node", &[Field::Is(slot as u64), next, prev, home, Field::Is(self.element[slot])]);
        }
        out.line("free", &[Field::link(self.links.free)]);
    }

    fn poke_node(&mut self, slot: u64, field: &str, value: &str) -> Option<String> {
        let slot = usize::try_from(slot).ok().filter(|s| *s < self.element.len())?;
        let links: &mut Vec<Link> = match field {
            "element" => {
                self.element[slot] = number(value)?;
                return Some(ok());
            }
            "next" => &mut self.links.next,
            "prev" => &mut self.links.prev,
            "home" => &mut self.links.place,
            _ => return None,
        };
        links[slot] = link(value)?;
        Some(ok())
    }

    fn poke_deque(&mut self, at: u64, field: &str, value: &str) -> Option<String> {
        let at = usize::try_from(at).ok().filter(|d| *d < self.length.len())?;
        match field {
            "head" => self.links.head[at] = link(value)?,
            "tail" => self.links.tail[at] = link(value)?,
            "length" => self.length[at] = number(value)?,
            "cursor" if value == "end" => self.cursor[at] = Cursor::End,
            "cursor" => self.cursor[at] = link(value)?.map_or(Cursor::None, Cursor::At),
            _ => return None,
        }
        Some(ok())
    }
}

impl Deques {
    fn make(&mut self, deques: u64, nodes: u64) -> String {
        if deques < 1 || deques > 256 || nodes < 1 || nodes > 4096 {
            return refused(3);
        }
        self.made = Some(Made::new(deques as usize, nodes as usize));
        ok()
    }
}

impl Module for Deques {
    fn call(&mut self, fields: &[&str]) -> Option<String> {
        if let ["make", deques, nodes] = fields {
            let (deques, nodes) = (number(deques)?, number(nodes)?);
            return Some(self.make(deques, nodes));
        }
        let made = self.made.as_mut()?;
        match *fields {
            ["push", at, element] => Some(made.push(number(at)?, number(element)?)),
            [word @ ("pop" | "front" | "back" | "length" | "next" | "reset"), at] => {
                Some(made.on(word, number(at)?, None))
            }
            [word @ ("move" | "unlink"), at, slot] => Some(made.on(word, number(at)?, Some(number(slot)?))),
            ["list", at] => {
                let head = made.links.head.get(usize::try_from(number(at)?).ok()?)?;
                Some(listed("list", &made.links.walk(*head).0))
            }
            ["dump"] => {
                let mut text = Text::default();
                made.dump(&mut text);
                Some(text.answer())
            }
            ["digest"] => {
                let mut digest = Digest::default();
                made.dump(&mut digest);
                Some(digest.answer())
            }
            ["poke-node", slot, field, value] => made.poke_node(number(slot)?, field, value),
            ["poke-deque", at, field, value] => made.poke_deque(number(at)?, field, value),
            ["poke-free", value] => {
                made.links.free = link(value)?;
                Some(ok())
            }
            _ => None,
        }
    }
}
