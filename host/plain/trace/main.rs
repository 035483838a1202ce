//! Plays a trace of wheel calls (standard input) through the host and writes the answers, one line for each call, as
//! `wheel_trace` does. The text format is that of the trace programs; its lines, numbers and digest are those of
//! tools/common/lines.rs.

#[path = "../../../tools/common/lines.rs"]
#[allow(dead_code)]
mod lines;

use juopmorin::{place, Clock, Entry, Event, Handle, Refusal, Rescheduled, Wheel, BUCKETS, NONE};
use lines::{generation, listed, number, ok, or_none, refused, Digest, Dump, Field, Module, Text};
use std::io;

/// The most node records, and the most entries, that a trace may lend.
const MOST: u64 = 4_100;

#[derive(Default)]
struct Player {
    wheel: Option<Wheel>,
}

/// The answer's line, or the refusal's.
fn line<T>(answer: Result<T, Refusal>, told: impl FnOnce(T) -> String) -> String {
    match answer {
        Ok(value) => told(value),
        Err(refusal) => refused(refusal.0.into()),
    }
}

fn done(answer: Result<(), Refusal>) -> String {
    line(answer, |()| ok())
}

fn event_line(event: Option<Event>) -> String {
    match event {
        Some(Event::Expired { entry, serial, deadline }) => format!("expired {entry} {serial} {deadline}"),
        Some(Event::Rescheduled { entry, serial, place }) => format!("rescheduled {entry} {serial} {place}"),
        None => "end".to_string(),
    }
}

/// A slot's number, or none.
fn link(slot: usize) -> Field {
    if slot == NONE {
        Field::None
    } else {
        Field::Is(slot as u64)
    }
}

/// A poked link: `-`, or a number below none's.
fn poked_link(value: &str) -> Option<usize> {
    match or_none(value)? {
        None => Some(NONE),
        Some(n) => usize::try_from(n).ok().filter(|slot| *slot < NONE),
    }
}

fn index(field: &str) -> Option<usize> {
    usize::try_from(number(field)?).ok()
}

/// The slots from a head by the next links, as many as there are records at most.
fn walk(wheel: &Wheel, head: usize) -> Vec<usize> {
    let mut slots = Vec::new();
    let mut at = head;
    while at < wheel.nodes.len() && at != NONE && slots.len() < wheel.nodes.len() {
        slots.push(at);
        at = wheel.nodes[at].next;
    }
    slots
}

fn show_clock(clock: &Clock, out: &mut dyn Dump) {
    let numbers = [
        clock.enabled.into(),
        clock.reading,
        clock.serial,
        clock.open.into(),
        clock.previous,
        clock.level as u64,
        clock.step as u64,
        clock.nodes as u64,
        clock.entries as u64,
    ];
    let mut fields = numbers.map(Field::Is).to_vec();
    fields.push(link(clock.free));
    out.line("clock", &fields);
}

fn dump(wheel: &Wheel, out: &mut dyn Dump) {
    show_clock(&wheel.clock, out);
    for bucket in 0..BUCKETS {
        out.line("bucket", &[Field::Is(bucket as u64), link(wheel.heads[bucket]), link(wheel.tails[bucket])]);
    }
    for (slot, node) in wheel.nodes.iter().enumerate() {
        let numbers = [node.entry as u64, node.generation.into(), node.serial].map(Field::Is);
        let fields = [&[Field::Is(slot as u64), link(node.next), link(node.prev), link(node.bucket)], &numbers[..]].concat();
        out.line("node", &fields);
    }
    for entry in 0..wheel.dated.len() {
        let deadline = wheel.dated[entry].then_some(wheel.deadline[entry]);
        out.line("entry", &[Field::Is(entry as u64), Field::Deadline(deadline), Field::Is(wheel.stamp[entry].into())]);
    }
}

fn poke_node(wheel: &mut Wheel, slot: usize, field: &str, value: &str) -> Option<String> {
    let node = wheel.nodes.get_mut(slot)?;
    match field {
        "next" => node.next = poked_link(value)?,
        "prev" => node.prev = poked_link(value)?,
        "bucket" => node.bucket = poked_link(value)?,
        "entry" => node.entry = index(value)?,
        "generation" => node.generation = generation(value)?,
        "serial" => node.serial = number(value)?,
        _ => return None,
    }
    Some(ok())
}

fn poke_bucket(wheel: &mut Wheel, bucket: usize, field: &str, value: &str) -> Option<String> {
    let ends = match field {
        "head" => &mut wheel.heads,
        "tail" => &mut wheel.tails,
        _ => return None,
    };
    *ends.get_mut(bucket)? = poked_link(value)?;
    Some(ok())
}

fn poke_clock(clock: &mut Clock, field: &str, value: &str) -> Option<String> {
    let flag = || number(value).filter(|n| *n < 2).map(|n| n == 1);
    match field {
        "enabled" => clock.enabled = flag()?,
        "open" => clock.open = flag()?,
        "free" => clock.free = poked_link(value)?,
        "reading" => clock.reading = number(value)?,
        "serial" => clock.serial = number(value)?,
        "previous" => clock.previous = number(value)?,
        "level" => clock.level = index(value)?,
        "step" => clock.step = index(value)?,
        "nodes" => clock.nodes = index(value)?,
        "entries" => clock.entries = index(value)?,
        _ => return None,
    }
    Some(ok())
}

/// The calls on timers and on the advance.
fn wheel_call(wheel: &mut Wheel, fields: &[&str]) -> Option<String> {
    let timer = |slot: &str, serial: &str| Some(Handle { slot: index(slot)?, serial: number(serial)? });
    Some(match *fields {
        ["create", serial] => {
            wheel.create(number(serial)?);
            ok()
        }
        ["enable"] => done(wheel.enable()),
        ["set", entry, deadline, g] => {
            let set = Entry { deadline: or_none(deadline)?, generation: generation(g)? };
            done(wheel.set_entry(index(entry)?, set))
        }
        ["schedule", entry, g] => line(wheel.schedule(index(entry)?, generation(g)?), |h| format!("armed {} {}", h.slot, h.serial)),
        ["reschedule", slot, serial, g] => line(wheel.reschedule(timer(slot, serial)?, generation(g)?), |r| match r {
            Rescheduled::Moved => "rescheduled".to_string(),
            Rescheduled::Removed => "removed".to_string(),
        }),
        ["deschedule", slot, serial, g] => done(wheel.deschedule(timer(slot, serial)?, generation(g)?)),
        ["start", reading] => done(wheel.start(number(reading)?)),
        ["pull"] => line(wheel.pull(), event_line),
        ["abandon"] => done(wheel.abandon()),
        ["armed"] => line(wheel.armed_count(), |n| format!("armed {n}")),
        ["due"] => line(wheel.next_due(), |due| due.map_or("due -".to_string(), |d| format!("due {d}"))),
        _ => return None,
    })
}

/// What shows the records, and what damages them.
fn record_call(wheel: &mut Wheel, fields: &[&str]) -> Option<String> {
    Some(match *fields {
        ["bucket", bucket] => listed("bucket", &walk(wheel, *wheel.heads.get(index(bucket)?)?)),
        ["clock"] => {
            let mut text = Text::default();
            show_clock(&wheel.clock, &mut text);
            text.answer()
        }
        ["dump"] => {
            let mut text = Text::default();
            dump(wheel, &mut text);
            text.answer()
        }
        ["digest"] => {
            let mut digest = Digest::default();
            dump(wheel, &mut digest);
            digest.answer()
        }
        ["poke-node", slot, field, value] => return poke_node(wheel, index(slot)?, field, value),
        ["poke-bucket", bucket, field, value] => return poke_bucket(wheel, index(bucket)?, field, value),
        ["poke-clock", field, value] => return poke_clock(&mut wheel.clock, field, value),
        _ => return None,
    })
}

impl Module for Player {
    fn call(&mut self, fields: &[&str]) -> Option<String> {
        match *fields {
            ["place", reading, deadline] => {
                let at = place(number(reading)?, number(deadline)?);
                return Some(format!("place {}", u64::from(at.level) * 64 + u64::from(at.index)));
            }
            ["lend", nodes, entries] => {
                let (nodes, entries) = (number(nodes)?, number(entries)?);
                if nodes > MOST || entries > MOST {
                    return None;
                }
                self.wheel = Some(Wheel::new(nodes as usize, entries as usize, 0));
                return Some(ok());
            }
            _ => {}
        }
        let wheel = self.wheel.as_mut()?;
        wheel_call(wheel, fields).or_else(|| record_call(wheel, fields))
    }
}

fn main() {
    if let Err(error) = lines::answer_all(&mut Player::default(), io::stdin().lock(), io::stdout().lock()) {
        eprintln!("host trace: {error}");
        std::process::exit(2);
    }
}
