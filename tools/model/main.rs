//! A plain model of the rules: lists, loops and searches, written from the rules alone and not from the Rust.
//!
//! It keeps raw records, so that it answers for damaged ones too, and is meant to be read, not to be fast.

mod deque;
#[path = "../common/lines.rs"]
#[allow(dead_code)]
mod lines;
mod links;
mod sketch;
mod wheel;

use lines::Module;
use std::io;

fn module(name: &str) -> Option<Box<dyn Module>> {
    match name {
        "sketch" => Some(Box::new(sketch::Sketch::default())),
        "deque" => Some(Box::new(deque::Deques::default())),
        "wheel" => Some(Box::new(wheel::Wheel::default())),
        _ => None,
    }
}

fn main() {
    let names: Vec<String> = std::env::args().skip(1).collect();
    let Some(mut module) = (if names.len() == 1 { module(&names[0]) } else { None }) else {
        eprintln!("usage: model sketch|deque|wheel < TRACE");
        std::process::exit(2);
    };
    if let Err(error) = lines::answer_all(module.as_mut(), io::stdin().lock(), io::stdout().lock()) {
        eprintln!("model: {error}");
        std::process::exit(2);
    }
}
