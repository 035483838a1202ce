//! The oracle: the ported Rust, unchanged, behind the text format of the trace programs.
//!
//! The three files are included from the folder that RUST_SOURCE names when this is compiled; nothing of them is
//! copied. The refusals, slots, serials and free chains that the port adds are a thin layer around them.

mod common;
mod deque;
#[path = "../common/lines.rs"]
#[allow(dead_code)]
mod lines;
mod sketch;
mod trips;
mod wheel;

use lines::Module;
use std::io;

const USAGE: &str = "usage: oracle sketch|deque|wheel < TRACE";

fn module(name: &str) -> Option<Box<dyn Module>> {
    match name {
        "sketch" => Some(Box::new(sketch::Sketch::default())),
        "deque" => Some(Box::new(deque::Deques::default())),
        "wheel" => Some(Box::new(wheel::Wheel::default())),
        _ => None,
    }
}

fn main() {
    let names: Vec<String> = std::env::args().skip(1).collect();
    let Some(mut module) = (if names.len() == 1 { module(&names[0]) } else { None }) else {
        eprintln!("{USAGE}");
        std::process::exit(2);
    };
    trips::install();
    if let Err(error) = lines::answer_all(module.as_mut(), io::stdin().lock(), io::stdout().lock()) {
        eprintln!("oracle: {error}");
        std::process::exit(2);
    }
}
