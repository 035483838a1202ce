//! Seeded random traces through two readers of the text format, compared call by call.
//!
//!   compare MODULE CALLS SEED DAMAGE FOLDER PROGRAM REFERENCE     DAMAGE: yes or no; a program's arguments on lines of their own
//!   compare --file MODULE TRACE FOLDER PROGRAM REFERENCE          a trace that is there
//!   compare --trace MODULE LINES SEED DAMAGE                      the trace alone, to standard output

mod align;
#[path = "../common/lines.rs"]
#[allow(dead_code)]
mod lines;
#[path = "../model/links.rs"]
mod links;
#[path = "../model/deque.rs"]
mod model_deque;
#[path = "../model/wheel.rs"]
mod model_wheel;
mod random;
#[macro_use]
mod trace;
mod deque;
mod place;
mod sketch;
mod wheel;

use align::Answers;
use lines::Line;
use std::fs::{self, File};
use std::io::Write;
use std::path::Path;
use std::process::{exit, Child, Command, Stdio};
use trace::Trace;

/// Lines in one run of the programs.
const CHUNK: u64 = 200_000;

/// Differences that are printed.
const SHOWN: u64 = 8;

/// Makes traces, session by session.
pub trait Source {
    fn session(&mut self, trace: &mut Trace);
    /// A reader that follows the trace, if the sessions need one.
    fn model(&self) -> Option<Box<dyn lines::Module>> {
        None
    }
    fn summary(&self) -> String {
        String::new()
    }
}

fn fail(message: &str) -> ! {
    eprintln!("{message}");
    exit(2)
}

fn source(module: &str, damage: bool) -> Box<dyn Source> {
    match module {
        "sketch" => Box::new(sketch::Sketches::default()),
        "deque" => Box::new(deque::Deques { damage }),
        "wheel" => Box::new(wheel::Wheels { damage, placed: 0 }),
        "place" => Box::new(place::Places::new()),
        _ => fail(&format!("no such module: {module}")),
    }
}

/// Sessions until there are enough lines.
fn make(source: &mut dyn Source, seed: u64, chunk: u64, lines: u64) -> Trace {
    let mut trace = Trace::new(seed.wrapping_mul(0x2545_f491_4f6c_dd1d).wrapping_add(chunk), source.model());
    while trace.lines < lines {
        source.session(&mut trace);
    }
    trace.end();
    trace
}

fn start(command: &str, input: &Path, output: &Path) -> Child {
    let mut words = command.split('\n');
    let read = File::open(input).unwrap_or_else(|e| fail(&format!("cannot read {}: {e}", input.display())));
    let write = File::create(output).unwrap_or_else(|e| fail(&format!("cannot write {}: {e}", output.display())));
    Command::new(words.next().unwrap_or_default())
        .args(words)
        .stdin(read)
        .stdout(write)
        .stderr(Stdio::inherit())
        .spawn()
        .unwrap_or_else(|e| fail(&format!("cannot run {command}: {e}")))
}

#[derive(Default)]
struct Totals {
    compared: u64,
    differences: u64,
    skipped: u64,
    trips: u64,
    ended_badly: bool,
}

/// One run of both programs on a trace.
struct Run<'a> {
    chunk: u64,
    lines: Vec<&'a [u8]>,
    program: Answers<'a>,
    reference: Answers<'a>,
    tripped: bool,
}

fn shown(bytes: &[u8]) -> String {
    let text: String = String::from_utf8_lossy(bytes).chars().take(2000).collect();
    text.replace('\n', "\n                ")
}

impl Run<'_> {
    fn line(&mut self, at: usize, totals: &mut Totals) {
        let dump = match lines::split(self.lines[at]) {
            Line::Nothing => return,
            Line::Bad => false,
            Line::Fields(fields) => fields == ["dump"],
        };
        let answer = self.program.next(dump);
        let expected = self.reference.next(dump);
        if expected == b"tripped" {
            totals.skipped += 1;
            totals.trips += u64::from(!self.tripped);
            self.tripped = true;
            return;
        }
        self.tripped = self.tripped && expected != b"ok";
        if expected == b"unsupported" {
            totals.skipped += 1;
            return;
        }
        totals.compared += 1;
        if answer != expected || self.program.ended || self.reference.ended {
            totals.differences += 1;
            if totals.differences <= SHOWN {
                self.show(at, answer, expected);
            }
        }
    }

    fn show(&self, at: usize, answer: &[u8], expected: &[u8]) {
        println!("difference in trace {}, line {}:", self.chunk, at + 1);
        for i in at.saturating_sub(6)..at {
            println!("     before     {}", shown(self.lines[i]));
        }
        println!("  -> line       {}", shown(self.lines[at]));
        let gone = |ended| if ended { "(no answer: the output has ended)" } else { "" };
        println!("     expected   {}{}", shown(expected), gone(self.reference.ended));
        println!("     answered   {}{}", shown(answer), gone(self.program.ended));
    }
}

fn compare(chunk: u64, trace: &[u8], program: &[u8], reference: &[u8], totals: &mut Totals) {
    let mut lines: Vec<&[u8]> = trace.split(|b| *b == b'\n').collect();
    if lines.last().is_some_and(|l| l.is_empty()) {
        lines.pop();
    }
    let count = lines.len();
    let mut run =
        Run { chunk, lines, program: Answers::new(program), reference: Answers::new(reference), tripped: false };
    for at in 0..count {
        run.line(at, totals);
    }
    if run.program.left() || run.reference.left() {
        totals.differences += 1;
        println!(
            "trace {chunk}: more answers than calls (program: {}, reference: {})",
            run.program.left(),
            run.reference.left()
        );
    }
}

/// Runs one trace through both and compares; the files stay where something differed.
fn chunk(folder: &Path, name: &str, at: u64, trace: &[u8], commands: [&str; 2], totals: &mut Totals) {
    let file = |kind: &str| folder.join(format!("{name}.{at}.{kind}"));
    let paths = [file("trace"), file("program"), file("reference")];
    fs::write(&paths[0], trace).unwrap_or_else(|e| fail(&format!("cannot write {}: {e}", paths[0].display())));
    let children = [start(commands[0], &paths[0], &paths[1]), start(commands[1], &paths[0], &paths[2])];
    for (mut child, command) in children.into_iter().zip(commands) {
        let status = child.wait().unwrap_or_else(|e| fail(&format!("{command}: {e}")));
        if !status.success() {
            println!("{command} ended with {status} on trace {at}");
            totals.ended_badly = true;
        }
    }
    let read = |path: &Path| fs::read(path).unwrap_or_else(|e| fail(&format!("cannot read {}: {e}", path.display())));
    let before = totals.differences;
    compare(at, trace, &read(&paths[1]), &read(&paths[2]), totals);
    if totals.differences > before || totals.ended_badly {
        println!("kept: {} and its .program and .reference", paths[0].display());
    } else {
        paths.iter().for_each(|path| drop(fs::remove_file(path)));
    }
}

fn whole(text: &str, what: &str) -> u64 {
    lines::number(text).unwrap_or_else(|| fail(&format!("{what} is not a number: {text}")))
}

/// What was compared; the last line of every run.
fn finish(totals: &Totals) -> ! {
    println!("skipped: {} calls; {} trips of the reference", totals.skipped, totals.trips);
    println!("{} compared, {} differences", totals.compared, totals.differences);
    exit(i32::from(totals.differences > 0 || totals.ended_badly))
}

/// Seeded traces until enough calls were compared.
fn seeded(module: &str, calls: u64, seed: u64, damage: &str, folder: &str, commands: [&str; 2]) -> ! {
    let mut source = source(module, damage == "yes");
    let mut totals = Totals::default();
    let mut at = 0;
    while totals.compared < calls && !totals.ended_badly {
        let lines = (calls - totals.compared).min(CHUNK);
        let trace = make(source.as_mut(), seed, at, lines);
        let name = format!("{module}.{seed}");
        chunk(Path::new(folder), &name, at, &trace.bytes, commands, &mut totals);
        at += 1;
    }
    let summary = source.summary();
    println!("{module}: {at} traces from seed {seed}{}{summary}", if summary.is_empty() { "" } else { "; " });
    finish(&totals)
}

fn main() {
    let arguments: Vec<String> = std::env::args().skip(1).collect();
    let words: Vec<&str> = arguments.iter().map(String::as_str).collect();
    match words[..] {
        ["--trace", module, count, seed, damage] => {
            let mut source = source(module, damage == "yes");
            let trace = make(source.as_mut(), whole(seed, "SEED"), 0, whole(count, "LINES"));
            if std::io::stdout().write_all(&trace.bytes).is_err() {
                exit(2);
            }
        }
        ["--file", module, file, folder, program, reference] => {
            let trace = fs::read(file).unwrap_or_else(|e| fail(&format!("cannot read {file}: {e}")));
            let mut totals = Totals::default();
            chunk(Path::new(folder), &format!("{module}.file"), 0, &trace, [program, reference], &mut totals);
            finish(&totals)
        }
        [module, calls, seed, damage, folder, program, reference] => {
            seeded(module, whole(calls, "CALLS"), whole(seed, "SEED"), damage, folder, [program, reference])
        }
        _ => fail("usage: compare MODULE CALLS SEED DAMAGE FOLDER PROGRAM REFERENCE"),
    }
}
