//! The deque's workloads on the Rust: one deque, elements of 64 bits.

use crate::common::deque::{DeqNode, Deque};
use crate::common::CacheRegion;
use crate::lines::digest;
use crate::Numbers;
use std::ptr::NonNull;

/// The slot that a number chooses out of so many: its upper half times their count, without its lower half. A remainder
/// would take longer than the call that is measured.
fn chosen(number: u64, nodes: u64) -> usize {
    (((number >> 32) * nodes) >> 32) as usize
}

/// A deque and its nodes by slot; a slot is the number of its push.
struct Filled {
    deque: Deque<u64>,
    nodes: Vec<NonNull<DeqNode<u64>>>,
}

impl Filled {
    fn new(count: u64, numbers: &mut Numbers) -> Self {
        let mut deque = Deque::new(CacheRegion::Other);
        let nodes = (0..count).map(|_| deque.push_back(Box::new(DeqNode::new(numbers.next())))).collect();
        Self { deque, nodes }
    }

    /// The digest of the elements from front to back.
    fn digest(mut self) -> u64 {
        digest(std::iter::from_fn(|| self.deque.pop_front().map(|node| node.element)))
    }
}

fn queue(nodes: u64, calls: u64, numbers: &mut Numbers) -> u64 {
    let mut filled = Filled::new(nodes / 2, numbers);
    let mut sum = 0u64;
    for _ in 0..calls {
        filled.deque.push_back(Box::new(DeqNode::new(numbers.next())));
        sum = sum.wrapping_add(filled.deque.pop_front().map_or(0, |node| node.element));
    }
    sum.wrapping_add(filled.digest())
}

fn rotate(nodes: u64, calls: u64, numbers: &mut Numbers) -> u64 {
    let mut filled = Filled::new(nodes, numbers);
    for _ in 0..calls {
        let slot = chosen(numbers.next(), nodes);
        unsafe { filled.deque.move_to_back(filled.nodes[slot]) };
    }
    filled.digest()
}

fn unlink(nodes: u64, calls: u64, numbers: &mut Numbers) -> u64 {
    let mut filled = Filled::new(nodes, numbers);
    for _ in 0..calls {
        let x = numbers.next();
        let slot = chosen(x, nodes);
        unsafe { filled.deque.unlink_and_drop(filled.nodes[slot]) };
        filled.nodes[slot] = filled.deque.push_back(Box::new(DeqNode::new(x)));
    }
    filled.digest()
}

fn walk(nodes: u64, calls: u64, numbers: &mut Numbers) -> u64 {
    let mut filled = Filled::new(nodes, numbers);
    let mut sum = 0u64;
    for _ in 0..calls {
        sum = sum.wrapping_add(Iterator::next(&mut &mut filled.deque).copied().unwrap_or(0));
    }
    sum
}

pub fn run(workload: &str, nodes: u64, calls: u64, mut numbers: Numbers) -> Option<u64> {
    if !(2..=4096).contains(&nodes) {
        return None;
    }
    match workload {
        "queue" => Some(queue(nodes, calls, &mut numbers)),
        "move" => Some(rotate(nodes, calls, &mut numbers)),
        "unlink" => Some(unlink(nodes, calls, &mut numbers)),
        "walk" => Some(walk(nodes, calls, &mut numbers)),
        _ => None,
    }
}
