//! Twins in Rust, of std alone: a push and a pop a round, at a queue of 128 in which 64 numbers wait.
//! Their places are tested by the language.

use std::collections::VecDeque;

/// A ring of first place and length.
struct Ring {
    cells: Vec<u64>,
    oldest: usize,
    len: usize,
}

impl Ring {
    fn new(capacity: usize) -> Ring {
        Ring { cells: vec![0; capacity], oldest: 0, len: 0 }
    }

    fn push(&mut self, value: u64) -> bool {
        if self.len == self.cells.len() {
            return false;
        }
        let mut place = self.oldest + self.len;
        if place >= self.cells.len() {
            place -= self.cells.len();
        }
        self.cells[place] = value;
        self.len += 1;
        true
    }

    fn pop(&mut self) -> Option<u64> {
        if self.len == 0 {
            return None;
        }
        let value = self.cells[self.oldest];
        self.oldest += 1;
        if self.oldest == self.cells.len() {
            self.oldest = 0;
        }
        self.len -= 1;
        Some(value)
    }
}

#[no_mangle]
pub extern "C" fn rust_ring(rounds: u64) -> u64 {
    let mut ring = Ring::new(128);
    for value in 0..64 {
        ring.push(value);
    }
    let mut sum = 0u64;
    for value in 0..rounds {
        ring.push(value);
        if let Some(value) = ring.pop() {
            sum = sum.wrapping_add(value);
        }
    }
    sum
}

/// The queue of Rust's std, which grows: here it never has to.
#[no_mangle]
pub extern "C" fn rust_deque(rounds: u64) -> u64 {
    let mut queue: VecDeque<u64> = VecDeque::with_capacity(128);
    queue.extend(0..64u64);
    let mut sum = 0u64;
    for value in 0..rounds {
        if queue.len() < 128 {
            queue.push_back(value);
        }
        if let Some(value) = queue.pop_front() {
            sum = sum.wrapping_add(value);
        }
    }
    sum
}
