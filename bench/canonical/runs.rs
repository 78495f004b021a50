//! Keys with counts, as ascending runs of bytes in blocks: a key above all of the rising run goes to its end, any other waits
//! loose, and runs are merged as they grow.

use std::collections::{BTreeMap, VecDeque};

const BLOCK: usize = 1 << 16;
const MOST_LOOSE: usize = 4096;

fn put_count(block: &mut Vec<u8>, mut count: u64) {
    while count > 0x7F {
        block.push(count as u8 | 0x80);
        count >>= 7;
    }
    block.push(count as u8);
}

fn take_count(bytes: &[u8], at: &mut usize) -> u64 {
    let (mut count, mut shift) = (0, 0);
    loop {
        let byte = bytes[*at];
        *at += 1;
        count |= u64::from(byte & 0x7F) << shift;
        if byte < 0x80 {
            return count;
        }
        shift += 7;
    }
}

/// Ascending keys, each with its count.
#[derive(Default)]
pub struct Run {
    blocks: VecDeque<Vec<u8>>,
    /// Where the first entry that is left begins, in the first block.
    start: usize,
    size: usize,
}

impl Run {
    fn push(&mut self, key: &[u8], times: u64) {
        let wanted = key.len() + 20;
        if self.blocks.back().is_none_or(|block| block.capacity() - block.len() < wanted) {
            self.blocks.push_back(Vec::with_capacity(wanted.max(BLOCK.min(2 * self.size + 64))));
        }
        if let Some(block) = self.blocks.back_mut() {
            let before = block.len();
            put_count(block, times);
            put_count(block, key.len() as u64);
            block.extend_from_slice(key);
            self.size += block.len() - before;
        }
    }

    /// Takes the first entry: its key into `key`, and how often it is there.
    pub fn pop(&mut self, key: &mut Vec<u8>) -> Option<u64> {
        let block = self.blocks.front()?;
        let mut at = self.start;
        let times = take_count(block, &mut at);
        let length = take_count(block, &mut at) as usize;
        key.clear();
        key.extend_from_slice(&block[at..at + length]);
        self.start = at + length;
        if self.start == block.len() {
            self.blocks.pop_front();
            self.start = 0;
        }
        Some(times)
    }
}

fn merge(mut left: Run, mut right: Run) -> Run {
    let mut out = Run::default();
    let (mut one, mut other) = (Vec::new(), Vec::new());
    let (mut first, mut second) = (left.pop(&mut one), right.pop(&mut other));
    loop {
        let order = match (first, second) {
            (None, None) => return out,
            (Some(_), None) => std::cmp::Ordering::Less,
            (None, Some(_)) => std::cmp::Ordering::Greater,
            (Some(_), Some(_)) => one.cmp(&other),
        };
        let times = if order.is_le() { first } else { None }.unwrap_or(0) + if order.is_ge() { second } else { None }.unwrap_or(0);
        out.push(if order.is_le() { &one } else { &other }, times);
        if order.is_le() {
            first = left.pop(&mut one);
        }
        if order.is_ge() {
            second = right.pop(&mut other);
        }
    }
}

/// Keys in any order.
#[derive(Default)]
pub struct Store {
    rising: Run,
    /// The last key of the rising run, which isn't in it yet, and how often it came.
    last: Vec<u8>,
    times: u64,
    loose: BTreeMap<Vec<u8>, u64>,
    runs: Vec<Run>,
}

impl Store {
    pub fn add(&mut self, key: &[u8], times: u64) {
        match key.cmp(&self.last) {
            std::cmp::Ordering::Equal if self.times > 0 => self.times += times,
            std::cmp::Ordering::Greater => {
                self.flush();
                self.last.extend_from_slice(key);
                self.times = times;
            }
            _ => {
                if let Some(count) = self.loose.get_mut(key) {
                    *count += times;
                    return;
                }
                if self.loose.len() == MOST_LOOSE {
                    self.settle();
                }
                self.loose.insert(key.to_vec(), times);
            }
        }
    }

    fn flush(&mut self) {
        if self.times > 0 {
            self.rising.push(&self.last, self.times);
        }
        self.last.clear();
        self.times = 0;
    }

    fn settle(&mut self) {
        self.flush();
        let mut waited = Run::default();
        for (key, times) in std::mem::take(&mut self.loose) {
            waited.push(&key, times);
        }
        for run in [std::mem::take(&mut self.rising), waited] {
            if run.size > 0 {
                self.runs.push(run);
            }
            self.join(|last, before| 2 * last >= before);
        }
    }

    fn join(&mut self, is_close: impl Fn(usize, usize) -> bool) {
        while let [.., before, last] = &self.runs[..]
            && is_close(last.size, before.size)
        {
            if let (Some(last), Some(before)) = (self.runs.pop(), self.runs.pop()) {
                self.runs.push(merge(before, last));
            }
        }
    }

    /// All of it, ascending.
    pub fn close(mut self) -> Run {
        self.settle();
        self.join(|_, _| true);
        self.runs.pop().unwrap_or_default()
    }
}
