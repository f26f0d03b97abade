//! A kernel and the history of the calls that led to it, in plain Rust.
use crate::plain_kernel::{Kernel, Layout, Op, Reply};

/// How many clients' entries are counted in a table.
const COUNTED: usize = 8;

#[derive(Clone, Copy)]
pub struct Call {
    pub thread: u64,
    pub op: Op,
}

#[derive(Clone, Copy)]
#[allow(dead_code)]
pub struct Entry {
    pub client: u32,
    pub number: u32,
    pub call: Call,
    pub reply: Reply,
}

#[derive(Debug)]
pub enum BookFault {
    Full,
    NameTaken,
}

pub struct Book {
    kernel: Kernel,
    history: Vec<Entry>,
    counts: [u32; COUNTED],
    limit: usize,
}

impl Book {
    pub fn open(limit: u32) -> Book {
        Book {
            kernel: Kernel::boot(&Layout {
                memory_bits: 16,
                root_radix: 4,
                threads: 2,
                endpoints: 1,
                untypeds: &[(16384, 12)],
            }),
            history: Vec::with_capacity(limit as usize),
            counts: [0; COUNTED],
            limit: limit as usize,
        }
    }

    pub fn length(&self) -> u32 {
        self.history.len() as u32
    }

    pub fn entry(&self, place: u32) -> Option<Entry> {
        self.history.get(place as usize).copied()
    }

    fn made_by(&self, client: u32) -> usize {
        match self.counts.get(client as usize) {
            Some(count) => *count as usize,
            None => self.history.iter().filter(|e| e.client == client).count(),
        }
    }

    pub fn take(&mut self, client: u32, number: u32, call: Call) -> Result<Reply, BookFault> {
        if self.history.len() == self.limit {
            return Err(BookFault::Full);
        }
        if self.made_by(client) != number as usize {
            return Err(BookFault::NameTaken);
        }
        let reply = self.kernel.step(call.thread, call.op);
        self.history.push(Entry { client, number, call, reply });
        if let Some(count) = self.counts.get_mut(client as usize) {
            *count = number + 1;
        }
        Ok(reply)
    }
}
