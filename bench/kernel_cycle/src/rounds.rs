//! Rounds of calls of the kernel in plain Rust.
#![allow(dead_code)]

mod plain_chain;
mod plain_kernel;
#[path = "../../store_cycle/src/plain_store.rs"]
mod plain_store;
#[path = "../../ping_pong/src/plain_waiters.rs"]
mod plain_waiters;

use plain_kernel::{Kernel, Layout, Op, Reply, Slots};
use plain_waiters::Message;
use std::hint::black_box;

/// The calls of a round.
pub const STEPS: usize = 20;

const FIRST_THREAD: u64 = 131072;
const SECOND_THREAD: u64 = 133120;
const ROOT: u64 = 1;
const SECOND_TCB: u64 = 3;
const ENDPOINT: u64 = 4;
const UNTYPED: u64 = 5;

/// The first slot that a round fills, how many it fills, and after how many rounds the slots come again.
const FIRST_SLOT: u64 = 8;
const SLOTS_A_ROUND: u64 = 6;
const TURN: u64 = 512;

/// The word that sets the root CNode's own guard: its bits, 0.
const GUARD_WORD: u64 = 52;
const DEPTH: u64 = 64;

/// The calls of a round by its number.
fn round_of(round: u64) -> [(u64, Op); STEPS] {
    calls(FIRST_SLOT + SLOTS_A_ROUND * (round % TURN), round + 1)
}

/// The calls of the round that fills the slots from one on, and empties them again. An endpoint is made, copied, minted and
/// moved; the root CNode's capability is copied, gets its guard anew, and becomes the root of the second thread's space. Then
/// one message goes to a thread that waits, one from a thread that waits, and two calls find nobody; a send with a badge is
/// cancelled, and the thread suspended and resumed. Two slots are deleted, and the untyped region revoked, with which the
/// endpoint ends.
fn calls(slot: u64, badge: u64) -> [(u64, Op); STEPS] {
    let nb_recv = Op::NbRecv { cap: ENDPOINT };
    [
        first(retype(slot)),
        first(copy(slot + 1, slot)),
        first(mint(slot + 2, slot, badge)),
        first(relocate(slot + 3, slot + 1)),
        first(copy(slot + 4, ROOT)),
        first(mutate(slot + 5, slot + 4, GUARD_WORD)),
        first(Op::SetSpace { cap: SECOND_TCB, root: slot + 5, word: 0 }),
        second(Op::Recv { cap: ENDPOINT }),
        first(nb_send(ENDPOINT)),
        first(send(ENDPOINT)),
        second(nb_recv),
        first(nb_send(ENDPOINT)),
        second(nb_recv),
        second(send(slot + 2)),
        first(Op::CancelBadged { cap: ROOT, index: slot + 2, depth: DEPTH }),
        first(Op::Suspend { cap: SECOND_TCB }),
        first(Op::Resume { cap: SECOND_TCB }),
        first(delete(slot + 5)),
        first(delete(slot + 3)),
        first(Op::CapRevoke { cap: ROOT, index: UNTYPED, depth: DEPTH }),
    ]
}

fn first(op: Op) -> (u64, Op) {
    (FIRST_THREAD, op)
}

fn second(op: Op) -> (u64, Op) {
    (SECOND_THREAD, op)
}

fn message() -> Message {
    Message {
        label: 7,
        words: [1, 2, 0, 0],
        count: 2,
    }
}

fn send(cap: u64) -> Op {
    Op::Send { cap, message: message() }
}

fn nb_send(cap: u64) -> Op {
    Op::NbSend { cap, message: message() }
}

fn retype(slot: u64) -> Op {
    Op::Retype {
        cap: UNTYPED,
        kind: 2,
        size_bits: 0,
        root: ROOT,
        index: 0,
        depth: 0,
        offset: slot,
        count: 1,
    }
}

fn slots(slot: u64, source: u64) -> Slots {
    Slots {
        index: slot,
        depth: DEPTH,
        src_root: ROOT,
        src_index: source,
        src_depth: DEPTH,
    }
}

fn copy(slot: u64, source: u64) -> Op {
    Op::CapCopy {
        cap: ROOT,
        slots: slots(slot, source),
        rights: 15,
    }
}

fn mint(slot: u64, source: u64, badge: u64) -> Op {
    Op::CapMint {
        cap: ROOT,
        slots: slots(slot, source),
        rights: 15,
        word: badge,
    }
}

fn relocate(slot: u64, source: u64) -> Op {
    Op::CapMove {
        cap: ROOT,
        slots: slots(slot, source),
    }
}

fn mutate(slot: u64, source: u64, word: u64) -> Op {
    Op::CapMutate {
        cap: ROOT,
        slots: slots(slot, source),
        word,
    }
}

fn delete(slot: u64) -> Op {
    Op::CapDelete {
        cap: ROOT,
        index: slot,
        depth: DEPTH,
    }
}

fn booted() -> Kernel {
    Kernel::boot(&Layout {
        memory_bits: 20,
        root_radix: 12,
        threads: 2,
        endpoints: 1,
        untypeds: &[(524288, 19)],
    })
}

fn is_accepted(reply: &Reply) -> bool {
    !matches!(reply, Reply::Refused(_))
}

/// Boots a kernel and goes through so many rounds, each reply dropped once it was looked at; whether each call was accepted.
pub fn run(rounds: u16) -> bool {
    all_accepted(rounds)
}

/// The same, with the replies of each round kept.
pub fn run_kept(rounds: u16) -> bool {
    all_kept_and_accepted(rounds)
}

// The loops are functions of their own, since the compiler inlines more into a function that has one caller.

fn all_accepted(rounds: u16) -> bool {
    let mut kernel = booted();
    (0..u64::from(rounds)).all(|round| {
        round_of(round)
            .iter()
            .all(|(thread, op)| is_accepted(&kernel.step(*thread, *op)))
    })
}

fn all_kept_and_accepted(rounds: u16) -> bool {
    let mut kernel = booted();
    let mut replies = Vec::with_capacity(STEPS);
    (0..u64::from(rounds)).all(|round| {
        replies.clear();
        kernel.run(&round_of(round), &mut replies);
        black_box(&replies).iter().all(is_accepted)
    })
}
