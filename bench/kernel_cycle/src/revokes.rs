//! Revocations of the kernel in plain Rust.
#![allow(dead_code)]

mod plain_chain;
mod plain_kernel;
#[path = "../../store_cycle/src/plain_store.rs"]
mod plain_store;
#[path = "../../ping_pong/src/plain_waiters.rs"]
mod plain_waiters;

use plain_kernel::{Kernel, Layout, Op, Reply, Slots};

const THREAD: u64 = 2048;

// The words of the boot's capabilities, and of those that are made before anything is measured.
const ROOT: u64 = 1;
const ENDPOINT: u64 = 4;
const LARGE_UNTYPED: u64 = 5;
const SMALL_UNTYPED: u64 = 6;
const CNODE: u64 = 7;
const BADGED: u64 = 8;

const BADGE: u64 = 5;
const DEPTH: u64 = 64;
const CNODE_RADIX: u64 = 14;

/// The slots of the CNode, each of which is filled once.
pub const ALL_SLOTS: u32 = 1 << CNODE_RADIX;

/// Boots a kernel and fills the slots of a CNode one after another, with copies of a badged capability, or with copies of an
/// untyped one, each of the copy before it (`deep`). With `revokes`, that capability is revoked each time that so many slots
/// were filled. Whether each call was accepted.
pub fn revoke_run(slots: u32, deep: bool, revokes: bool) -> bool {
    let mut kernel = Kernel::boot(&Layout {
        memory_bits: 20,
        root_radix: 4,
        threads: 2,
        endpoints: 1,
        untypeds: &[(524288, 19), (16384, 12)],
    });
    let prepared = accepts(&mut kernel, new_cnode()) && accepts(&mut kernel, mint());
    let source = if deep { SMALL_UNTYPED } else { BADGED };
    prepared
        && (0..ALL_SLOTS).step_by(slots as usize).all(|first| {
            fills(&mut kernel, first, first + slots, source, !deep, revokes || first == 0)
                && (!revokes || accepts(&mut kernel, revoke(source)))
        })
}

/// Fills the slots from one up to another, with copies of the source, or each with a copy of what the slot before it holds,
/// and the first with one of the source where it is `fresh`. It is not inlined, so that it is the same with revocations and
/// without.
#[inline(never)]
fn fills(kernel: &mut Kernel, first: u32, end: u32, source: u64, wide: bool, fresh: bool) -> bool {
    (first..end).all(|place| {
        let copied = if wide || fresh && place == first {
            copy(place, ROOT, source, DEPTH)
        } else {
            copy(place, CNODE, u64::from(place - 1), CNODE_RADIX)
        };
        accepts(kernel, copied)
    })
}

fn accepts(kernel: &mut Kernel, op: Op) -> bool {
    !matches!(kernel.step(THREAD, op), Reply::Refused(_))
}

fn new_cnode() -> Op {
    Op::Retype {
        cap: LARGE_UNTYPED,
        kind: 4,
        size_bits: CNODE_RADIX,
        root: ROOT,
        index: 0,
        depth: 0,
        offset: CNODE,
        count: 1,
    }
}

fn mint() -> Op {
    let slots = Slots {
        index: BADGED,
        depth: DEPTH,
        src_root: ROOT,
        src_index: ENDPOINT,
        src_depth: DEPTH,
    };
    Op::CapMint {
        cap: ROOT,
        slots,
        rights: 15,
        word: BADGE,
    }
}

fn copy(place: u32, src_root: u64, src_index: u64, src_depth: u64) -> Op {
    let slots = Slots {
        index: u64::from(place),
        depth: CNODE_RADIX,
        src_root,
        src_index,
        src_depth,
    };
    Op::CapCopy {
        cap: CNODE,
        slots,
        rights: 15,
    }
}

fn revoke(slot: u64) -> Op {
    Op::CapRevoke {
        cap: ROOT,
        index: slot,
        depth: DEPTH,
    }
}
