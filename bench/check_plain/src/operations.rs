//! The operations that a call may name: the keys of each, and what they are read as.
use crate::fault::{Fault, Wrong};
use crate::keys::Keys;
use crate::plain_kernel::{Op, Slots};
use crate::plain_waiters::Message;

const WORD_BITS: u64 = 64;
const ALL_RIGHTS: u32 = 15;

const ANY_CALL: [&str; 4] = ["thread", "op", "client", "expect"];

/// The keys of an operation besides those of any call, or nothing where no operation has the name.
#[rustfmt::skip]
fn own_keys(op: &str) -> Option<&'static [&'static str]> {
    Some(match op {
        "retype" => &["cap", "kind", "size_bits", "root", "index", "depth", "offset", "count"],
        "copy" => &["cap", "index", "depth", "src_root", "src_index", "src_depth", "rights"],
        "mint" => &["cap", "index", "depth", "src_root", "src_index", "src_depth", "rights", "word"],
        "move" => &["cap", "index", "depth", "src_root", "src_index", "src_depth"],
        "mutate" => &["cap", "index", "depth", "src_root", "src_index", "src_depth", "word"],
        "delete" | "revoke" | "cancel_badged" => &["cap", "index", "depth"],
        "send" | "nbsend" => &["cap", "label", "words"],
        "recv" | "nbrecv" | "suspend" | "resume" => &["cap"],
        "set_space" => &["cap", "root", "word"],
        _ => return None,
    })
}

/// The name of the operation of a call, which has known keys alone.
pub fn known_operation<'t>(keys: &Keys<'t>) -> Result<&'t str, Fault> {
    let op = keys.text("op")?;
    let own = own_keys(op).ok_or_else(|| keys.fault(Wrong::OtherValue, "op"))?;
    let is_known = |key: &str| ANY_CALL.contains(&key) || own.contains(&key);
    match keys.table.keys().find(|key| !is_known(key)) {
        None => Ok(op),
        Some(key) => Err(keys.fault(Wrong::Unknown, key)),
    }
}

fn retype(keys: &Keys) -> Result<Op, Fault> {
    Ok(Op::Retype {
        cap: keys.word("cap")?,
        kind: keys.word("kind")?,
        size_bits: keys.word_or("size_bits", 0)?,
        root: keys.word("root")?,
        index: keys.word_or("index", 0)?,
        depth: keys.word_or("depth", 0)?,
        offset: keys.word("offset")?,
        count: keys.word("count")?,
    })
}

/// The word of the invoked CNode, and those that name the slots.
fn slots(keys: &Keys) -> Result<(u64, Slots), Fault> {
    let cap = keys.word("cap")?;
    let slots = Slots {
        index: keys.word("index")?,
        depth: keys.word_or("depth", WORD_BITS)?,
        src_root: keys.word_or("src_root", cap)?,
        src_index: keys.word("src_index")?,
        src_depth: keys.word_or("src_depth", WORD_BITS)?,
    };
    Ok((cap, slots))
}

fn rights(keys: &Keys) -> Result<u8, Fault> {
    Ok(keys.number_or("rights", ALL_RIGHTS, 0, ALL_RIGHTS)? as u8)
}

/// The word of the invoked CNode, and the index and the depth of the slot in it.
fn named(keys: &Keys) -> Result<(u64, u64, u64), Fault> {
    Ok((keys.word("cap")?, keys.word("index")?, keys.word_or("depth", WORD_BITS)?))
}

fn message(keys: &Keys) -> Result<Message, Fault> {
    let label = keys.label_or("label", 0)?;
    let (words, count) = keys.words_or_none("words")?;
    Ok(Message { label, words, count })
}

fn slot_operation(op: &str, keys: &Keys) -> Result<Op, Fault> {
    let (cap, slots) = slots(keys)?;
    Ok(match op {
        "copy" => Op::CapCopy {
            cap,
            slots,
            rights: rights(keys)?,
        },
        "mint" => Op::CapMint {
            cap,
            slots,
            rights: rights(keys)?,
            word: keys.word("word")?,
        },
        "move" => Op::CapMove { cap, slots },
        _ => Op::CapMutate {
            cap,
            slots,
            word: keys.word("word")?,
        },
    })
}

fn named_operation(op: &str, keys: &Keys) -> Result<Op, Fault> {
    let (cap, index, depth) = named(keys)?;
    Ok(match op {
        "delete" => Op::CapDelete { cap, index, depth },
        "revoke" => Op::CapRevoke { cap, index, depth },
        _ => Op::CancelBadged { cap, index, depth },
    })
}

fn other_operation(op: &str, keys: &Keys) -> Result<Op, Fault> {
    let cap = keys.word("cap")?;
    Ok(match op {
        "send" => Op::Send {
            cap,
            message: message(keys)?,
        },
        "nbsend" => Op::NbSend {
            cap,
            message: message(keys)?,
        },
        "recv" => Op::Recv { cap },
        "nbrecv" => Op::NbRecv { cap },
        "suspend" => Op::Suspend { cap },
        "resume" => Op::Resume { cap },
        _ => Op::SetSpace {
            cap,
            root: keys.word("root")?,
            word: keys.word_or("word", 0)?,
        },
    })
}

/// The operation of a name that is known, from the keys of its call.
pub fn operation(op: &str, keys: &Keys) -> Result<Op, Fault> {
    match op {
        "retype" => retype(keys),
        "copy" | "mint" | "move" | "mutate" => slot_operation(op, keys),
        "delete" | "revoke" | "cancel_badged" => named_operation(op, keys),
        _ => other_operation(op, keys),
    }
}
