//! The text of calls, replies and capabilities.
use crate::plain_kernel::{Lookup, Op, Refusal, Reply};
use crate::plain_store::Cap;
use crate::plain_waiters::Message;
use std::fmt;

pub fn op_text(op: &Op) -> &'static str {
    match op {
        Op::Retype { .. } => "retype",
        Op::CapCopy { .. } => "copy",
        Op::CapMint { .. } => "mint",
        Op::CapMove { .. } => "move",
        Op::CapMutate { .. } => "mutate",
        Op::CapDelete { .. } => "delete",
        Op::CapRevoke { .. } => "revoke",
        Op::CancelBadged { .. } => "cancel_badged",
        Op::Send { .. } => "send",
        Op::NbSend { .. } => "nbsend",
        Op::Recv { .. } => "recv",
        Op::NbRecv { .. } => "nbrecv",
        Op::SetSpace { .. } => "set_space",
        Op::Suspend { .. } => "suspend",
        Op::Resume { .. } => "resume",
    }
}

fn lookup_kind(lookup: Lookup) -> u32 {
    match lookup {
        Lookup::InvalidRoot => 1,
        Lookup::MissingCapability => 2,
        Lookup::DepthMismatch => 3,
        Lookup::GuardMismatch => 4,
    }
}

fn refusal_text(refusal: Refusal) -> &'static str {
    match refusal {
        Refusal::InvalidArgument => "1",
        Refusal::InvalidCapability => "2",
        Refusal::IllegalOperation => "3",
        Refusal::RangeError => "4",
        Refusal::FailedLookup(_) => "6",
        Refusal::DeleteFirst => "8",
        Refusal::RevokeFirst => "9",
        Refusal::NotEnoughMemory => "10",
        Refusal::NoThread => "100",
        Refusal::NotReady => "101",
    }
}

impl fmt::Display for Refusal {
    fn fmt(&self, f: &mut fmt::Formatter) -> fmt::Result {
        f.write_str(refusal_text(*self))?;
        match self {
            Refusal::FailedLookup(lookup) => write!(f, "/{}", lookup_kind(*lookup)),
            _ => Ok(()),
        }
    }
}

impl fmt::Display for Message {
    fn fmt(&self, f: &mut fmt::Formatter) -> fmt::Result {
        write!(f, "label {} words", self.label)?;
        let words = &self.words[..self.count as usize];
        words.iter().try_for_each(|word| write!(f, " {word}"))
    }
}

impl fmt::Display for Reply {
    fn fmt(&self, f: &mut fmt::Formatter) -> fmt::Result {
        match self {
            Reply::Done => f.write_str("done"),
            Reply::Waiting => f.write_str("waiting"),
            Reply::Dropped => f.write_str("dropped"),
            Reply::Empty => f.write_str("empty"),
            Reply::Refused(refusal) => write!(f, "refused {refusal}"),
            Reply::Delivered { endpoint, from, to, badge, message } => {
                write!(f, "delivered {endpoint} from {from} to {to} badge {badge} {message}")
            }
        }
    }
}

/// The rights of an endpoint's capability: a letter each, or `-` where one is missing.
struct Rights(u8);

impl fmt::Display for Rights {
    fn fmt(&self, f: &mut fmt::Formatter) -> fmt::Result {
        let mut letters = (0..).zip(["w", "r", "g", "p"]);
        letters.try_for_each(|(bit, letter)| f.write_str(if self.0 >> bit & 1 == 1 { letter } else { "-" }))
    }
}

impl fmt::Display for Cap {
    fn fmt(&self, f: &mut fmt::Formatter) -> fmt::Result {
        match self {
            Cap::Null => f.write_str("null"),
            Cap::Untyped { base, bits, free } => write!(f, "untyped {base} bits {bits} free {free}"),
            Cap::Endpoint { base, badge, rights } => {
                write!(f, "endpoint {base} badge {badge} rights {}", Rights(*rights))
            }
            Cap::CNode { base, radix, guard } => {
                write!(f, "cnode {base} radix {radix} guard {} size {}", guard.value, guard.size)
            }
            Cap::Tcb { base } => write!(f, "tcb {base}"),
        }
    }
}
