//! The report of a run.
use crate::plain_kernel::{Kernel, Reply, ThreadRow};
use crate::plain_store::Cap;
use crate::plain_waiters::Role;
use crate::setup::{Call, Setup};
use crate::text::op_text;
use std::fmt::Write as _;
use std::io::{self, Write};

const SLOT_BITS: u32 = 5;
const TCB_BITS: u32 = 11;

/// How many calls have an expectation, and how many of these are met.
#[derive(Default)]
pub struct ExpectationCount {
    pub met: usize,
    pub expected: usize,
}

/// Whether a text is the expected one, or begins with it followed by a space.
fn is_met(shown: &str, expected: &str) -> bool {
    shown.strip_prefix(expected).is_some_and(|rest| rest.is_empty() || rest.starts_with(' '))
}

/// Writes the line of a call, of which the reply is made text once where something is expected of it.
fn write_call(
    out: &mut impl Write,
    number: usize,
    call: &Call,
    reply: &Reply,
    shown: &mut String,
) -> io::Result<ExpectationCount> {
    write!(out, "{number} {} {}: ", call.thread, op_text(&call.op))?;
    let Some(expected) = &call.expect else {
        writeln!(out, "{reply}")?;
        return Ok(ExpectationCount::default());
    };
    shown.clear();
    write!(shown, "{reply}").map_err(io::Error::other)?;
    let met = is_met(shown, expected);
    if met {
        writeln!(out, "{shown} [met]")?;
    } else {
        writeln!(out, "{shown} [not met: {expected}]")?;
    }
    Ok(ExpectationCount {
        met: usize::from(met),
        expected: 1,
    })
}

fn write_calls(out: &mut impl Write, setup: &Setup, replies: &[Reply]) -> io::Result<ExpectationCount> {
    let mut count = ExpectationCount::default();
    let mut shown = String::new();
    for (number, (call, reply)) in (1..).zip(setup.calls.iter().zip(replies)) {
        let one = write_call(out, number, call, reply, &mut shown)?;
        count.met += one.met;
        count.expected += one.expected;
    }
    Ok(count)
}

fn write_threads(out: &mut impl Write, kernel: &Kernel) -> io::Result<()> {
    for (place, row) in (0u64..).zip(kernel.threads()) {
        if let Some(row) = row {
            write_thread(out, place << TCB_BITS, row, kernel)?;
        }
    }
    Ok(())
}

fn write_thread(out: &mut impl Write, thread: u64, row: &ThreadRow, kernel: &Kernel) -> io::Result<()> {
    write!(out, "thread {thread} ")?;
    match kernel.waiters().role(thread) {
        Some(Role::Sending(endpoint)) => write!(out, "sending {endpoint}")?,
        Some(Role::Receiving(endpoint)) => write!(out, "receiving {endpoint}")?,
        None if row.inactive => write!(out, "inactive")?,
        None => write!(out, "ready")?,
    }
    match row.inbox {
        Some((badge, message)) => writeln!(out, " inbox badge {badge} {message}"),
        None => writeln!(out),
    }
}

fn write_endpoint(out: &mut impl Write, endpoint: u64, kernel: &Kernel) -> io::Result<()> {
    write!(out, "endpoint {endpoint}")?;
    let mut waiting = kernel.waiters().waiting(endpoint).peekable();
    match waiting.peek().and_then(|first| kernel.waiters().role(*first)) {
        None => write!(out, " idle")?,
        Some(Role::Sending(_)) => write!(out, " sending")?,
        Some(Role::Receiving(_)) => write!(out, " receiving")?,
    }
    waiting.try_for_each(|thread| write!(out, " {thread}"))?;
    writeln!(out)
}

/// What the full slots name, each once and by rising address: live endpoints, and the CNodes that stand in slots of
/// their own and in others.
#[derive(Default)]
struct Named {
    endpoints: Vec<u64>,
    own: Vec<u64>,
    others: Vec<u64>,
}

impl Named {
    fn of(kernel: &Kernel) -> Named {
        let mut named = Named::default();
        for (slot, cap) in kernel.store().full_slots() {
            named.add(slot, cap);
        }
        for bases in [&mut named.endpoints, &mut named.own, &mut named.others] {
            bases.sort_unstable();
            bases.dedup();
        }
        named
    }

    fn add(&mut self, slot: u64, cap: Cap) {
        match cap {
            Cap::Endpoint { base, .. } => self.endpoints.push(base),
            Cap::CNode { base, radix, .. } if slot >> radix == base >> SLOT_BITS >> radix => self.own.push(base),
            Cap::CNode { base, .. } => self.others.push(base),
            Cap::Null | Cap::Untyped { .. } | Cap::Tcb { .. } => {}
        }
    }

    /// The CNodes that stand in no slots but their own.
    fn selfheld(&self) -> impl Iterator<Item = &u64> {
        self.own.iter().filter(|node| self.others.binary_search(node).is_err())
    }
}

fn write_slots(out: &mut impl Write, kernel: &Kernel) -> io::Result<()> {
    for (slot, cap) in kernel.store().full_slots() {
        let children = if kernel.store().first_child(slot).is_some() { " children" } else { "" };
        writeln!(out, "slot {} {cap}{children}", slot << SLOT_BITS)?;
    }
    Ok(())
}

/// Writes the report, and counts the expectations.
#[inline(never)]
pub fn write_report(
    out: &mut impl Write,
    setup: &Setup,
    replies: &[Reply],
    kernel: &Kernel,
) -> io::Result<ExpectationCount> {
    let count = write_calls(out, setup, replies)?;
    write_threads(out, kernel)?;
    let named = Named::of(kernel);
    named.endpoints.iter().try_for_each(|endpoint| write_endpoint(out, *endpoint, kernel))?;
    write_slots(out, kernel)?;
    named.selfheld().try_for_each(|node| writeln!(out, "selfheld {node}"))?;
    writeln!(out, "expected {} of {}", count.met, count.expected)?;
    Ok(count)
}
