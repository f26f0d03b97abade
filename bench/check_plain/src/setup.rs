//! A whole set-up, from its text.
use crate::fault::{Fault, Place, Wrong};
use crate::keys::Keys;
use crate::layout::defect;
use crate::operations::{known_operation, operation};
use crate::plain_kernel::{Layout, Op};
use toml::Value;

pub struct Call {
    pub thread: u64,
    pub op: Op,
    pub expect: Option<String>,
}

pub struct Setup {
    pub memory_bits: u32,
    pub root_radix: u32,
    pub threads: u64,
    pub endpoints: u64,
    pub untypeds: Vec<(u64, u32)>,
    pub calls: Vec<Call>,
}

const MAX_UNTYPEDS: usize = 64;
const MAX_CALLS: usize = 65536;
const MAX_CLIENTS: u32 = 8;
const MAX_LIMIT: u32 = 65536;

#[rustfmt::skip]
const TOP_KEYS: [&str; 10] = [
    "format", "profile", "memory_bits", "root_radix", "threads", "endpoints", "clients", "limit", "untyped", "call",
];

/// Refuses another format, another profile and unknown keys.
fn wide_first_format(top: &Keys) -> Result<(), Fault> {
    if top.number("format", 1, 2)? == 2 {
        return Err(Fault::NotTaken);
    }
    top.known_only(&TOP_KEYS)?;
    match top.optional("profile", |value| value.as_str().ok_or(Wrong::OtherType))? {
        None | Some("wide") => Ok(()),
        Some("narrow") => Err(Fault::NotTaken),
        Some(_) => Err(top.fault(Wrong::OtherValue, "profile")),
    }
}

fn untyped(keys: &Keys) -> Result<(u64, u32), Fault> {
    keys.known_only(&["base", "bits"])?;
    Ok((keys.word("base")?, keys.number("bits", 4, 47)?))
}

fn call(keys: &Keys, clients: u32) -> Result<Call, Fault> {
    let op = known_operation(keys)?;
    let thread = keys.word("thread")?;
    keys.number_or("client", 0, 0, clients - 1)?;
    let expect = keys.expect_or_none("expect")?.map(str::to_owned);
    let op = operation(op, keys)?;
    Ok(Call { thread, op, expect })
}

fn setup(top: &Keys) -> Result<Setup, Fault> {
    wide_first_format(top)?;
    let memory_bits = top.number("memory_bits", 12, 20)?;
    let root_radix = top.number("root_radix", 1, 12)?;
    let threads = u64::from(top.number("threads", 1, 64)?);
    let endpoints = u64::from(top.number("endpoints", 0, 256)?);
    let clients = top.number_or("clients", 1, 1, MAX_CLIENTS)?;
    top.number_or("limit", 1, 1, MAX_LIMIT)?;
    let regions = top.tables_or_none("untyped", MAX_UNTYPEDS)?;
    let calls = top.tables_or_none("call", MAX_CALLS)?;
    let keys = |(number, table)| untyped(&Keys { table, place: Place::Untyped(number) });
    let untypeds = (1..).zip(regions).map(keys).collect::<Result<Vec<_>, _>>()?;
    let layout = Layout {
        memory_bits,
        root_radix,
        threads,
        endpoints,
        untypeds: &untypeds,
    };
    if let Some(defect) = defect(&layout) {
        return Err(Fault::Layout(defect));
    }
    let keys = |(number, table)| call(&Keys { table, place: Place::Call(number) }, clients);
    let calls = (1..).zip(calls).map(keys).collect::<Result<Vec<_>, _>>()?;
    Ok(Setup {
        memory_bits,
        root_radix,
        threads,
        endpoints,
        untypeds,
        calls,
    })
}

/// The set-up that a text is read as, or its first fault.
#[inline(never)]
pub fn read_setup(bytes: &[u8]) -> Result<Setup, Fault> {
    let text = std::str::from_utf8(bytes).map_err(|_| Fault::Text)?;
    match toml::from_str(text) {
        Ok(Value::Table(table)) => setup(&Keys {
            table: &table,
            place: Place::Top,
        }),
        _ => Err(Fault::Text),
    }
}
