//! `sel4sim check` in plain Rust: reads a set-up of format 1 and the wide profile with the crate `toml`, makes its
//! calls on the plain kernel, and writes the same report with the same exit status.
#![allow(dead_code)]

#[path = "../../kernel_cycle/src/plain_chain.rs"]
mod plain_chain;
#[path = "../../kernel_cycle/src/plain_kernel.rs"]
mod plain_kernel;
#[path = "../../store_cycle/src/plain_store.rs"]
mod plain_store;
#[path = "../../ping_pong/src/plain_waiters.rs"]
mod plain_waiters;

mod fault;
mod keys;
mod layout;
mod operations;
mod report;
mod setup;
mod text;

use plain_kernel::{Kernel, Layout, Reply};
use setup::{read_setup, Setup};
use std::io::{self, BufWriter, Write};
use std::process::ExitCode;

const NOT_MET: u8 = 1;
const REFUSED: u8 = 2;
const FAILED: u8 = 3;
const NOT_TAKEN: u8 = 5;

// The parts of a run are not inlined, so that their instructions can be told apart.

#[inline(never)]
fn boot(setup: &Setup) -> Kernel {
    Kernel::boot(&Layout {
        memory_bits: setup.memory_bits,
        root_radix: setup.root_radix,
        threads: setup.threads,
        endpoints: setup.endpoints,
        untypeds: &setup.untypeds,
    })
}

#[inline(never)]
fn run_calls(kernel: &mut Kernel, setup: &Setup) -> Vec<Reply> {
    setup.calls.iter().map(|call| kernel.step(call.thread, call.op)).collect()
}

fn run(setup: &Setup, out: &mut impl Write) -> io::Result<u8> {
    let mut kernel = boot(setup);
    let replies = run_calls(&mut kernel, setup);
    let count = report::write_report(out, setup, &replies, &kernel)?;
    Ok(if count.met == count.expected { 0 } else { NOT_MET })
}

/// Writes what the bytes of a set-up give; the exit status.
fn check(bytes: &[u8], out: &mut impl Write) -> io::Result<u8> {
    match read_setup(bytes) {
        Ok(setup) => run(&setup, out),
        Err(fault::Fault::NotTaken) => Ok(NOT_TAKEN),
        Err(fault) => writeln!(out, "{fault}").map(|()| REFUSED),
    }
}

fn check_file(path: &str) -> io::Result<u8> {
    let bytes = std::fs::read(path)?;
    let mut out = BufWriter::new(io::stdout().lock());
    let status = check(&bytes, &mut out)?;
    out.flush()?;
    Ok(status)
}

fn main() -> ExitCode {
    let words: Vec<String> = std::env::args().skip(1).collect();
    match words.as_slice() {
        [check, path] if check == "check" => ExitCode::from(check_file(path).unwrap_or(FAILED)),
        _ => panic!("check FILE"),
    }
}
