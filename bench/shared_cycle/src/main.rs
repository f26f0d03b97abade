//! Calls and looks of a shared kernel in plain Rust, with the words of the proved program crates/bench_shared, to be timed from
//! outside.
mod book;
#[path = "../../kernel_cycle/src/plain_chain.rs"]
mod plain_chain;
#[allow(dead_code)]
#[path = "../../kernel_cycle/src/plain_kernel.rs"]
mod plain_kernel;
#[allow(dead_code)]
#[path = "../../store_cycle/src/plain_store.rs"]
mod plain_store;
#[allow(dead_code)]
#[path = "../../ping_pong/src/plain_waiters.rs"]
mod plain_waiters;
mod shared;

use book::{Book, BookFault, Call};
use plain_kernel::Op;
use plain_waiters::Message;
use shared::Shared;
use std::hint::black_box;
use std::sync::atomic::{AtomicBool, AtomicU64, Ordering};

fn dropped_send() -> Call {
    let message = Message { label: 0, words: [0; 4], count: 0 };
    Call { thread: 2048, op: Op::NbSend { cap: 4, message } }
}

fn take_all(calls: u32) -> Result<u64, BookFault> {
    let mut book = Book::open(calls);
    for number in 0..calls {
        black_box(book.take(0, number, dropped_send())?);
    }
    Ok(0)
}

fn call_all(shared: &Shared, client: u32, calls: u32) -> Result<u64, BookFault> {
    for number in 0..calls {
        black_box(shared.call(client, number, dropped_send())?);
    }
    Ok(0)
}

fn look_until(shared: &Shared, reader: usize, over: &AtomicBool, looks: &AtomicU64) {
    let mut answered = 0;
    while !over.load(Ordering::Relaxed) {
        black_box(shared.look(reader, Book::length));
        answered += 1;
    }
    looks.fetch_add(answered, Ordering::SeqCst);
}

fn looks_beside(calls: u32, readers: usize) -> Result<u64, BookFault> {
    let shared = Shared::start(readers + 1, calls);
    let (over, looks) = (AtomicBool::new(false), AtomicU64::new(0));
    std::thread::scope(|scope| {
        for reader in 0..readers {
            let (shared, over, looks) = (&shared, &over, &looks);
            scope.spawn(move || look_until(shared, reader, over, looks));
        }
        let made = call_all(&shared, readers as u32, calls);
        over.store(true, Ordering::SeqCst);
        made
    })?;
    Ok(looks.load(Ordering::SeqCst))
}

fn main() -> Result<(), BookFault> {
    let words: Vec<String> = std::env::args().collect();
    let number = |place: usize| words[place].parse::<u32>().expect("a number");
    if words[1] == "look" {
        println!("{}", looks_beside(number(2), number(3) as usize)?);
        return Ok(());
    }
    for _ in 0..number(2) {
        match words[1].as_str() {
            "take" => take_all(number(3))?,
            _ => call_all(&Shared::start(1, number(3)), 0, number(3))?,
        };
    }
    println!("0");
    Ok(())
}
