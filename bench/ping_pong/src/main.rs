//! Messages to and fro between two threads: the proved queues inside tables beside the same in plain Rust.
mod plain_waiters;

use plain_waiters::{Message, Received, Sent, Waiters};
use std::hint::black_box;
use std::time::Instant;

// Many short runs of which the least counts, so that other work on the machine weighs little.
const ROUNDS: u64 = 1_000_000;
const REPEATS: u32 = 200;

#[link(name = "bench_kernel", kind = "static")]
#[link(name = "libc_c", kind = "static")]
extern "C" {
    // The allocator takes no bytes, so nothing is passed for it.
    fn ping_pong_run(rounds: u64) -> u64;
}

fn message(round: u64) -> Message {
    Message {
        label: round,
        words: [round, 0, 0, 0],
        count: 1,
    }
}

/// The second thread receives and waits, and the first sends to it.
fn ping(waiters: &mut Waiters, round: u64) -> bool {
    waiters.recv(0, 4096, true);
    waiters.send(0, 2048, 1, message(round), true) == Sent::Delivered { to: 4096 }
}

/// The second thread sends and waits, and the first receives from it.
fn pong(waiters: &mut Waiters, round: u64) -> bool {
    waiters.send(16, 4096, 2, message(round), true);
    match waiters.recv(16, 2048, true) {
        Received::Delivered { from, message, .. } => from == 4096 && message.label == round,
        _ => false,
    }
}

fn plain_run(rounds: u64) -> u64 {
    let mut waiters = Waiters::new(14);
    let mut arrived = 0;
    for round in 0..rounds {
        if ping(&mut waiters, round) && pong(&mut waiters, round) {
            arrived += 1;
        }
    }
    arrived
}

/// Runs all rounds; nanoseconds a round.
fn time(run: impl Fn(u64) -> u64) -> f64 {
    let start = Instant::now();
    assert_eq!(run(black_box(ROUNDS)), ROUNDS, "each message arrives");
    start.elapsed().as_secs_f64() * 1e9 / ROUNDS as f64
}

fn main() {
    let (mut proved, mut plain) = (f64::MAX, f64::MAX);
    for _ in 0..REPEATS {
        // SAFETY: the declaration fits the library's, which asks for nothing.
        proved = proved.min(time(|rounds| unsafe { ping_pong_run(rounds) }));
        plain = plain.min(time(plain_run));
    }
    println!(
        "ping-pong: proved {proved:.1} ns, plain Rust {plain:.1} ns a round, ratio {:.2}",
        proved / plain
    );
}
