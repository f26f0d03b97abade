//! Rounds of derivations and removals: the proved linked store beside the same table in plain Rust.
mod plain_store;

use plain_store::{Cap, Store};
use std::hint::black_box;
use std::time::Instant;

// Many short runs of which the least counts, so that other work on the machine weighs little.
const ROUNDS: u64 = 10_000;
const REPEATS: u32 = 200;

/// The capabilities that a round derives and removes.
const COUNT: u64 = 64;

#[link(name = "bench_kernel", kind = "static")]
#[link(name = "libc_c", kind = "static")]
extern "C" {
    // The allocator takes no bytes, so nothing is passed for it.
    fn store_cycle_run(place: u64, badge: u64, rounds: u64) -> u64;
}

fn endpoint(badge: u64) -> Cap {
    Cap::Endpoint {
        base: 8192,
        badge,
        rights: 15,
    }
}

/// The first slot's place, and the badge of what is derived.
const FIRST: u64 = 1;
const BADGE: u64 = 5;

fn plain_run(first: u64, badge: u64, rounds: u64) -> u64 {
    let mut store = Store::new(16);
    store.put_root(first, endpoint(0));
    let cap = endpoint(badge);
    let mut found = 0;
    for _ in 0..rounds {
        for i in 0..COUNT {
            store.derive(first, i + 2, cap);
        }
        let child = store.first_child(first);
        for i in (0..COUNT).rev() {
            store.remove(i + 2);
        }
        found += u64::from(child == Some(COUNT + 1));
    }
    found
}

/// Runs all rounds; nanoseconds a round. Slot and badge are hidden from the compiler.
fn time(run: impl Fn(u64, u64, u64) -> u64) -> f64 {
    let start = Instant::now();
    let found = run(black_box(FIRST), black_box(BADGE), black_box(ROUNDS));
    assert_eq!(found, ROUNDS, "each round finds the first child");
    start.elapsed().as_secs_f64() * 1e9 / ROUNDS as f64
}

fn main() {
    let (mut proved, mut plain) = (f64::MAX, f64::MAX);
    for _ in 0..REPEATS {
        // SAFETY: the declaration fits the library's, which asks for this place and this badge.
        proved = proved.min(time(|first, badge, rounds| unsafe {
            store_cycle_run(first, badge, rounds)
        }));
        plain = plain.min(time(plain_run));
    }
    println!(
        "store cycle: proved {proved:.1} ns, plain Rust {plain:.1} ns a round, ratio {:.2}",
        proved / plain
    );
}
