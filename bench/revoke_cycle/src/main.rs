//! Revocations: the proved kernel over the linked forms beside the same kernel in plain Rust, as the compiler inlines it and
//! with the proved kernel's hints on inlining.
use plain::ALL_SLOTS;
use std::hint::black_box;
use std::time::Instant;

// Many runs, so that other work on the machine weighs little.
const REPEATS: usize = 200;

/// How many slots each revocation clears.
const SIZES: [u32; 4] = [16, 256, 4096, 16384];

/// The names of the forests: all copies children of one, and each copy the child of the one before it.
const FORESTS: [(&str, bool); 2] = [("wide", false), ("deep", true)];

#[link(name = "bench_kernel", kind = "static")]
#[link(name = "libc_c", kind = "static")]
extern "C" {
    // The allocator takes no bytes, so nothing is passed for it.
    fn revoke_cycle_run(slots: u32, deep: bool, revokes: bool) -> bool;
}

fn proved_run(slots: u32, deep: bool, revokes: bool) -> bool {
    // SAFETY: the declaration fits the library's, which asks for nothing.
    unsafe { revoke_cycle_run(slots, deep, revokes) }
}

/// What is measured: boots a kernel and fills all slots of a CNode; with the last argument, what was filled is revoked each
/// time that so many slots were. Tells whether each call was accepted.
type Run = fn(u32, bool, bool) -> bool;

const RUNS: [(&str, Run); 3] = [
    ("proved", proved_run),
    ("plain", plain::revoke_run),
    ("plain_inlined", plain_inlined::revoke_run),
];

/// Seconds.
fn time(run: Run, slots: u32, deep: bool, revokes: bool) -> f64 {
    let start = Instant::now();
    assert!(run(black_box(slots), black_box(deep), black_box(revokes)), "every call is accepted");
    start.elapsed().as_secs_f64()
}

/// Seconds that a run takes longer with revocations than without.
fn difference(run: Run, slots: u32, deep: bool) -> f64 {
    let filling = time(run, slots, deep, false);
    time(run, slots, deep, true) - filling
}

fn middle(mut seconds: Vec<f64>) -> f64 {
    seconds.sort_by(f64::total_cmp);
    seconds[seconds.len() / 2]
}

/// Nanoseconds of revocation a slot, for each of the runs: the middle of the differences. The difference of the least times
/// would be that of a run in a quiet moment and of one in another.
fn measured(slots: u32, deep: bool) -> [f64; RUNS.len()] {
    let mut all = RUNS.map(|_| Vec::with_capacity(REPEATS));
    for _ in 0..REPEATS {
        for ((_, run), seconds) in RUNS.iter().zip(&mut all) {
            seconds.push(difference(*run, slots, deep));
        }
    }
    all.map(|seconds| middle(seconds) * 1e9 / f64::from(ALL_SLOTS))
}

fn print_times() {
    for (name, deep) in FORESTS {
        for slots in SIZES {
            let [proved, plain, inlined] = measured(slots, deep);
            println!(
                "revoke, {name}, {slots} slots: proved {proved:.1} ns a slot, plain Rust {plain:.1}, ratio {:.2}; plain Rust with the same hints {inlined:.1}, ratio {:.2}",
                proved / plain,
                proved / inlined
            );
        }
    }
}

/// With no argument, prints the times. `NAME SLOTS DEEP REVOKES` makes one run and prints nothing, so that its instructions
/// can be counted.
fn main() {
    let words: Vec<String> = std::env::args().skip(1).collect();
    match words.as_slice() {
        [] => print_times(),
        [name, slots, deep, revokes] => {
            let (_, run) = RUNS.iter().find(|(run, _)| run == name).expect("a run's name");
            let slots = slots.parse().expect("slots");
            assert!(run(slots, deep == "deep", revokes == "revoking"), "every call is accepted");
        }
        _ => panic!("no argument, or NAME SLOTS DEEP REVOKES"),
    }
}
