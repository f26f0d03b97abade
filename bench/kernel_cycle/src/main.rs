//! Rounds of calls: the proved kernel over the linked forms beside the same kernel in plain Rust, as the compiler inlines it
//! and with the proved kernel's hints on inlining; with each reply dropped and with the replies kept.
use plain::STEPS;
use std::hint::black_box;
use std::time::Instant;

// Many short runs of which the least counts, so that other work on the machine weighs little.
const ROUNDS: u16 = 1000;
const TURNS: u32 = 20;
const REPEATS: u32 = 20;

#[link(name = "bench_kernel", kind = "static")]
#[link(name = "libc_c", kind = "static")]
extern "C" {
    // The allocator takes no bytes, so nothing is passed for it.
    fn kernel_cycle_run(rounds: u16) -> bool;
    fn kernel_replies_run(rounds: u16) -> bool;
}

fn proved_run(rounds: u16) -> bool {
    // SAFETY: the declaration fits the library's, which asks for nothing.
    unsafe { kernel_cycle_run(rounds) }
}

fn proved_kept(rounds: u16) -> bool {
    // SAFETY: as above.
    unsafe { kernel_replies_run(rounds) }
}

/// What is measured: boots a kernel, goes through so many rounds, and tells whether each call was accepted.
type Run = fn(u16) -> bool;

const RUNS: [(&str, Run); 6] = [
    ("proved", proved_run),
    ("plain", plain::run),
    ("plain_inlined", plain_inlined::run),
    ("proved_kept", proved_kept),
    ("plain_kept", plain::run_kept),
    ("plain_inlined_kept", plain_inlined::run_kept),
];

/// The least seconds of a boot, and of a boot with all rounds.
#[derive(Clone, Copy)]
struct Least {
    boot: f64,
    whole: f64,
}

impl Least {
    /// Nanoseconds a step, without the boot.
    fn step(self) -> f64 {
        (self.whole - self.boot) * 1e9 / (f64::from(ROUNDS) * STEPS as f64)
    }
}

/// Seconds.
fn time(run: Run, rounds: u16) -> f64 {
    let start = Instant::now();
    assert!(run(black_box(rounds)), "every call is accepted");
    start.elapsed().as_secs_f64()
}

/// The runs in turn, so that each has its share of the times at which the machine is quiet, but many times each: boots that
/// took turns one by one would find memory that the allocator gave back, and measure the pages that the system hands out anew.
fn measured() -> [Least; RUNS.len()] {
    let mut all = [Least { boot: f64::MAX, whole: f64::MAX }; RUNS.len()];
    for _ in 0..TURNS {
        for ((_, run), least) in RUNS.iter().zip(&mut all) {
            for _ in 0..REPEATS {
                least.boot = least.boot.min(time(*run, 0));
                least.whole = least.whole.min(time(*run, ROUNDS));
            }
        }
    }
    all
}

fn print(what: &str, unit: &str, proved: f64, plain: f64, inlined: f64) {
    println!(
        "{what}: proved {proved:.1} {unit}, plain Rust {plain:.1}, ratio {:.2}; plain Rust with the same hints {inlined:.1}, ratio {:.2}",
        proved / plain,
        proved / inlined
    );
}

fn print_times() {
    let [proved, plain, inlined, proved_kept, plain_kept, inlined_kept] = measured();
    print("kernel cycle, replies dropped", "ns a step", proved.step(), plain.step(), inlined.step());
    print("kernel cycle, replies kept", "ns a step", proved_kept.step(), plain_kept.step(), inlined_kept.step());
    print("boot", "µs", proved.boot * 1e6, plain.boot * 1e6, inlined.boot * 1e6);
}

/// With no argument, prints the times. `NAME ROUNDS` makes one run and prints nothing, so that its instructions can be counted.
fn main() {
    let words: Vec<String> = std::env::args().skip(1).collect();
    match words.as_slice() {
        [] => print_times(),
        [name, rounds] => {
            let (_, run) = RUNS.iter().find(|(run, _)| run == name).expect("a run's name");
            assert!(run(rounds.parse().expect("rounds")), "every call is accepted");
        }
        _ => panic!("no argument, or NAME ROUNDS"),
    }
}
