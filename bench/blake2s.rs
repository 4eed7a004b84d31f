//! Times the proved BLAKE2s, linked as a static library, against plain Rust on the same inputs.
//! Each figure is the best of many short runs, in turn, so that a busy machine disturbs both alike.

mod plain_blake2s;

use std::hint::black_box;
use std::time::Instant;

unsafe extern "C" {
    fn konwydrel_blake2s(message: *const u8, length: usize, digest: *mut u8);
}

fn proved(message: &[u8]) -> [u8; 32] {
    let mut digest = [0; 32];
    unsafe { konwydrel_blake2s(message.as_ptr(), message.len(), digest.as_mut_ptr()) };
    digest
}

fn seconds(hash: fn(&[u8]) -> [u8; 32], message: &[u8], times: u32) -> f64 {
    let start = Instant::now();
    for _ in 0..times {
        black_box(hash(black_box(message)));
    }
    start.elapsed().as_secs_f64() / f64::from(times)
}

fn report(name: &str, length: usize, times: u32, runs: u32) {
    let message: Vec<u8> = (0..length).map(|i| (i * 31 + 7) as u8).collect();
    assert_eq!(proved(&message), plain_blake2s::blake2s(&message), "the two hashes differ");
    let (mut ours, mut plain) = (f64::MAX, f64::MAX);
    for _ in 0..runs {
        ours = ours.min(seconds(proved, &message, times));
        plain = plain.min(seconds(plain_blake2s::blake2s, &message, times));
    }
    let rate = |s: f64| length as f64 / s / 1e6;
    println!("{name} proved {:.1} ns {:.0} MB/s", ours * 1e9, rate(ours));
    println!("{name} plain-rust {:.1} ns {:.0} MB/s", plain * 1e9, rate(plain));
    println!("{name} proved/plain-rust {:.2}", ours / plain);
}

fn main() {
    report("64-bytes", 64, 1_000, 4_000);
    report("1-MiB", 1 << 20, 1, 400);
}
