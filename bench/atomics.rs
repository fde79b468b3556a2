//! What `km_live_bench words` does, in plain Rust: threads load and store the atomic words of std.
//!
//! usage: atomics words 1|4 own|one
use std::sync::atomic::{AtomicU64, Ordering::SeqCst};

const TURNS: u64 = 10_000_000;

fn main() {
    let words: Vec<String> = std::env::args().skip(1).collect();
    let words: Vec<&str> = words.iter().map(String::as_str).collect();
    let (threads, apart) = match words[..] {
        ["words", "1", "own"] => (1, 8),
        ["words", "4", "own"] => (4, 8),
        ["words", "4", "one"] => (4, 0),
        _ => std::process::exit(5),
    };
    let memory: Vec<AtomicU64> = (0..512).map(AtomicU64::new).collect();
    std::thread::scope(|scope| {
        for thread in 0..threads {
            let word = &memory[thread * apart];
            scope.spawn(move || {
                for _ in 0..TURNS {
                    let found = word.load(SeqCst);
                    word.store(found.wrapping_add(1), SeqCst);
                }
            });
        }
    });
    println!("{} steps", 2 * TURNS * threads as u64);
}
