//! The same draws as `main.rt` by plain atomic adds.
use std::sync::atomic::{AtomicU64, Ordering};
use std::thread;

const PARTS: u64 = 1_000_000;
const BOARDS: u32 = 20;

fn draw(word: &AtomicU64) {
    while word.fetch_add(1, Ordering::SeqCst) < PARTS {}
}

fn main() {
    let seats = if std::env::args().nth(1).as_deref() == Some("4") { 4 } else { 1 };
    for _ in 0..BOARDS {
        let word = AtomicU64::new(0);
        thread::scope(|scope| {
            for _ in 1..seats {
                scope.spawn(|| draw(&word));
            }
            draw(&word);
        });
    }
}
