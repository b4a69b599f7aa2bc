//! `permits KIND CAPACITY THREADS CALLS`: what the command `window` does, over a plain atomic counter (KIND `atomic`) or a
//! counter behind a mutex (`mutex`), and the same line.

use std::process::ExitCode;
use std::sync::atomic::{AtomicU64, Ordering};
use std::sync::Mutex;
use std::thread;

/// Permits that threads share.
trait Permits: Sync {
    /// Takes a permit, unless none is free.
    fn take(&self) -> bool;
    fn give(&self);
    fn free(&self) -> u64;
}

impl Permits for AtomicU64 {
    fn take(&self) -> bool {
        self.fetch_update(Ordering::SeqCst, Ordering::SeqCst, |free| free.checked_sub(1)).is_ok()
    }

    fn give(&self) {
        self.fetch_add(1, Ordering::SeqCst);
    }

    fn free(&self) -> u64 {
        self.load(Ordering::SeqCst)
    }
}

impl Permits for Mutex<u64> {
    fn take(&self) -> bool {
        let mut free = self.lock().unwrap();
        let is_free = *free > 0;
        if is_free {
            *free -= 1;
        }
        is_free
    }

    fn give(&self) {
        *self.lock().unwrap() += 1;
    }

    fn free(&self) -> u64 {
        *self.lock().unwrap()
    }
}

/// How many takes of one thread got a permit.
fn work(permits: &dyn Permits, calls: u64) -> u64 {
    let mut got = 0;
    for _ in 0..calls {
        if permits.take() {
            got += 1;
            permits.give();
        }
    }
    got
}

fn run(permits: &dyn Permits, capacity: u64, threads: u64, calls: u64) {
    let got: u64 = thread::scope(|scope| {
        let workers: Vec<_> = (0..threads).map(|_| scope.spawn(|| work(permits, calls))).collect();
        workers.into_iter().map(|worker| worker.join().unwrap()).sum()
    });
    let full = threads * calls - got;
    println!("[\"window\",{capacity},{threads},{calls},{got},{full},{}]", permits.free() == capacity);
}

fn main() -> ExitCode {
    let words: Vec<String> = std::env::args().skip(1).collect();
    let numbers: Vec<u64> = words.iter().skip(1).filter_map(|word| word.parse().ok()).collect();
    match (words.first().map(String::as_str), numbers.as_slice()) {
        (Some("atomic"), &[capacity, threads, calls]) => run(&AtomicU64::new(capacity), capacity, threads, calls),
        (Some("mutex"), &[capacity, threads, calls]) => run(&Mutex::new(capacity), capacity, threads, calls),
        _ => return ExitCode::from(2),
    }
    ExitCode::SUCCESS
}
