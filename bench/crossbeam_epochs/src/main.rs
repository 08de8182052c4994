//! crossbeam-epoch under the loops of `bench_objects`, on one cell that all threads share.
//!
//!     crossbeam_epochs read|replace THREADS TIMES
//!
//! Prints the nanoseconds of a turn of the loop in one thread, from before the threads start until all have ended.
use crossbeam_epoch::{pin, Atomic, Owned};
use std::sync::atomic::Ordering::SeqCst;
use std::time::Instant;
use std::{env, hint, process, thread};

type Row = [u64; 2];

/// Pin, load, read, unpin.
fn read(cell: &Atomic<Row>, times: u64) {
    for _ in 0..times {
        let guard = pin();
        // SAFETY: the cell is never empty, and what it names is destroyed only after this pin.
        let row = unsafe { cell.load(SeqCst, &guard).deref() };
        hint::black_box(row[0]);
    }
}

/// Makes a row, pins, puts it into the cell, and lets the old one be destroyed.
fn replace(cell: &Atomic<Row>, times: u64) {
    for number in 0..times {
        let row = Owned::new([number, number]);
        let guard = pin();
        let old = cell.swap(row, SeqCst, &guard);
        // SAFETY: the old row is in no cell, and this thread alone has taken it out.
        unsafe { guard.defer_destroy(old) };
    }
}

fn main() {
    let words: Vec<String> = env::args().skip(1).collect();
    let parsed = match words.as_slice() {
        [way, threads, times] => threads.parse::<u64>().ok().zip(times.parse::<u64>().ok()).map(|counts| (way.as_str(), counts)),
        _ => None,
    };
    let (work, (threads, times)): (fn(&Atomic<Row>, u64), _) = match parsed {
        Some(("read", counts)) => (read, counts),
        Some(("replace", counts)) => (replace, counts),
        _ => {
            eprintln!("crossbeam_epochs read|replace THREADS TIMES");
            process::exit(2);
        }
    };
    let cell = Atomic::new([7, 7]);
    let begin = Instant::now();
    thread::scope(|scope| {
        for _ in 1..threads {
            scope.spawn(|| work(&cell, times));
        }
        work(&cell, times);
    });
    println!("{:.1}", begin.elapsed().as_secs_f64() * 1e9 / times as f64);
}
