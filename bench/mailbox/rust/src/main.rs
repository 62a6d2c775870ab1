//! The same work as `mailbox_bench.rt`, over Rust's `crossbeam_channel`.
use crossbeam_channel::{bounded, Receiver, Sender, TryRecvError};
use std::thread;
use std::time::Instant;

const PAIRS: u32 = 1_000_000;

// The most places that a mailbox is given by number.
const MOST: usize = 1024;

// How long a thread that is refused waits, in hints to the processor, where it doesn't try again at once.
const PAUSES: u32 = 2048;

// Sends and receives in turn, and adds up what was received.
fn alone(sender: Sender<u32>, receiver: Receiver<u32>) -> u64 {
    let mut total: u64 = 0;
    for number in 0..PAIRS {
        if sender.try_send(number).is_err() {
            break;
        }
        if let Ok(number) = receiver.try_recv() {
            total = total.wrapping_add(u64::from(number));
        }
    }
    total
}

// After a refusal.
fn pause(pauses: u32) {
    for _ in 0..pauses {
        std::hint::spin_loop();
    }
    thread::yield_now();
}

fn send_all(sender: Sender<u32>, pauses: u32) {
    let mut next = 0;
    while next < PAIRS {
        match sender.try_send(next) {
            Ok(()) => next += 1,
            Err(_) => pause(pauses),
        }
    }
}

fn receive_all(receiver: Receiver<u32>, pauses: u32) -> u64 {
    let mut total: u64 = 0;
    loop {
        match receiver.try_recv() {
            Ok(number) => total = total.wrapping_add(u64::from(number)),
            Err(TryRecvError::Empty) => pause(pauses),
            Err(TryRecvError::Disconnected) => break,
        }
    }
    total
}

fn across(sender: Sender<u32>, receiver: Receiver<u32>, pauses: u32) -> u64 {
    let child = thread::spawn(move || send_all(sender, pauses));
    let total = receive_all(receiver, pauses);
    child.join().expect("the sender ended");
    total
}

// How the pairs go from one thread to another: the case, its places, and how long a thread that is refused waits.
const CASES: [(&str, usize, u32); 4] = [
    ("one-place", 1, 0),
    ("most-places", MOST, 0),
    ("most-places-pausing", MOST, PAUSES),
    ("room-for-all", PAIRS as usize, 0),
];

fn main() {
    let (sender, receiver) = bounded(MOST);
    let start = Instant::now();
    let total = alone(sender, receiver);
    println!("alone {} {total}", start.elapsed().as_nanos());
    for (name, places, pauses) in CASES {
        let (sender, receiver) = bounded(places);
        let start = Instant::now();
        let total = across(sender, receiver, pauses);
        println!("{name} {} {total}", start.elapsed().as_nanos());
    }
}
