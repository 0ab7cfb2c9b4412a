//! Records two clients that take a lock by compare-and-swap at once, and says whether what they
//! saw is linearizable:
//!
//!     cargo run --example lock -- faulty
//!     cargo run --example lock -- right
//!
//! The faulty register compares and swaps in two steps, so both clients get the lock. tests/languages
//! compares what all languages say of it.
mod toy;

use regcheck::{Client, Recorder};
use std::{
    sync::atomic::{AtomicI64, Ordering::SeqCst},
    thread,
};

#[derive(Default)]
struct Register {
    value: AtomicI64,
    looks_again: bool, // whether it swaps only what it still finds
}

impl Register {
    /// `compared` is called between its two steps.
    fn swap(&self, from: i64, to: i64, compared: impl FnOnce()) -> bool {
        if self.value.load(SeqCst) != from {
            return false;
        }
        compared();
        if self.looks_again {
            return self
                .value
                .compare_exchange(from, to, SeqCst, SeqCst)
                .is_ok();
        }
        self.value.store(to, SeqCst);
        true
    }
}

fn free(client: &mut Client, store: &Register) {
    let write = client.write_value("lock", 0);
    store.value.store(write.value(), SeqCst);
    write.replied();
}

fn take(client: &mut Client, store: &Register, compared: impl FnOnce()) {
    let cas = client.cas("lock", Some(0), 1);
    let took_place = store.swap(0, 1, compared);
    cas.replied(took_place);
}

/// A second client takes the lock, in a thread of its own, while the first one is between its two steps.
fn record(recorder: &Recorder, right: bool) {
    let store = Register {
        looks_again: right,
        ..Register::default()
    };
    let client = |name| recorder.client(name).on("register");
    let (mut first, mut second, mut third) =
        (client("thread-1"), client("thread-2"), client("thread-3"));
    free(&mut first, &store);
    take(&mut second, &store, || {
        thread::scope(|scope| {
            scope.spawn(|| take(&mut first, &store, || ()));
        });
    });
    free(&mut first, &store);
    let read = third.read("lock");
    read.replied(Some(store.value.load(SeqCst)));
}

fn main() {
    toy::run("lock", record);
}
