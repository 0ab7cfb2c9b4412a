//! Records one client that creates, replaces, swaps, deletes and locks, and says whether what it saw is
//! linearizable:
//!
//!     cargo run --example changes -- faulty
//!     cargo run --example changes -- right
//!
//! The faulty store gives a value that was deleted. tests/languages compares what all languages say of it.
mod toy;

use regcheck::Recorder;

/// One client makes all calls, while another one says when a value may expire.
fn record(recorder: &Recorder, right: bool) {
    let mut client = recorder.client("thread-1").on("store");
    let mut expiring = recorder.client("thread-2").on("store");
    client.create("x", 5).replied(true);
    client.create("x", 6).replied(false);
    client.replace("x", 7).replied(true);
    client.swap("x", 8).replied(Some(7));
    expiring.expires("x", 8);
    client.delete("x").found(true);
    let read = client.read("x");
    read.replied(if right { None } else { Some(8) });
    client.delete("x").replied();
    client.lock("lock", 1).replied(true);
    client.unlock("lock", 1).replied(true);
}

fn main() {
    toy::run("changes", record);
}
