//! Records three clients of a cache in front of a database, and says whether what they saw is linearizable:
//!
//!     cargo run --example cache -- faulty
//!     cargo run --example cache -- right
//!
//! The faulty one keeps a value that it read before a write. tests/languages compares what all
//! languages say of it.
mod toy;

use regcheck::{Client, Recorder};
use std::{collections::HashMap, sync::Mutex, thread};

#[derive(Default)]
struct Keys {
    database: HashMap<&'static str, i64>,
    kept: HashMap<&'static str, i64>,
    writes: HashMap<&'static str, u32>,
}

struct Cache {
    keys: Mutex<Keys>,
    counts: bool, // whether it keeps nothing that it read before a write
}

impl Cache {
    fn set(&self, key: &'static str, value: i64) {
        let mut keys = self.keys.lock().unwrap();
        keys.database.insert(key, value);
        *keys.writes.entry(key).or_default() += 1;
        keys.kept.remove(key);
    }

    /// `loaded` is called between reading the database and keeping the value.
    fn get(&self, key: &'static str, loaded: impl FnOnce()) -> Option<i64> {
        let keys = self.keys.lock().unwrap();
        if let Some(value) = keys.kept.get(key) {
            return Some(*value);
        }
        let value = keys.database.get(key).copied();
        let writes = keys.writes.get(key).copied();
        drop(keys);
        loaded();
        let mut keys = self.keys.lock().unwrap();
        if !self.counts || keys.writes.get(key).copied() == writes {
            value.map(|value| keys.kept.insert(key, value));
        }
        value
    }
}

fn write(client: &mut Client, store: &Cache) {
    let write = client.write("x");
    store.set("x", write.value());
    write.replied();
}

/// The writer writes again, in a thread of its own, while the reader's answer from the
/// database is on its way.
fn record(recorder: &Recorder, counts: bool) {
    let store = Cache {
        keys: Mutex::default(),
        counts,
    };
    let client = |name| recorder.client(name).on("cache");
    let (mut writer, mut reader, mut late) =
        (client("thread-1"), client("thread-2"), client("thread-3"));
    write(&mut writer, &store);
    let read = reader.read("x");
    let value = store.get("x", || {
        thread::scope(|scope| {
            scope.spawn(|| write(&mut writer, &store));
        });
    });
    read.replied(value);
    let read = late.read("x");
    read.replied(store.get("x", || ()));
}

fn main() {
    toy::run("cache", record);
}
