//! What the recorder writes, and what it says of a test.
use regcheck::{report, Bounds, Client, Recorder, Trouble};
use std::{
    collections::HashMap,
    env, fs, io,
    panic::{catch_unwind, AssertUnwindSafe},
    path::PathBuf,
    process,
    sync::{Arc, Mutex},
    thread,
};

const LINES: &str = r#"{"process":1,"event":"call","op":"write","register":"x","value":1,"client":"one","node":"a","time":1000000}
{"process":1,"event":"reply","register":"x","client":"one","node":"a","time":2000000}
{"process":1,"event":"call","op":"write","register":"x","value":2,"client":"one","node":"a","time":3000000}
{"process":2,"event":"call","op":"write","register":"\u0022ü\u000a","value":1,"client":"one","node":"a","time":4000000}
{"process":2,"event":"fail","register":"\u0022ü\u000a","client":"one","node":"a","time":5000000}
{"process":3,"event":"call","op":"read","register":"x","time":6000000}
{"process":3,"event":"reply","register":"x","value":null,"time":7000000}
{"process":3,"event":"call","op":"read","register":"x","node":"b","time":8000000}
{"process":3,"event":"reply","register":"x","value":-3,"node":"b","time":9000000}
{"process":2,"event":"call","op":"read","register":"x","client":"one","node":"a","time":10000000}
{"process":2,"event":"fail","register":"x","client":"one","node":"a","time":11000000}
{"process":3,"event":"call","op":"write","register":"x","value":-3,"node":"b","time":12000000}
{"process":3,"event":"reply","register":"x","node":"b","time":13000000}
{"process":3,"event":"call","op":"cas","register":"x","from":null,"to":1,"node":"b","time":14000000}
{"process":3,"event":"reply","register":"x","ok":false,"node":"b","time":15000000}
{"process":3,"event":"call","op":"cas","register":"x","from":-3,"to":1,"node":"b","time":16000000}
{"process":3,"event":"reply","register":"x","ok":true,"node":"b","time":17000000}
{"process":3,"event":"call","op":"cas","register":"x","from":1,"to":0,"node":"b","time":18000000}
{"process":3,"event":"fail","register":"x","node":"b","time":19000000}
{"process":3,"event":"call","op":"cas","register":"x","from":1,"to":0,"node":"b","time":20000000}
{"process":2,"event":"call","op":"read","register":"x","client":"one","node":"a","time":21000000}
"#;

/// A folder that is gone with it.
struct Folder(PathBuf);

impl Folder {
    fn new(name: &str) -> Folder {
        Folder(env::temp_dir().join(format!("regcheck-{}-{name}", process::id())))
    }
}

impl Drop for Folder {
    fn drop(&mut self) {
        let _ = fs::remove_dir_all(&self.0);
    }
}

#[derive(Clone, Default)]
struct Shared(Arc<Mutex<Vec<u8>>>);

impl io::Write for Shared {
    fn write(&mut self, bytes: &[u8]) -> io::Result<usize> {
        self.0.lock().unwrap().write(bytes)
    }

    fn flush(&mut self) -> io::Result<()> {
        Ok(())
    }
}

struct Full;

impl io::Write for Full {
    fn write(&mut self, _: &[u8]) -> io::Result<usize> {
        Err(io::Error::new(io::ErrorKind::Other, "the disk is full"))
    }

    fn flush(&mut self) -> io::Result<()> {
        Ok(())
    }
}

#[test]
fn each_line_says_what_happened_who_called_and_when() {
    let (mut time, output) = (0, Shared::default());
    let recorder = Recorder::new().output(output.clone()).clock(move || {
        time += 1_000_000;
        time
    });
    let (mut one, mut two) = (recorder.client("one").on("a"), recorder.client(""));
    let write = one.write("x");
    assert_eq!(write.value(), 1);
    write.replied();
    drop(one.write("x"));
    one.write("\"ü\n").failed();
    two.read("x").replied(None);
    let mut two = two.on("b");
    two.read("x").replied(Some(-3));
    one.read("x").failed();
    let write = two.write_value("x", -3);
    assert_eq!(write.value(), -3);
    write.replied();
    two.cas("x", None, 1).replied(false);
    two.cas("x", Some(-3), 1).replied(true);
    two.cas("x", Some(1), 0).failed();
    drop(two.cas("x", Some(1), 0));
    drop(one.read("x"));
    assert_eq!(String::from_utf8(recorder.history()).unwrap(), LINES);
    assert_eq!(
        String::from_utf8(output.0.lock().unwrap().clone()).unwrap(),
        LINES
    );
}

#[test]
fn processes_that_record_one_run_write_values_of_their_own() {
    let mut client = Recorder::new().values_after(1000).client("one");
    for want in 1001..1004 {
        let write = client.write("x");
        assert_eq!(write.value(), want);
        write.replied();
    }
}

#[test]
fn a_wrong_use_is_a_mistake_also_for_who_does_not_look() {
    type Use = fn(&Recorder);
    let rows: [(Use, &str); 4] = [
        (
            |recorder| drop(recorder.client("one").write("")),
            "is no register",
        ),
        (
            |recorder| drop(recorder.client("one").read(&"x".repeat(256))),
            "1 to 255 bytes",
        ),
        (
            |recorder| drop(recorder.client(&"x".repeat(256))),
            "is no client",
        ),
        (
            |recorder| drop(recorder.client("one").on(&"x".repeat(256))),
            "is no node",
        ),
    ];
    for (wrong, words) in rows {
        let recorder = Recorder::new();
        assert!(catch_unwind(AssertUnwindSafe(|| wrong(&recorder))).is_err());
        match recorder.check("mistakes") {
            Err(Trouble::Mistake(said)) => assert!(said.contains(words), "{said}"),
            other => panic!("{other:?}"),
        }
    }
    let recorder = Recorder::new().output(Full);
    recorder.client("one").write("x").replied();
    let trouble = recorder.check("full").expect_err("a mistake");
    assert!(
        trouble.to_string().contains("the disk is full"),
        "{trouble}"
    );
}

fn use_store(mut client: Client, store: &Mutex<HashMap<String, i64>>, own: &str) {
    for _ in 0..25 {
        let write = client.write(own);
        store.lock().unwrap().insert(own.to_owned(), write.value());
        write.replied();
        let read = client.read("x0");
        let value = store.lock().unwrap().get("x0").copied();
        read.replied(value);
    }
}

#[test]
fn threads_at_once_under_the_clock_of_the_machine() {
    let (recorder, store) = (Recorder::new(), Mutex::default());
    thread::scope(|scope| {
        for number in 0..4 {
            let client = recorder.client(&format!("worker-{number}"));
            let store = &store;
            scope.spawn(move || use_store(client, store, &format!("x{}", number % 2)));
        }
    });
    recorder.assert_linearizable("threads");
    let history = String::from_utf8(recorder.history()).unwrap();
    let time = |line: &str| -> i64 {
        let (_, time) = line.rsplit_once("\"time\":").unwrap();
        time.trim_end_matches('}').parse().unwrap()
    };
    let times: Vec<i64> = history.lines().map(time).collect();
    assert_eq!(times.len(), 400);
    assert!(times[0] > 0 && times.windows(2).all(|pair| pair[0] <= pair[1]));
}

#[test]
fn a_yes_without_a_completed_read_is_none() {
    let folder = Folder::new("little");
    let recorder = Recorder::new().keep_in(&folder.0);
    recorder.client("one").write("x").replied();
    let trouble = recorder.check("little").expect_err("too little");
    assert!(
        trouble.to_string().contains("no read was completed"),
        "{trouble}"
    );
    recorder.client("one").read("x").replied(Some(1));
    assert_eq!(recorder.check("little"), Ok(()));
    let recorder = Recorder::new().keep_in(&folder.0);
    recorder.client("one").cas("x", None, 1).replied(true);
    assert_eq!(recorder.check("a cas that was answered"), Ok(()));
}

#[test]
fn a_search_that_gives_up_fails_the_test() {
    let folder = Folder::new("unknown");
    let mut recorder = Recorder::new().keep_in(&folder.0);
    let (mut one, mut two) = (recorder.client("one"), recorder.client("two"));
    let (first, second) = (one.cas("x", None, 1), two.cas("x", None, 1));
    first.replied(true);
    second.replied(true);
    let no = recorder.check("two").expect_err("two found no value");
    assert!(matches!(no, Trouble::NotLinearizable(_)), "{no}");
    recorder = recorder.bounds(Bounds {
        steps: Some(1),
        ..Bounds::default()
    });
    let unknown = recorder.check("two").expect_err("a bound");
    assert!(matches!(unknown, Trouble::Unknown(_)), "{unknown}");
    let words = unknown.to_string();
    assert!(
        words.contains("two.jsonl: unknown: the search gave up"),
        "{words}"
    );
    let kept = fs::read_to_string(folder.0.join("two.report")).unwrap();
    assert!(kept.contains(r#""gave_up":{"bound":"steps"}"#), "{kept}");
}

#[test]
fn failed_tests_of_one_name_have_files_of_their_own_and_a_pass_deletes_earlier_ones() {
    let folder = Folder::new("files");
    let file = |name: &str| folder.0.join(name);
    let recorded = |value| {
        let recorder = Recorder::new().keep_in(&folder.0);
        recorder.client("one").read("x").replied(value);
        recorder
    };
    fs::create_dir_all(&folder.0).unwrap();
    fs::write(file("same.report"), "").unwrap();
    recorded(None).check("same").expect("a pass");
    assert!(!file("same.report").exists());
    for (value, name) in [(7, "same.jsonl"), (8, "same-2.jsonl")] {
        let recorder = recorded(Some(value));
        for _time in 0..2 {
            recorder.check("same").expect_err("a fault");
        }
        recorded(None).check("same").expect("a pass");
        assert_eq!(fs::read(file(name)).unwrap(), recorder.history(), "{name}");
    }
    assert!(!file("same-3.jsonl").exists());
}

#[test]
fn a_fault_panics_and_its_history_is_kept() {
    let folder = Folder::new("fault");
    let recorder = Recorder::new().keep_in(&folder.0);
    recorder.client("one").read("x").replied(Some(7));
    let panicked = catch_unwind(AssertUnwindSafe(|| {
        recorder.assert_linearizable("a fault/1")
    }));
    let words = panicked
        .expect_err("a panic")
        .downcast::<String>()
        .expect("a text");
    assert!(
        words.contains("a_fault_1.jsonl: not linearizable"),
        "{words}"
    );
    assert_eq!(
        fs::read(folder.0.join("a_fault_1.jsonl")).unwrap(),
        recorder.history()
    );
    let kept = fs::read(folder.0.join("a_fault_1.report")).unwrap();
    assert_eq!(kept, report(&recorder.history()).unwrap().report);
}
