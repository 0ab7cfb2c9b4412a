//! Records what the clients of a store call and get.
use crate::{
    clock::now,
    kept::{self, Keeper},
    Bounds, Level, Trouble,
};
use std::{
    collections::HashMap,
    io,
    path::PathBuf,
    sync::{Arc, Mutex, MutexGuard, PoisonError},
};

const NAME_BYTES: usize = 255;

/// A history in the making. Threads share one recorder, by clones of it or of references, and each takes a
/// client of its own.
///
/// ```
/// # use std::{collections::HashMap, sync::Mutex};
/// use regcheck::Recorder;
///
/// # let store = Mutex::new(HashMap::new());
/// let recorder = Recorder::new();
/// let mut client = recorder.client("worker-1").on("replica-1");
/// let write = client.write("x");
/// store.lock().unwrap().insert("x", write.value());
/// write.replied();
/// let read = client.read("x");
/// let value = store.lock().unwrap().get("x").copied();
/// read.replied(value);
/// recorder.assert_linearizable("the store");
/// ```
///
/// The values of a register's writes are 1, 2, 3, and so on, so that a read's value tells which write it
/// saw. [`Client::write_value`] and [`Client::cas`] take values of the caller's own, which may repeat. A
/// call that is dropped without a word stays pending: nobody knows what the store did. So `?` does what is
/// right after a time-out.
#[derive(Clone, Default)]
pub struct Recorder {
    journal: Arc<Mutex<Journal>>,
    keeper: Keeper,
    bounds: Bounds,
}

type Clock = Box<dyn FnMut() -> i64 + Send>;

/// What all clients share.
#[derive(Default)]
struct Journal {
    history: Vec<u8>,
    output: Option<Box<dyn io::Write + Send>>,
    clock: Option<Clock>,
    processes: u32,
    values_after: i64,
    values: HashMap<String, i64>, // the latest of each register
    reads: u64,                   // completed ones, and changes whose answers told what was there
    mistakes: Vec<String>,
}

impl Journal {
    /// Keeps a mistake, so that it fails the test even in a thread that nobody joins.
    fn mistake(&mut self, words: String) -> String {
        self.mistakes.push(words.clone());
        words
    }

    /// A value that the register never had from here.
    fn next(&mut self, register: &str) -> i64 {
        let after = self.values_after;
        let latest = self.values.entry(register.to_owned()).or_insert(after);
        *latest += 1;
        *latest
    }

    /// Adds a line with its time. All lines pass here, one at a time, so that the times ascend.
    fn append(&mut self, process: u32, members: &str, who: &str) {
        let time = self.clock.as_mut().map_or_else(now, |clock| clock());
        let line = format!("{{\"process\":{process},{members}{who},\"time\":{time}}}\n");
        self.history.extend_from_slice(line.as_bytes());
        let written = self.output.as_mut().map(|output| {
            output
                .write_all(line.as_bytes())
                .and_then(|()| output.flush())
        });
        if let Some(Err(error)) = written {
            self.mistake(format!("the history could not be written: {error}"));
        }
    }
}

fn locked(journal: &Mutex<Journal>) -> MutexGuard<'_, Journal> {
    journal.lock().unwrap_or_else(PoisonError::into_inner)
}

/// The name in JSON, or why it is none. Clients and nodes keep to the rule of registers.
fn quoted(name: &str, what: &str) -> Result<String, String> {
    if name.is_empty() || name.len() > NAME_BYTES {
        return Err(format!(
            "{name:?} is no {what}: name it by a text of 1 to {NAME_BYTES} bytes"
        ));
    }
    let mut text = String::from("\"");
    for letter in name.chars() {
        if letter < ' ' || letter == '"' || letter == '\\' {
            text += &format!("\\u{:04x}", u32::from(letter));
        } else {
            text.push(letter);
        }
    }
    Ok(text + "\"")
}

impl Recorder {
    /// Keeps the history in memory, with the times of the machine's monotonic clock.
    pub fn new() -> Recorder {
        Recorder::default()
    }

    /// Gives each line to this output too, at once.
    pub fn output(self, output: impl io::Write + Send + 'static) -> Recorder {
        locked(&self.journal).output = Some(Box::new(output));
        self
    }

    /// Takes the times from this clock, in nanoseconds.
    pub fn clock(self, clock: impl FnMut() -> i64 + Send + 'static) -> Recorder {
        locked(&self.journal).clock = Some(Box::new(clock));
        self
    }

    /// Says what the values of a register's writes come after, in place of 0. Where several processes record
    /// one run, give each a number of its own, far from the others.
    pub fn values_after(self, number: i64) -> Recorder {
        locked(&self.journal).values_after = number;
        self
    }

    /// Says where `check` leaves what it found, in place of `regcheck-failures`.
    pub fn keep_in(mut self, folder: impl Into<PathBuf>) -> Recorder {
        self.keeper.folder = folder.into();
        self
    }

    /// Says where the search gives up that cas and repeated values need, in place of the defaults.
    pub fn bounds(mut self, bounds: Bounds) -> Recorder {
        self.bounds = bounds;
        self
    }

    /// A client for one thread. `regkit explain` says its name, unless it is empty.
    pub fn client(&self, name: &str) -> Client {
        let mut client = Client {
            journal: Arc::clone(&self.journal),
            name: String::new(),
            who: String::new(),
            process: None,
        };
        client.name = client.member("client", name);
        client.on("")
    }

    /// The lines so far, which are a history at any moment: what is open is pending.
    pub fn history(&self) -> Vec<u8> {
        locked(&self.journal).history.clone()
    }

    /// Says why the history fails the test, unless it is linearizable, a read was completed, and the recorder
    /// was used rightly. A cas that was answered counts as a read. It leaves the history, its report and a
    /// page that shows the fault in `regcheck-failures`, named after the test; a pass deletes what an earlier
    /// run left there. If the search for an order gave up, nobody knows: that fails the test too. The words
    /// and the page are made by `regkit`: where it isn't there, the report stands in their place.
    ///
    /// # Errors
    /// What is wrong, in words.
    pub fn check(&self, test: &str) -> Result<(), Trouble> {
        let (history, reads) = self.recorded()?;
        kept::check(&self.keeper, test, &history, reads, self.bounds)
    }

    /// Says why the history fails the test, unless each register keeps the level, a read was completed, and
    /// the recorder was used rightly. It leaves the history, the report of reglevel and a page as `check`
    /// does, with the words of `regkit levels`. The page shows why the history isn't linearizable.
    /// [`check_level`] says which histories have an answer.
    ///
    /// [`check_level`]: crate::check_level
    ///
    /// # Errors
    /// What is wrong, in words.
    pub fn check_level(&self, test: &str, level: Level) -> Result<(), Trouble> {
        let (history, reads) = self.recorded()?;
        kept::check_level(&self.keeper, test, &history, reads, level)
    }

    /// The history, and how many reads were completed, unless the recorder was used wrongly.
    fn recorded(&self) -> Result<(Vec<u8>, u64), Trouble> {
        let journal = locked(&self.journal);
        match journal.mistakes.first() {
            Some(words) => Err(Trouble::Mistake(words.clone())),
            None => Ok((journal.history.clone(), journal.reads)),
        }
    }

    /// `check`, for a test that is to panic.
    ///
    /// # Panics
    /// If something is wrong, with what it is.
    #[track_caller]
    pub fn assert_linearizable(&self, test: &str) {
        if let Err(trouble) = self.check(test) {
            panic!("{trouble}");
        }
    }

    /// `check_level`, for a test that is to panic.
    ///
    /// # Panics
    /// If something is wrong, with what it is.
    #[track_caller]
    pub fn assert_level(&self, test: &str, level: Level) {
        if let Err(trouble) = self.check_level(test, level) {
            panic!("{trouble}");
        }
    }
}

/// Makes one call after another.
pub struct Client {
    journal: Arc<Mutex<Journal>>,
    name: String,         // the member of its lines that names it
    who: String,          // that, and the member that names the node
    process: Option<u32>, // none if its last one has a call that isn't ended
}

impl Client {
    /// Says which node of the store the client calls from now on.
    #[must_use]
    pub fn on(mut self, node: &str) -> Client {
        self.who = self.name.clone() + &self.member("node", node);
        self
    }

    fn member(&self, what: &str, name: &str) -> String {
        if name.is_empty() {
            return String::new();
        }
        format!(",\"{what}\":{}", self.expect(quoted(name, what)))
    }

    /// Panics, and keeps why, unless there is a value.
    #[track_caller]
    fn expect<V>(&self, made: Result<V, String>) -> V {
        made.unwrap_or_else(|words| panic!("{}", locked(&self.journal).mistake(words)))
    }

    /// The call of a write. Give its value to the store: no other write by this function has it.
    ///
    /// # Panics
    /// If the name is no text of 1 to 255 bytes.
    pub fn write(&mut self, register: &str) -> Write<'_> {
        let value = locked(&self.journal).next(register);
        self.write_value(register, value)
    }

    /// The call of a write of a value of the caller's own, which may repeat.
    ///
    /// # Panics
    /// If the name is no text of 1 to 255 bytes.
    pub fn write_value(&mut self, register: &str, value: i64) -> Write<'_> {
        let call = Call::begin(self, "write", register, &format!(",\"value\":{value}"));
        Write { call, value }
    }

    /// The call of a read.
    ///
    /// # Panics
    /// If the name is no text of 1 to 255 bytes.
    pub fn read(&mut self, register: &str) -> Read<'_> {
        let call = Call::begin(self, "read", register, "");
        Read { call }
    }

    /// The call of a compare-and-swap, which writes `to` if the register holds `from`, `None` for no value.
    ///
    /// # Panics
    /// If the name is no text of 1 to 255 bytes.
    pub fn cas(&mut self, register: &str, from: Option<i64>, to: i64) -> Cas<'_> {
        self.change(register, "from", from, Some(to))
    }

    /// The call of a cas by whatever name; `asks` is the member that has the value asked for.
    fn change(
        &mut self,
        register: &str,
        asks: &str,
        asked: Option<i64>,
        to: Option<i64>,
    ) -> Cas<'_> {
        let said = format!(",\"{asks}\":{},\"to\":{}", member(asked), member(to));
        let call = Call::begin(self, "cas", register, &said);
        Cas { call }
    }

    /// The call of a put-if-absent, which writes the value if there is none.
    ///
    /// # Panics
    /// If the name is no text of 1 to 255 bytes.
    pub fn create(&mut self, register: &str, value: i64) -> Cas<'_> {
        self.change(register, "from", None, Some(value))
    }

    /// The call of a put that takes place only where there is a value.
    ///
    /// # Panics
    /// If the name is no text of 1 to 255 bytes.
    pub fn replace(&mut self, register: &str, value: i64) -> Cas<'_> {
        self.change(register, "unless", None, Some(value))
    }

    /// The call of a lock or a try-lock by an owner, who doesn't get it while anybody has it.
    ///
    /// # Panics
    /// If the name is no text of 1 to 255 bytes.
    pub fn lock(&mut self, register: &str, owner: i64) -> Cas<'_> {
        self.change(register, "from", None, Some(owner))
    }

    /// The call by which an owner gives a lock back, or of a delete of one value alone.
    ///
    /// # Panics
    /// If the name is no text of 1 to 255 bytes.
    pub fn unlock(&mut self, register: &str, owner: i64) -> Cas<'_> {
        self.change(register, "from", Some(owner), None)
    }

    /// The call of a delete.
    ///
    /// # Panics
    /// If the name is no text of 1 to 255 bytes.
    pub fn delete(&mut self, register: &str) -> Delete<'_> {
        let call = Call::begin(self, "delete", register, "");
        Delete { call }
    }

    /// The call of a swap, also called get-and-set, which writes the value and is answered the old one.
    ///
    /// # Panics
    /// If the name is no text of 1 to 255 bytes.
    pub fn swap(&mut self, register: &str, value: i64) -> Swap<'_> {
        let call = Call::begin(self, "swap", register, &format!(",\"value\":{value}"));
        Swap { call }
    }

    /// Says that a value may expire from now on, if it is still there. Call it at the earliest moment: when
    /// its time is over, less the error of the clocks; for a cache that evicts, before the store is given the
    /// value.
    ///
    /// # Panics
    /// If the name is no text of 1 to 255 bytes.
    pub fn expires(&mut self, register: &str, value: i64) {
        let kept = self.process.take(); // the call is nobody's, and stays open
        drop(self.change(register, "from", Some(value), None));
        self.process = kept;
    }
}

/// A value in JSON.
fn member(value: Option<i64>) -> String {
    value.map_or_else(|| "null".to_owned(), |value| value.to_string())
}

/// A call of a client. Its process is the client's again only if the call is ended.
struct Call<'c> {
    client: &'c mut Client,
    process: u32,
    register: String,
}

impl<'c> Call<'c> {
    /// Writes the line of a call. `said` is what it says behind its register.
    fn begin(client: &'c mut Client, op: &str, register: &str, said: &str) -> Call<'c> {
        let register = client.expect(quoted(register, "register"));
        let journal = Arc::clone(&client.journal);
        let mut journal = locked(&journal);
        let process = client.process.take().unwrap_or_else(|| {
            journal.processes += 1;
            journal.processes
        });
        let members = format!("\"event\":\"call\",\"op\":\"{op}\",\"register\":{register}{said}");
        journal.append(process, &members, &client.who);
        Call {
            client,
            process,
            register,
        }
    }

    fn end(self, event: &str, answer: &str) {
        let mut journal = locked(&self.client.journal);
        let members = format!(
            "\"event\":\"{event}\",\"register\":{}{answer}",
            self.register
        );
        journal.append(self.process, &members, &self.client.who);
        journal.reads += u64::from(!answer.is_empty());
        self.client.process = Some(self.process);
    }
}

/// The call of a write, pending until the store answered.
#[must_use = "a call that is dropped stays pending"]
pub struct Write<'c> {
    call: Call<'c>,
    value: i64,
}

impl Write<'_> {
    /// What to write.
    pub fn value(&self) -> i64 {
        self.value
    }

    /// The store said that it is done.
    pub fn replied(self) {
        self.call.end("reply", "");
    }

    /// The call certainly had no effect, and never will have: the connection was refused, say. Don't say it
    /// of a call that timed out: if the store did the write after all, that invents a fault.
    pub fn failed(self) {
        self.call.end("fail", "");
    }
}

/// The call of a read, pending until the store answered.
#[must_use = "a call that is dropped stays pending"]
pub struct Read<'c> {
    call: Call<'c>,
}

impl Read<'_> {
    /// The store gave this value, or said that it has none.
    pub fn replied(self, value: Option<i64>) {
        self.call
            .end("reply", &format!(",\"value\":{}", member(value)));
    }

    /// The call certainly had no effect.
    pub fn failed(self) {
        self.call.end("fail", "");
    }
}

/// The call of a compare-and-swap, pending until the store answered.
#[must_use = "a call that is dropped stays pending"]
pub struct Cas<'c> {
    call: Call<'c>,
}

impl Cas<'_> {
    /// The store compared, and said whether that took place. Say false only if it found another value. If it
    /// refused without comparing, the call has failed.
    pub fn replied(self, took_place: bool) {
        self.call.end("reply", &format!(",\"ok\":{took_place}"));
    }

    /// The call certainly had no effect, and never will have.
    pub fn failed(self) {
        self.call.end("fail", "");
    }
}

/// The call of a delete, pending until the store answered.
#[must_use = "a call that is dropped stays pending"]
pub struct Delete<'c> {
    call: Call<'c>,
}

impl Delete<'_> {
    /// The store said that it is done, and nothing of what was there.
    pub fn replied(self) {
        self.call.end("reply", "");
    }

    /// The store said whether there was a value.
    pub fn found(self, found: bool) {
        self.call.end("reply", &format!(",\"found\":{found}"));
    }

    /// The store gave the value that was there, or said that there was none.
    pub fn old(self, value: Option<i64>) {
        self.call
            .end("reply", &format!(",\"old\":{}", member(value)));
    }

    /// The call certainly had no effect, and never will have.
    pub fn failed(self) {
        self.call.end("fail", "");
    }
}

/// The call of a swap, pending until the store answered.
#[must_use = "a call that is dropped stays pending"]
pub struct Swap<'c> {
    call: Call<'c>,
}

impl Swap<'_> {
    /// The store gave the value that was there, or said that there was none.
    pub fn replied(self, old: Option<i64>) {
        self.call.end("reply", &format!(",\"old\":{}", member(old)));
    }

    /// The call certainly had no effect, and never will have.
    pub fn failed(self) {
        self.call.end("fail", "");
    }
}
