//! What a failed test leaves behind, and what it says.
use crate::{
    answer, level, programs,
    programs::{complaint, regkit, run, run_with_levels},
    Answer, Bounds, Level, LevelAnswer, Trouble, Verdict,
};
use std::{
    env, fs, io,
    os::unix::fs::DirBuilderExt,
    path::{Path, PathBuf},
    process,
    sync::{
        atomic::{AtomicU64, Ordering::Relaxed},
        Mutex, PoisonError,
    },
};

const LONGEST: usize = 200; // bytes of a file's name

/// How the files begin that failed tests of this process left, each with the number of its owner.
static TAKEN: Mutex<Vec<(PathBuf, u64)>> = Mutex::new(Vec::new());

/// Who leaves files of failed tests, and where.
#[derive(Clone)]
pub struct Keeper {
    pub folder: PathBuf,
    owner: u64,
}

impl Default for Keeper {
    fn default() -> Keeper {
        static NEXT: AtomicU64 = AtomicU64::new(0);
        Keeper {
            folder: "regcheck-failures".into(),
            owner: NEXT.fetch_add(1, Relaxed),
        }
    }
}

impl Keeper {
    fn begin(&self, test: &str) -> PathBuf {
        let fits = |letter: char| letter.is_ascii_alphanumeric() || "._-".contains(letter);
        let mut name = String::new();
        for letter in test.chars() {
            if fits(letter) {
                name.push(letter);
            } else if !name.ends_with('_') {
                name.push('_');
            }
        }
        self.folder
            .join(&name[name.len().saturating_sub(LONGEST)..])
    }

    /// The files that are named after the test; with a number behind it if another owner has left some.
    fn files(&self, test: &str) -> Files {
        let begin = self.begin(test);
        let mut taken = TAKEN.lock().unwrap_or_else(PoisonError::into_inner);
        let mut free = begin.clone();
        for number in 2.. {
            match taken.iter().find(|(path, _)| *path == free) {
                Some((_, owner)) if *owner != self.owner => {
                    free = ended(&begin, &format!("-{number}"))
                }
                Some(_) => break,
                None => {
                    taken.push((free.clone(), self.owner));
                    break;
                }
            }
        }
        Files::named(&free)
    }

    /// Deletes what an earlier run left of a test that passed now.
    fn clear(&self, test: &str) {
        let begin = self.begin(test);
        let taken = TAKEN.lock().unwrap_or_else(PoisonError::into_inner);
        if taken.iter().all(|(path, _)| *path != begin) {
            let files = Files::named(&begin);
            for file in [files.history, files.report, files.page] {
                let _ = fs::remove_file(file); // mostly there is none
            }
        }
    }
}

fn ended(begin: &Path, end: &str) -> PathBuf {
    let mut path = begin.as_os_str().to_owned();
    path.push(end);
    path.into()
}

/// Files whose names begin alike.
struct Files {
    history: PathBuf,
    report: PathBuf,
    page: PathBuf,
}

impl Files {
    fn named(begin: &Path) -> Files {
        Files {
            history: ended(begin, ".jsonl"),
            report: ended(begin, ".report"),
            page: ended(begin, ".html"),
        }
    }

    fn keep(&self, history: &[u8], report: Option<&[u8]>) -> Result<(), String> {
        let folder = self.history.parent().unwrap_or(Path::new("."));
        fs::create_dir_all(folder)
            .and_then(|()| fs::write(&self.history, history))
            .and_then(|()| report.map_or(Ok(()), |report| fs::write(&self.report, report)))
            .map_err(|error| format!("{} can't be kept: {error}", self.history.display()))
    }

    /// Why the kept history isn't linearizable, or what to do if nobody knows, in the words of regkit. It
    /// draws the page too.
    fn explain(&self, answer: &Answer, bounds: Bounds) -> String {
        let kept = format!(
            "history: {}\nreport: {}",
            self.history.display(),
            self.report.display()
        );
        let told = self.explained(bounds);
        match told.and_then(|words| Ok((words, self.draw(&self.report, b"")?))) {
            Ok((words, page)) => format!("{words}\n\n{kept}\n{page}"),
            Err(why) => {
                let history = self.history.display();
                format!("{history}: {}\n{why}\n{kept}", shown(answer))
            }
        }
    }

    /// Why the kept history doesn't keep the level, in the words of regkit. It draws the page too.
    fn explain_level(&self, answer: &LevelAnswer, history: &[u8]) -> String {
        let kept = format!(
            "history: {}\nreport: {}",
            self.history.display(),
            self.report.display()
        );
        let told = self.levels(answer);
        match told.and_then(|words| Ok((words, self.draw_whole(history)?))) {
            Ok((words, page)) => format!("{words}\n\n{kept}\n{page}"),
            Err(why) => {
                let history = self.history.display();
                format!("{history}: {}\n{why}\n{kept}", lacking(answer))
            }
        }
    }

    /// The words of regkit for the kept history, by the program that answered, if it was one.
    fn levels(&self, answer: &LevelAnswer) -> Result<String, String> {
        let level = answer.level.key();
        let words = ["levels", "--color", "never", "--require", level].map(AsRef::as_ref);
        let words = words.into_iter().chain([self.history.as_os_str()]);
        let said = run_with_levels(&regkit()?, words, answer.program.as_deref())?;
        match said.status.code() {
            programs::NOT_ATOMIC => Ok(String::from_utf8_lossy(&said.stdout).trim_end().to_owned()),
            _ => Err(complaint(&said)),
        }
    }

    /// Draws the kept history by the report of regcheck, since one of reglevel has no fault to draw.
    fn draw_whole(&self, history: &[u8]) -> Result<String, String> {
        match answer::check(history, Bounds::default()) {
            Ok(answer) => self.draw("-".as_ref(), &answer.report),
            Err(error) => Ok(format!("no page: {error}")),
        }
    }

    fn explained(&self, bounds: Bounds) -> Result<String, String> {
        let words = ["explain", "--color", "never"].map(AsRef::as_ref);
        let files = [self.history.as_os_str(), self.report.as_os_str()];
        let options = bounds.options();
        let options = options.iter().map(AsRef::as_ref);
        let said = run(
            &regkit()?,
            words.into_iter().chain(files).chain(options),
            b"",
        )?;
        match said.status.code() {
            programs::NOT_ATOMIC | programs::GAVE_UP => {
                Ok(String::from_utf8_lossy(&said.stdout).trim_end().to_owned())
            }
            _ => Err(complaint(&said)),
        }
    }

    /// Draws the kept history by a report, which is given if it isn't in a file, and says where.
    fn draw(&self, report: &Path, given: &[u8]) -> Result<String, String> {
        let words: [&Path; 5] = [
            "draw".as_ref(),
            &self.history,
            report,
            "-o".as_ref(),
            &self.page,
        ];
        let said = run(&regkit()?, words, given)?;
        Ok(if said.status.success() {
            format!("page: {}", self.page.display())
        } else {
            format!("no page: {}", complaint(&said))
        })
    }
}

/// The verdict, and the lines of the report that it rests on.
fn shown(answer: &Answer) -> String {
    let (verdict, key) = if answer.verdict == Verdict::Unknown {
        (
            "unknown: the search gave up; raise its bounds, or record runs with fewer calls open at once",
            "\"gave_up\":",
        )
    } else {
        ("not linearizable", "\"fault\":")
    };
    let text = String::from_utf8_lossy(&answer.report);
    let lines = text.lines().filter(|line| line.contains(key));
    lines.fold(verdict.to_owned(), |words, line| words + "\n  " + line)
}

/// The lines of the report whose registers lack the level. Of `Causal` it is the last line.
fn lacking(answer: &LevelAnswer) -> String {
    let (level, text) = (answer.level.key(), String::from_utf8_lossy(&answer.report));
    let no = format!("\"{level}\":\"no\"");
    let told = |line: &&str| answer.level == Level::Causal || line.contains("\"register\":");
    let lines = text.lines().filter(|line| told(line) && line.contains(&no));
    lines.fold(format!("doesn't keep {level}"), |words, line| {
        words + "\n  " + line
    })
}

/// Makes a folder that nobody else can read, and that wasn't there before.
fn temporary_folder() -> Result<PathBuf, String> {
    static NEXT: AtomicU64 = AtomicU64::new(0);
    loop {
        let name = format!("regcheck-{}-{}", process::id(), NEXT.fetch_add(1, Relaxed));
        let folder = env::temp_dir().join(name);
        match fs::DirBuilder::new().mode(0o700).create(&folder) {
            Ok(()) => return Ok(folder),
            Err(error) if error.kind() == io::ErrorKind::AlreadyExists => {} // another one's: the next
            Err(error) => return Err(format!("{} can't be made: {error}", folder.display())),
        }
    }
}

/// Why a history isn't linearizable, or what to do if nobody knows, in the words of regkit.
pub fn words(history: &[u8], report: &[u8], bounds: Bounds) -> Result<String, String> {
    told(history, Some(report), |files| files.explained(bounds))
}

/// Why a history doesn't keep a level, in the words of regkit.
pub fn level_words(history: &[u8], answer: &LevelAnswer) -> Result<String, String> {
    told(history, None, |files| files.levels(answer))
}

/// What is said of files that are gone with it, without the history's name.
fn told(
    history: &[u8],
    report: Option<&[u8]>,
    say: impl FnOnce(&Files) -> Result<String, String>,
) -> Result<String, String> {
    let folder = temporary_folder()?;
    let files = Files::named(&folder.join("history"));
    let told = files.keep(history, report).and_then(|()| say(&files));
    let _ = fs::remove_dir_all(&folder);
    let named = format!("{}: ", files.history.display());
    told.map(|words| words.strip_prefix(&named).unwrap_or(&words).to_owned())
}

/// Says why a history fails its test, if it does, and keeps it then.
pub fn check(
    keeper: &Keeper,
    test: &str,
    history: &[u8],
    reads: u64,
    bounds: Bounds,
) -> Result<(), Trouble> {
    let answer = answer::check(history, bounds);
    if matches!(&answer, Ok(answer) if answer.verdict == Verdict::Yes) && reads > 0 {
        keeper.clear(test);
        return Ok(());
    }
    let files = keeper.files(test);
    let report = answer.as_ref().ok().map(|answer| &answer.report[..]);
    files.keep(history, report).map_err(Trouble::NotChecked)?;
    let place = format!("history: {}", files.history.display());
    let answer = answer.map_err(|error| Trouble::NotChecked(format!("{error}\n\n{place}")))?;
    Err(match answer.verdict {
        Verdict::Yes => Trouble::NotLinearizable(format!(
            "too little evidence: the history is linearizable, but no read was completed\n\n{place}"
        )),
        Verdict::No => Trouble::NotLinearizable(files.explain(&answer, bounds)),
        Verdict::Unknown => Trouble::Unknown(
            files.explain(&answer, bounds)
                + "\nbounds: give the recorder bounds with more steps or configurations",
        ),
    })
}

/// Says why a history doesn't keep a level with enough evidence, if it doesn't, and keeps it then.
pub fn check_level(
    keeper: &Keeper,
    test: &str,
    history: &[u8],
    reads: u64,
    wanted: Level,
) -> Result<(), Trouble> {
    let answer = level::check_level(history, wanted);
    if matches!(&answer, Ok(answer) if answer.kept) && reads > 0 {
        keeper.clear(test);
        return Ok(());
    }
    let files = keeper.files(test);
    let report = answer.as_ref().ok().map(|answer| &answer.report[..]);
    files.keep(history, report).map_err(Trouble::NotChecked)?;
    let place = format!("history: {}", files.history.display());
    let answer = answer.map_err(|error| Trouble::NotChecked(format!("{error}\n\n{place}")))?;
    Err(Trouble::NotKept(if answer.kept {
        let level = wanted.key();
        format!(
            "too little evidence: the history keeps {level}, but no read was completed\n\n{place}"
        )
    } else {
        files.explain_level(&answer, history)
    }))
}
