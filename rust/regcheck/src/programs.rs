//! Runs the programs regcheck, regsearch, reglevel and regkit.
use std::{
    env,
    ffi::OsStr,
    io::Write,
    path::{Path, PathBuf},
    process::{Command, Output, Stdio},
};

// Exit statuses of the programs, and of `regkit explain` and `regkit levels`.
pub const NOT_ATOMIC: Option<i32> = Some(1);
pub const GAVE_UP: Option<i32> = Some(6);

/// The path in the variable.
fn named(variable: &str) -> Option<PathBuf> {
    let path = env::var_os(variable).map(PathBuf::from);
    path.filter(|path| !path.as_os_str().is_empty())
}

/// The path in the variable, or that of the program on PATH.
pub fn find(variable: &str, name: &str) -> Option<PathBuf> {
    named(variable).or_else(|| {
        env::split_paths(&env::var_os("PATH")?)
            .map(|folder| folder.join(name))
            .find(|place| place.is_file())
    })
}

pub fn missing(variable: &str, name: &str) -> String {
    format!("{name} was not found: put it on PATH, or set {variable} to its path")
}

/// The path of regkit.
pub fn regkit() -> Result<PathBuf, String> {
    companion("REGKIT", "regkit")
}

/// The path in the variable, that of the program beside regcheck, as a release has it, or that of
/// the one on PATH.
pub fn companion(variable: &str, name: &str) -> Result<PathBuf, String> {
    named(variable)
        .or_else(|| {
            let beside = find("REGCHECK", "regcheck")?.with_file_name(name);
            Some(beside).filter(|place| place.is_file())
        })
        .or_else(|| find(variable, name))
        .ok_or_else(|| missing(variable, name))
}

/// What a program says.
pub fn run<W: AsRef<OsStr>>(
    program: &Path,
    words: impl IntoIterator<Item = W>,
    input: &[u8],
) -> Result<Output, String> {
    end(program, Command::new(program).args(words), input)
}

/// What a program says that is to run this reglevel, if one is named.
pub fn run_with_levels<W: AsRef<OsStr>>(
    program: &Path,
    words: impl IntoIterator<Item = W>,
    reglevel: Option<&Path>,
) -> Result<Output, String> {
    let mut command = Command::new(program);
    let named = reglevel.map(|path| ("REGLEVEL", path));
    end(program, command.args(words).envs(named), b"")
}

/// Runs a program to its end.
fn end(program: &Path, command: &mut Command, input: &[u8]) -> Result<Output, String> {
    let failed = |error| format!("{} could not be run: {error}", program.display());
    let mut child = command
        .stdin(Stdio::piped())
        .stdout(Stdio::piped())
        .stderr(Stdio::piped())
        .spawn()
        .map_err(failed)?;
    if let Some(mut pipe) = child.stdin.take() {
        // A program that refuses its input may close it before it has read all of it.
        let _ = pipe.write_all(input);
    }
    child.wait_with_output().map_err(failed)
}

/// What a program complains of.
pub fn complaint(said: &Output) -> String {
    String::from_utf8_lossy(&said.stderr).trim_end().to_owned()
}
