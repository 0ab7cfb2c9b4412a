//! Links libregcheck.a from the folder REGCHECK_LIB_DIR; else from that of the release or the repository
//! which this crate stands in; else the installed library.
use std::{
    env, fs,
    path::{Path, PathBuf},
    process,
};

const ARCHIVE: &str = "libregcheck.a";
const SHARED: &str = "libregcheck.so";
const NEWEST: &[u8] = b"reglevel_report"; // the function that older libraries lack
/// Where linkers look by themselves.
const SYSTEM: [&str; 6] = [
    "/usr/local/lib",
    "/usr/lib",
    "/lib",
    "/usr/lib64",
    "/usr/lib/x86_64-linux-gnu",
    "/usr/lib/aarch64-linux-gnu",
];

/// Says why nothing can be linked, and ends.
fn fail(words: &str) -> ! {
    eprintln!("{words}");
    process::exit(1)
}

/// The folder with the archive.
fn folder() -> Option<PathBuf> {
    println!("cargo:rerun-if-env-changed=REGCHECK_LIB_DIR");
    if let Some(named) = env::var_os("REGCHECK_LIB_DIR") {
        return Some(named.into());
    }
    let top = Path::new(env!("CARGO_MANIFEST_DIR")).join("../..");
    ["lib", "bin"]
        .map(|name| top.join(name))
        .into_iter()
        .find(|place| place.join(ARCHIVE).is_file())
}

/// The installed library, in a folder where the linker finds it.
fn installed() -> Option<PathBuf> {
    println!("cargo:rerun-if-env-changed=LIBRARY_PATH");
    let named = env::var_os("LIBRARY_PATH").unwrap_or_default();
    let places = env::split_paths(&named).chain(SYSTEM.map(PathBuf::from));
    places
        .flat_map(|place| [place.join(SHARED), place.join(ARCHIVE)])
        .find(|file| file.is_file())
}

/// Ends unless the library has what the crate calls.
fn look(library: &Path) {
    println!("cargo:rerun-if-changed={}", library.display());
    let name = library.display();
    match fs::read(library) {
        Err(error) => fail(&format!("{name}: {error}. Is REGCHECK_LIB_DIR right?")),
        Ok(bytes) if !bytes.windows(NEWEST.len()).any(|part| part == NEWEST) => fail(&format!(
            "{name} is too old for this crate: install the library of the same release"
        )),
        Ok(_) => {}
    }
}

fn main() {
    if let Some(folder) = folder() {
        look(&folder.join(ARCHIVE));
        println!("cargo:rustc-link-search=native={}", folder.display());
        println!("cargo:rustc-link-lib=static=regcheck");
    } else if let Some(library) = installed() {
        look(&library);
        println!("cargo:rustc-link-lib=regcheck");
    } else {
        fail(
            "libregcheck was not found: set REGCHECK_LIB_DIR to its folder; or say default-features = false \
             of the crate regcheck, which then runs the programs",
        );
    }
}
