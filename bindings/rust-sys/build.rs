//! Links the library: `libmenolavuri.a` or `libmenolavuri.so` of the folder in `MENOLAVURI_LIB`; otherwise what `make library` left in
//! `bindings/c`; otherwise what was installed, as pkg-config says. Where there is none it says what to do, and `cargo check` goes on.

use std::ffi::OsString;
use std::path::{Path, PathBuf};
use std::process::Command;
use std::{env, fs};

/// Where the library is, and in which form it is linked.
#[derive(Debug, PartialEq, Eq)]
pub struct Found {
    pub folder: PathBuf,
    pub kind: &'static str,
}

/// Returns the library in a folder: the static one, if both are there.
pub fn in_folder(folder: &Path) -> Option<Found> {
    let forms = [("libmenolavuri.a", "static"), ("libmenolavuri.so", "dylib")];
    let (_, kind) = forms.into_iter().find(|it| folder.join(it.0).is_file())?;
    let folder = folder.to_owned();
    Some(Found { folder, kind })
}

/// Returns the library that was built or installed. The parameters are the value of `MENOLAVURI_LIB`, the folder that `make library`
/// writes to, and the folders of an installation, which are looked for last.
///
/// # Errors
/// There is no library: the words say how to get one.
pub fn find(
    named: Option<OsString>,
    built: &Path,
    installed: impl FnOnce() -> Vec<PathBuf>,
) -> Result<Found, String> {
    if let Some(folder) = named {
        let folder = PathBuf::from(folder);
        return in_folder(&folder).ok_or_else(|| {
            let folder = folder.display();
            format!("MENOLAVURI_LIB is {folder}, and no libmenolavuri.a and no libmenolavuri.so is there: `make library` makes them in bindings/c")
        });
    }
    in_folder(built)
        .or_else(|| installed().iter().find_map(|it| in_folder(it)))
        .ok_or_else(|| {
            let built = built.display();
            format!("libmenolavuri is not in {built}, and pkg-config knows none: run `make library` at the top of the repository, or set MENOLAVURI_LIB to the folder of libmenolavuri.a")
        })
}

/// The folders of the library that pkg-config knows.
fn installed() -> Vec<PathBuf> {
    println!("cargo:rerun-if-env-changed=PKG_CONFIG_PATH");
    let told = Command::new(env::var_os("PKG_CONFIG").unwrap_or_else(|| "pkg-config".into()))
        .args(["--variable=libdir", "menolavuri"])
        .output();
    match told {
        Ok(it) if it.status.success() => {
            let text = String::from_utf8_lossy(&it.stdout).into_owned();
            text.lines().map(PathBuf::from).collect()
        }
        _ => Vec::new(),
    }
}

fn main() {
    let here = PathBuf::from(env::var_os("CARGO_MANIFEST_DIR").expect("cargo sets it"));
    let built = here.join("../c");
    println!("cargo:rerun-if-env-changed=MENOLAVURI_LIB");
    println!("cargo:rerun-if-changed=build.rs");
    let found = find(env::var_os("MENOLAVURI_LIB"), &built, installed);
    if let Err(words) = &found {
        println!("cargo:warning={words}");
    }
    // Without a library the crate is checked, and not linked: rustc then says that it is not there.
    let Found { folder, kind } = found.unwrap_or(Found {
        folder: built,
        kind: "static",
    });
    let folder = fs::canonicalize(&folder).unwrap_or(folder);
    let file = match kind {
        "static" => "libmenolavuri.a",
        _ => "libmenolavuri.so",
    };
    println!("cargo:rerun-if-changed={}", folder.join(file).display());
    println!("cargo:rustc-link-search=native={}", folder.display());
    println!("cargo:rustc-link-lib={kind}=menolavuri");
}
