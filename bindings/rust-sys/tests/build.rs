//! Where build.rs looks for the library, and what it says where there is none.

#[path = "../build.rs"]
#[allow(dead_code)]
mod build;

use build::{Found, find, in_folder};
use std::path::{Path, PathBuf};
use std::{env, fs, process};

/// A folder of its own for a test, with these files.
fn folder(name: &str, files: &[&str]) -> PathBuf {
    let at = env::temp_dir().join(format!("menolavuri-sys-{}-{name}", process::id()));
    fs::create_dir_all(&at).unwrap();
    for file in files {
        fs::write(at.join(file), b"").unwrap();
    }
    at
}

fn found(folder: &Path, kind: &'static str) -> Found {
    let folder = folder.to_owned();
    Found { folder, kind }
}

#[test]
fn the_static_library_comes_first() {
    let both = folder("both", &["libmenolavuri.a", "libmenolavuri.so"]);
    let shared = folder("shared", &["libmenolavuri.so"]);
    let none = folder("none", &["libmenolavuri.so.0"]);
    assert_eq!(in_folder(&both), Some(found(&both, "static")));
    assert_eq!(in_folder(&shared), Some(found(&shared, "dylib")));
    assert_eq!(in_folder(&none), None);
    for it in [both, shared, none] {
        fs::remove_dir_all(it).unwrap();
    }
}

#[test]
fn the_named_folder_then_the_built_one_then_the_installed_one() {
    let [named, built, installed] =
        ["named", "built", "installed"].map(|it| folder(it, &["libmenolavuri.a"]));
    let nowhere = folder("nowhere", &[]);
    let of = |named: Option<&Path>, built: &Path| {
        find(named.map(Into::into), built, || {
            vec![nowhere.clone(), installed.clone()]
        })
    };
    assert_eq!(of(Some(&named), &built), Ok(found(&named, "static")));
    assert_eq!(of(None, &built), Ok(found(&built, "static")));
    assert_eq!(of(None, &nowhere), Ok(found(&installed, "static")));
    // Another one is not taken in the place of the one that was named.
    let words = of(Some(&nowhere), &built).unwrap_err();
    assert!(words.starts_with("MENOLAVURI_LIB is "), "{words}");
    assert!(words.contains("make library"), "{words}");
    for it in [&named, &built, &installed] {
        fs::remove_dir_all(it).unwrap();
    }
    let words = of(None, &nowhere).unwrap_err();
    assert!(words.contains("make library") && words.contains("MENOLAVURI_LIB"));
    fs::remove_dir_all(nowhere).unwrap();
}
