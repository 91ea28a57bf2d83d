//! Prints the decisions of the services of this machine, or that the interposer is loaded:
//!
//!     menolavuri-status [FOLDER]     the counters in /run/menolavuri, or in this folder: those that this user may read
//!     menolavuri-status --loaded     whether the interposer is loaded in this environment, for ExecStartPre; the status is 1 where not

use menolavuri_gss::counters::{Counters, paths, read};
use menolavuri_gss::{loaded, status};
use std::fs::File;
use std::process::ExitCode;

fn show(path: &str, all: &Counters) {
    let refused = all.refused();
    let count = all.admitted() + refused.iter().map(|it| it.1).sum::<u64>();
    let (took, slowest) = all.latency();
    println!("{path}");
    println!("  admitted {}", all.admitted());
    for (minor, count) in refused {
        println!("  refused {count}: {}", status::words(minor));
    }
    println!("  mean {} us, slowest {slowest} us", took / count.max(1));
    for (below, count) in all.buckets() {
        println!("  under {below} us: {count}");
    }
}

fn show_all(folder: &str) -> ExitCode {
    let paths = paths(folder);
    if paths.is_empty() {
        eprintln!("menolavuri-status: there are no counters in {folder} that this user may read");
        return ExitCode::FAILURE;
    }
    for path in paths {
        let all = File::open(&path).map_err(|error| error.to_string());
        match all.and_then(|file| read(&file)) {
            Ok(all) => show(&path, &all),
            Err(error) => println!("{path}: {error}"),
        }
    }
    ExitCode::SUCCESS
}

fn show_loaded() -> ExitCode {
    match loaded::ask() {
        Ok(words) => {
            println!("{words}");
            ExitCode::SUCCESS
        }
        Err(words) => {
            eprintln!("menolavuri-status: {words}");
            ExitCode::FAILURE
        }
    }
}

fn main() -> ExitCode {
    let words: Vec<String> = std::env::args().skip(1).collect();
    match words.iter().map(String::as_str).collect::<Vec<_>>()[..] {
        [] => show_all("/run/menolavuri"),
        ["--loaded"] => show_loaded(),
        [folder] if !folder.starts_with('-') => show_all(folder),
        _ => {
            eprintln!("usage: menolavuri-status [FOLDER | --loaded]");
            ExitCode::FAILURE
        }
    }
}
