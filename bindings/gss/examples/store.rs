//! How many records a second the file of admitted clients takes, and that each is new once, whoever is killed meanwhile:
//!
//!     cargo run --offline --release --example store -- puts FOLDER COUNT [anew]
//!     cargo run --offline --release --example store -- race FOLDER PROCESSES RECORDS KILLED
//!
//! With `anew` the file is opened for each record, as a process does that serves one connection.

use menolavuri_gss::config::Place;
use menolavuri_gss::store::{ask, file};
use std::process::{Child, Command, Stdio};
use std::time::{Duration, Instant};

const SKEW: Duration = Duration::from_secs(60);

fn is_new(folder: &str, record: &str) -> bool {
    let place = Place::Folder(folder.to_owned());
    let answer = ask(&place, record.as_bytes(), SKEW);
    !answer.expect("the store answers").seen
}

fn puts(folder: &str, count: u64, anew: bool) {
    let pid = std::process::id();
    let start = Instant::now();
    let mut slowest = Duration::ZERO;
    for n in 0..count {
        let one = Instant::now();
        assert!(is_new(
            folder,
            &format!("20261201000000Zalice@EXAMPLE.COM\0{pid} {n}")
        ));
        if anew {
            file::close();
        }
        slowest = slowest.max(one.elapsed());
    }
    let took = start.elapsed();
    println!(
        "{count} puts: {:.0} a second, slowest {slowest:?}",
        count as f64 / took.as_secs_f64()
    );
}

/// One process of a race: it puts all records in, in an order of its own, and prints how many were new.
fn runner(folder: &str, seed: u64, records: u64) {
    let step = [1, 7, 11, 13, 17, 19, 23, 29][seed as usize % 8];
    let all = (0..records).map(|n| (n * step + seed * 1000) % records);
    println!(
        "{}",
        all.filter(|n| is_new(folder, &format!("record {n}")))
            .count()
    );
}

fn start(folder: &str, seed: u64, records: u64) -> Child {
    let own = std::env::current_exe().expect("a path");
    let mut command = Command::new(own);
    command.args(["run", folder, &seed.to_string(), &records.to_string()]);
    command.stdout(Stdio::piped()).spawn().expect("a process")
}

fn count_of(child: Child) -> u64 {
    let out = child.wait_with_output().expect("a process ends");
    String::from_utf8_lossy(&out.stdout)
        .trim()
        .parse()
        .expect("a number")
}

fn race(folder: &str, processes: u64, records: u64, killed: u64) {
    let begin = Instant::now();
    let all: Vec<Child> = (0..processes)
        .map(|seed| start(folder, seed, records))
        .collect();
    for seed in 0..killed {
        let mut child = start(folder, processes + seed, records);
        std::thread::sleep(Duration::from_millis(40));
        child
            .kill()
            .and_then(|()| child.wait())
            .expect("a process is killed");
    }
    let new: u64 = all.into_iter().map(count_of).sum();
    println!(
        "{processes} processes, {killed} killed beside, {records} records: new {new} times, in {:?}",
        begin.elapsed()
    );
    assert!(new <= records && (killed > 0 || new == records));
}

fn main() {
    let words: Vec<String> = std::env::args().skip(1).collect();
    let number = |it: &str| it.parse().expect("a number");
    match words.iter().map(String::as_str).collect::<Vec<_>>()[..] {
        ["puts", folder, count] => puts(folder, number(count), false),
        ["puts", folder, count, "anew"] => puts(folder, number(count), true),
        ["run", folder, seed, records] => runner(folder, number(seed), number(records)),
        ["race", folder, processes, records, killed] => {
            race(folder, number(processes), number(records), number(killed))
        }
        _ => eprintln!(
            "usage: store puts FOLDER COUNT [anew] | store race FOLDER PROCESSES RECORDS KILLED"
        ),
    }
}
