//! Tries the program `store` from outside, as a child process on real files: kills, cuts, damage, a full disk, a
//! hundred thousand lines, bad places, groups.
//!
//!     rustc -O --edition 2021 -o driver tests/driver/main.rs
//!     driver [STORE] [--scratch DIR] [--kills N] [--lines N]
//!
//! STORE is by default `target/bin/store`, seen from the current folder. It prints a line for each check and last
//! `N passed, M failed`; its status is 1 if a check failed, and what was tried then stays in the scratch folder.

mod cuts;
mod damage;
mod full_disk;
mod groups;
mod journal;
mod kills;
mod many_lines;
mod places;
mod random;
mod session;

use session::{Outcome, Place};
use std::path::PathBuf;
use std::time::Instant;

const USAGE: &str = "usage: driver [STORE] [--scratch DIR] [--kills N] [--lines N]";

struct Options {
    store: PathBuf,
    scratch: PathBuf,
    kills: usize,
    lines: usize,
}

fn options() -> Outcome<Options> {
    let mut store = None;
    let mut scratch = std::env::temp_dir();
    let (mut kills, mut lines) = (40, 100_000);
    let mut words = std::env::args().skip(1);
    while let Some(word) = words.next() {
        let mut value = || words.next().ok_or(format!("{word} has no value"));
        let number = |text: String| text.parse().map_err(|_| format!("{text} is no number"));
        match word.as_str() {
            "--scratch" => scratch = PathBuf::from(value()?),
            "--kills" => kills = number(value()?)?,
            "--lines" => lines = number(value()?)?,
            _ if word.starts_with('-') || store.is_some() => return Err(format!("{word} is not known")),
            _ => store = Some(PathBuf::from(word)),
        }
    }
    let store = store.unwrap_or(PathBuf::from("target/bin/store"));
    let store = store.canonicalize().map_err(|e| format!("{}: {e}", store.display()))?;
    Ok(Options { store, scratch, kills, lines })
}

/// A new folder of our own in the scratch folder, which is made where it isn't there.
fn own_folder(scratch: &PathBuf) -> Outcome<PathBuf> {
    let folder = scratch.join(format!("driver-{}", std::process::id()));
    std::fs::create_dir_all(scratch).map_err(|e| format!("{}: {e}", scratch.display()))?;
    std::fs::create_dir(&folder).map_err(|e| format!("{}: {e}", folder.display()))?;
    folder.canonicalize().map_err(|e| format!("{}: {e}", folder.display()))
}

fn main() {
    let begun = options().and_then(|o| own_folder(&o.scratch).map(|folder| (o, folder)));
    let (options, scratch) = begun.unwrap_or_else(|why| {
        eprintln!("driver: {why}\n{USAGE}");
        std::process::exit(1);
    });
    let place = Place { store: options.store, scratch };
    let checks: [(&str, &dyn Fn() -> Outcome<String>); 7] = [
        ("kills", &|| kills::check(&place, options.kills)),
        ("cuts", &|| cuts::check(&place)),
        ("damage", &|| damage::check(&place)),
        ("full disk", &|| full_disk::check(&place)),
        ("many lines", &|| many_lines::check(&place, options.lines)),
        ("bad places", &|| places::check(&place)),
        ("groups", &|| groups::check(&place)),
    ];
    let mut failed = 0;
    for (name, check) in &checks {
        let begin = Instant::now();
        let outcome = check();
        let seconds = begin.elapsed().as_secs_f64();
        match outcome {
            Ok(done) => println!("{name}: {done} ({seconds:.1} s)"),
            Err(why) => {
                failed += 1;
                println!("{name}: FAILED: {why} ({seconds:.1} s)");
            }
        }
    }
    if failed == 0 {
        let _ = std::fs::remove_dir_all(&place.scratch);
    } else {
        println!("what was tried is in {}", place.scratch.display());
    }
    println!("{} passed, {failed} failed", checks.len() - failed);
    std::process::exit(i32::from(failed > 0));
}
