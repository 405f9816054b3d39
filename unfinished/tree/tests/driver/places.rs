//! Places and options that are no good: status 1, a sentence on standard error, nothing written. And a store that is
//! started with standard streams closed: no answer ever ends in the register.

use crate::journal::{answers, decode, Record, Rest};
use crate::session::{contents, put_contents, Ended, Outcome, Place, Session, PATIENCE};
use std::os::unix::fs::PermissionsExt;
use std::path::{Path, PathBuf};
use std::process::Command;

pub fn check(place: &Place) -> Outcome<String> {
    let folder = place.folder("places")?;
    let inside = folder.join("inside");
    std::fs::create_dir(&inside).map_err(|e| e.to_string())?;
    must_refuse(place, &folder, &["--file", "inside"]).map_err(|why| format!("a folder as file: {why}"))?;
    must_refuse(place, &folder, &["--file", "nowhere/register"])
        .map_err(|why| format!("a folder that isn't there: {why}"))?;
    must_refuse(place, &folder, &["--file", ""]).map_err(|why| format!("an empty path: {why}"))?;
    std::fs::remove_dir(&inside).map_err(|e| e.to_string())?;
    let read_only = read_only_file(place, &folder).map_err(|why| format!("a file that may not be written: {why}"))?;
    let options = bad_options();
    for words in &options {
        must_refuse(place, &folder, words).map_err(|why| format!("{}: {why}", words.join(" ")))?;
    }
    good_options(place, &folder)?;
    let closed = closed_streams(place, &folder)?;
    Ok(format!(
        "3 bad places, {} bad options, a file that may not be written{read_only}; {closed} runs with streams closed, \
         no answer in the register",
        options.len()
    ))
}

fn bad_options() -> Vec<Vec<&'static str>> {
    vec![
        vec!["--unknown"],
        vec!["register"],
        vec!["-x"],
        vec!["--file"],
        vec!["--long"],
        vec!["--short"],
        vec!["--rate"],
        vec!["--clock"],
        vec!["--clock", "wall"],
        vec!["--long", "many"],
        vec!["--long", "-1"],
        vec!["--long", ""],
        vec!["--short", "9000x"],
        vec!["--rate", "99999999999999999999999999"],
        vec!["--long", "0"],
        vec!["--long", "9000"],
        vec!["--short", "10000"],
        vec!["--short", "18446744073709551615"],
        vec!["--rate", "1000000"],
        vec!["--rate", "18446744073709551615"],
        // With 10000 and 1000 the longest time that fits is 9976: (9976 + 1) * 1001000 + 2000000 <= 9999 * 999000.
        vec!["--short", "9977"],
    ]
}

fn listing(folder: &Path) -> Outcome<Vec<PathBuf>> {
    let entries = std::fs::read_dir(folder).map_err(|e| format!("{}: {e}", folder.display()))?;
    let mut names: Vec<PathBuf> = entries.filter_map(|entry| entry.ok().map(|e| e.path())).collect();
    names.sort();
    Ok(names)
}

fn run_in(place: &Place, folder: &Path, words: &[&str], input: &[u8]) -> Outcome<Ended> {
    Session::start(Command::new(&place.store).args(words).current_dir(folder))?.run(input, PATIENCE)
}

/// It ends with status 1 and a sentence, answers nothing, and leaves the folder as it was.
fn must_refuse(place: &Place, folder: &Path, words: &[&str]) -> Outcome<()> {
    let before = listing(folder)?;
    let ended = run_in(place, folder, words, b"0 loan\n")?;
    ended.must_give_up()?;
    if let Some(line) = ended.lines()?.iter().find(|line| !answers(line, "refused 1")) {
        return Err(format!("it printed `{line}`"));
    }
    let after = listing(folder)?;
    if after != before {
        return Err(format!("the folder has {} files and had {}", after.len(), before.len()));
    }
    Ok(())
}

fn read_only_file(place: &Place, folder: &Path) -> Outcome<&'static str> {
    let file = folder.join("locked");
    let bytes = Record::CameUp.encode();
    put_contents(&file, &bytes)?;
    let mode = |mode| std::fs::set_permissions(&file, std::fs::Permissions::from_mode(mode)).map_err(|e| e.to_string());
    mode(0o444)?;
    let skipped = std::fs::OpenOptions::new().append(true).open(&file).is_ok();
    if !skipped {
        must_refuse(place, folder, &["--file", "locked"])?;
        if contents(&file)? != bytes {
            return Err("it was changed".to_string());
        }
    }
    std::fs::remove_file(&file).map_err(|e| e.to_string())?;
    Ok(if skipped { " (skipped: this user may write it)" } else { "" })
}

/// `--help` writes nothing; the default file is `register` in the current folder; times that just fit are taken.
fn good_options(place: &Place, folder: &Path) -> Outcome<()> {
    let ended = run_in(place, folder, &["--help"], b"")?;
    ended.must_end_well()?;
    if ended.out.is_empty() || !listing(folder)?.is_empty() {
        return Err("--help prints nothing, or writes a file".to_string());
    }
    let ended = run_in(place, folder, &["--long", "10000", "--short", "9976", "--rate", "1000"], b"")?;
    ended.must_end_well()?;
    if ended.out != b"up 1\n" || listing(folder)? != [folder.join("register")] {
        return Err("--long 10000 --short 9976 --rate 1000 does not come up on the file `register`".to_string());
    }
    std::fs::remove_file(folder.join("register")).map_err(|e| e.to_string())
}

/// Starts it through a shell that closes some of its streams, on a file that is new, whole, ends with a part record
/// (which it would report), or is to be refused (which it would say).
fn closed_streams(place: &Place, folder: &Path) -> Outcome<usize> {
    let row = Record::Put { key: 5, columns: [5, 1, 2, 3, 4, 5, 6, 7], stages: Vec::new() }.encode();
    let whole = [Record::CameUp.encode(), row.clone()].concat();
    let part = [whole.clone(), row[..20].to_vec()].concat();
    let refused = [whole.clone(), b"up 1\n".to_vec()].concat();
    let closings = ["<&-", ">&-", "2>&-", "<&- >&-", "<&- 2>&-", ">&- 2>&-", "<&- >&- 2>&-"];
    let file = folder.join("register");
    let mut runs = 0;
    for closing in closings {
        for start in [&Vec::new(), &whole, &part, &refused] {
            put_contents(&file, start)?;
            one_closed(place, &file, closing, start == &refused)
                .map_err(|why| format!("started with {closing} on a file of {} bytes: {why}", start.len()))?;
            runs += 1;
        }
    }
    Ok(runs)
}

fn one_closed(place: &Place, file: &Path, closing: &str, refused: bool) -> Outcome<()> {
    let before = contents(file)?;
    let mut command = Command::new("sh");
    command.arg("-c").arg(format!("exec \"$0\" --file \"$1\" {closing}")).arg(&place.store).arg(file);
    let input = b"0 loan\n0 write 7 1 2 3 4 5 6 7 8\n0 read 7\nnot a line\n0 read 5\n";
    let ended = Session::start(&mut command)?.run(input, PATIENCE)?;
    if ended.status.code().is_none() {
        return Err(format!("it ended with {}", ended.status));
    }
    let after = contents(file)?;
    if refused {
        return if after == before { Ok(()) } else { Err("the refused file was changed".to_string()) };
    }
    let decoded = decode(&after);
    let kept = decode(&before).whole;
    let part_left = decoded.rest == Rest::Part && after == before;
    if (decoded.rest != Rest::Nothing && !part_left) || after[..kept] != before[..kept] {
        return Err(format!("the file is not whole: from byte {} on it has no records", decoded.whole));
    }
    let written = |record: &Record| matches!(record, Record::CameUp | Record::Put { key: 7 | 5, .. });
    if !decoded.records.iter().all(written) {
        return Err("the file has records that nobody asked for".to_string());
    }
    if closing.contains('<') && !closing.contains(" >") && ended.lines()?.len() > 1 {
        return Err(format!("with its input closed it answered: {}", String::from_utf8_lossy(&ended.out)));
    }
    Ok(())
}
