//! A store that runs as a child process: what is sent to it, what it prints, how it ends. Nothing here waits for ever.

use std::io::{ErrorKind, Read, Write};
use std::os::fd::{AsRawFd, RawFd};
use std::path::{Path, PathBuf};
use std::process::{Child, ChildStderr, ChildStdin, ChildStdout, Command, ExitStatus, Stdio};
use std::time::{Duration, Instant};

pub type Outcome<T> = Result<T, String>;

/// How long an answer, or the end of the program, may take before it counts as a hang.
pub const PATIENCE: Duration = Duration::from_secs(5);

#[repr(C)]
struct PollFd {
    fd: i32,
    events: i16,
    revents: i16,
}

const POLLIN: i16 = 1;
const POLLOUT: i16 = 4;
const F_SETFL: i32 = 4;
const O_NONBLOCK: i32 = 0o4000;

extern "C" {
    fn poll(fds: *mut PollFd, count: u64, milliseconds: i32) -> i32;
    fn fcntl(fd: i32, command: i32, argument: i32) -> i32;
}

/// The program under test, and the folder in which it is tried.
pub struct Place {
    pub store: PathBuf,
    pub scratch: PathBuf,
}

impl Place {
    pub fn file(&self, name: &str) -> PathBuf {
        self.scratch.join(name)
    }

    /// A new, empty folder.
    pub fn folder(&self, name: &str) -> Outcome<PathBuf> {
        let folder = self.scratch.join(name);
        std::fs::create_dir(&folder).map_err(|e| format!("{}: {e}", folder.display()))?;
        Ok(folder)
    }

    pub fn command(&self, file: &Path, options: &[&str]) -> Command {
        let mut command = Command::new(&self.store);
        command.arg("--file").arg(file).args(options).current_dir(&self.scratch);
        command
    }

    pub fn start(&self, file: &Path, options: &[&str]) -> Outcome<Session> {
        Session::start(&mut self.command(file, options))
    }

    /// Runs the store on this file from its coming-up to the end of the input.
    pub fn run(&self, file: &Path, options: &[&str], input: &[u8]) -> Outcome<Ended> {
        self.start(file, options)?.run(input, PATIENCE)
    }

    /// Sends lines one after the other, each with the answer that it must get, and ends the store by the end of its
    /// input.
    pub fn play(&self, file: &Path, options: &[&str], script: &[(String, String)]) -> Outcome<()> {
        let input: String = script.iter().map(|(line, _)| format!("{line}\n")).collect();
        let ended = self.start(file, options)?.run(input.as_bytes(), Duration::from_secs(30))?;
        ended.must_end_well()?;
        let lines = ended.lines()?;
        if lines.len() != script.len() + 1 {
            return Err(format!("{} answers to {} lines", lines.len().saturating_sub(1), script.len()));
        }
        for ((line, expected), got) in script.iter().zip(&lines[1..]) {
            if !crate::journal::answers(got, expected) {
                return Err(format!("`{line}` was answered `{got}` and not `{expected}`"));
            }
        }
        Ok(())
    }
}

pub fn contents(file: &Path) -> Outcome<Vec<u8>> {
    std::fs::read(file).map_err(|e| format!("{}: {e}", file.display()))
}

pub fn put_contents(file: &Path, bytes: &[u8]) -> Outcome<()> {
    std::fs::write(file, bytes).map_err(|e| format!("{}: {e}", file.display()))
}

/// How a run went: all that wasn't taken of its output, its words on standard error, its status.
pub struct Ended {
    pub out: Vec<u8>,
    pub err: String,
    pub status: ExitStatus,
}

impl Ended {
    pub fn must_end_well(&self) -> Outcome<()> {
        if self.status.success() {
            return Ok(());
        }
        Err(format!("it ended with {} and said: {}", self.status, self.err.trim_end()))
    }

    /// Status 1 and a sentence on standard error.
    pub fn must_give_up(&self) -> Outcome<()> {
        if self.status.code() != Some(1) {
            return Err(format!("it ended with {} and not with status 1", self.status));
        }
        if self.err.trim().is_empty() {
            return Err("it ended with status 1 and nothing on standard error".to_string());
        }
        Ok(())
    }

    pub fn lines(&self) -> Outcome<Vec<String>> {
        whole_lines(&self.out)
    }
}

/// The lines of an output; the last must have its end.
pub fn whole_lines(out: &[u8]) -> Outcome<Vec<String>> {
    let text = std::str::from_utf8(out).map_err(|_| "it printed bytes that are no text".to_string())?;
    if !text.is_empty() && !text.ends_with('\n') {
        return Err("the last line that it printed has no end".to_string());
    }
    Ok(text.lines().map(str::to_string).collect())
}

pub struct Session {
    child: Child,
    stdin: Option<ChildStdin>,
    stdout: Option<ChildStdout>,
    stderr: Option<ChildStderr>,
    unsent: Vec<u8>,
    out: Vec<u8>,
    err: Vec<u8>,
    over: bool,
}

impl Session {
    pub fn start(command: &mut Command) -> Outcome<Session> {
        command.stdin(Stdio::piped()).stdout(Stdio::piped()).stderr(Stdio::piped());
        let mut child = command.spawn().map_err(|e| format!("it could not be started: {e}"))?;
        let (stdin, stdout, stderr) = (child.stdin.take(), child.stdout.take(), child.stderr.take());
        if let Some(pipe) = &stdin {
            // A full pipe must not hold us up while answers wait to be read. The flag is our end's alone.
            unsafe { fcntl(pipe.as_raw_fd(), F_SETFL, O_NONBLOCK) };
        }
        let none = Vec::new;
        Ok(Session { child, stdin, stdout, stderr, unsent: none(), out: none(), err: none(), over: false })
    }

    pub fn send(&mut self, bytes: &[u8]) {
        self.unsent.extend_from_slice(bytes);
    }

    /// How many bytes wait to be sent.
    pub fn unsent(&self) -> usize {
        self.unsent.len()
    }

    /// What was printed and not taken yet, as it came.
    pub fn printed(&self) -> &[u8] {
        &self.out
    }

    /// Whether the program has closed its output.
    pub fn is_silent(&self) -> bool {
        self.stdout.is_none()
    }

    /// Sends and receives what can be sent and received at once; waits for that until the moment given.
    pub fn step(&mut self, until: Instant) {
        let wanted = |fd: Option<RawFd>, events| PollFd { fd: fd.unwrap_or(-1), events, revents: 0 };
        let input = self.stdin.as_ref().filter(|_| !self.unsent.is_empty());
        let mut fds = [
            wanted(input.map(AsRawFd::as_raw_fd), POLLOUT),
            wanted(self.stdout.as_ref().map(AsRawFd::as_raw_fd), POLLIN),
            wanted(self.stderr.as_ref().map(AsRawFd::as_raw_fd), POLLIN),
        ];
        let left = until.saturating_duration_since(Instant::now());
        let milliseconds = left.as_micros().div_ceil(1000).min(1_000_000) as i32;
        if unsafe { poll(fds.as_mut_ptr(), fds.len() as u64, milliseconds) } <= 0 {
            return;
        }
        if fds[1].revents != 0 {
            receive(&mut self.stdout, &mut self.out);
        }
        if fds[2].revents != 0 {
            receive(&mut self.stderr, &mut self.err);
        }
        if fds[0].revents != 0 {
            self.send_some();
        }
    }

    fn send_some(&mut self) {
        let Some(pipe) = &mut self.stdin else { return };
        match pipe.write(&self.unsent) {
            Ok(count) => {
                self.unsent.drain(..count);
            }
            Err(e) if e.kind() == ErrorKind::WouldBlock || e.kind() == ErrorKind::Interrupted => {}
            Err(_) => {
                // Nobody reads it any more.
                self.stdin = None;
                self.unsent.clear();
            }
        }
    }

    /// The next line that it prints, without its end.
    pub fn line(&mut self) -> Outcome<String> {
        let until = Instant::now() + PATIENCE;
        loop {
            if let Some(at) = self.out.iter().position(|b| *b == b'\n') {
                let line: Vec<u8> = self.out.drain(..=at).collect();
                let text = String::from_utf8(line).map_err(|_| "it printed bytes that are no text".to_string())?;
                return Ok(text.trim_end_matches('\n').to_string());
            }
            if self.is_silent() {
                let said = String::from_utf8_lossy(&self.err).trim_end().to_string();
                return Err(format!("it printed no further line, and said: {said}"));
            }
            if Instant::now() >= until {
                return Err("no answer came in time".to_string());
            }
            self.step(until);
        }
    }

    pub fn ask(&mut self, line: &str) -> Outcome<String> {
        self.send(line.as_bytes());
        self.send(b"\n");
        self.line()
    }

    /// Takes the answer to one line, which must be this.
    pub fn must_answer(&mut self, line: &str, expected: &str) -> Outcome<()> {
        let got = self.line()?;
        if crate::journal::answers(&got, expected) {
            return Ok(());
        }
        Err(format!("`{line}` was answered `{got}` and not `{expected}`"))
    }

    /// Sends the input and its end, and takes all that comes until the program ends.
    pub fn run(mut self, input: &[u8], patience: Duration) -> Outcome<Ended> {
        self.send(input);
        self.finish(patience)
    }

    /// Sends what is left and the end of the input, and takes all that comes until the program ends.
    pub fn finish(&mut self, patience: Duration) -> Outcome<Ended> {
        let until = Instant::now() + patience;
        loop {
            if self.unsent.is_empty() {
                self.stdin = None;
            }
            if self.stdout.is_none() && self.stderr.is_none() {
                return self.wait(until);
            }
            if Instant::now() >= until {
                return Err(format!("it did not end within {} s", patience.as_secs()));
            }
            self.step(until);
        }
    }

    /// Kills it on the spot, and takes what it had printed until then.
    pub fn kill(&mut self) -> Outcome<Ended> {
        self.child.kill().map_err(|e| format!("it could not be killed: {e}"))?;
        self.unsent.clear();
        self.finish(PATIENCE)
    }

    fn wait(&mut self, until: Instant) -> Outcome<Ended> {
        loop {
            if let Some(status) = self.child.try_wait().map_err(|e| format!("waiting for it failed: {e}"))? {
                self.over = true;
                let err = String::from_utf8_lossy(&self.err).to_string();
                return Ok(Ended { out: std::mem::take(&mut self.out), err, status });
            }
            if Instant::now() >= until {
                return Err("it closed its output and did not end".to_string());
            }
            std::thread::sleep(Duration::from_micros(100));
        }
    }
}

impl Drop for Session {
    fn drop(&mut self) {
        if !self.over {
            let _ = self.child.kill();
            let _ = self.child.wait();
        }
    }
}

fn receive<P: Read>(pipe: &mut Option<P>, into: &mut Vec<u8>) {
    let mut some = [0; 65536];
    match pipe.as_mut().map(|p| p.read(&mut some)) {
        Some(Ok(count)) if count > 0 => into.extend_from_slice(&some[..count]),
        Some(Err(e)) if e.kind() == ErrorKind::Interrupted => {}
        _ => *pipe = None,
    }
}
