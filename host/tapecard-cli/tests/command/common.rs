//! Runs the command in a directory of its own and holds what it said.

use std::fs;
use std::io::{Read, Write};
use std::os::unix::process::ExitStatusExt;
use std::path::PathBuf;
use std::process::{self, Child, Command, Stdio};
use std::sync::atomic::{AtomicU32, Ordering};
use std::thread;
use std::time::Duration;

/// A directory that goes away with the test.
pub struct Place {
    directory: PathBuf,
}

pub struct Said {
    /// The exit status; where a signal ended the command, its number below 0.
    pub status: i32,
    pub out: String,
    pub err: String,
    pub bytes: Vec<u8>,
}

impl Place {
    pub fn new() -> Place {
        static COUNT: AtomicU32 = AtomicU32::new(0);
        let number = COUNT.fetch_add(1, Ordering::Relaxed);
        let name = format!("tapecard-test-{}-{number}", process::id());
        let directory = std::env::temp_dir().join(name);
        fs::create_dir_all(&directory).expect("a directory for the test");
        Place { directory }
    }

    /// A place with a cartridge `t.img` of 512-byte blocks.
    pub fn with_image(blocks: u32, more: &[&str]) -> Place {
        let place = Place::new();
        let blocks = blocks.to_string();
        let mut words = vec!["new", "t.img", "--block-size", "512", "--blocks", &blocks];
        words.extend(more);
        assert_eq!(place.run(&words).status, 0);
        place
    }

    pub fn path(&self, name: &str) -> PathBuf {
        self.directory.join(name)
    }

    pub fn write(&self, name: &str, bytes: impl AsRef<[u8]>) {
        fs::write(self.path(name), bytes).expect("a file for the test");
    }

    pub fn read(&self, name: &str) -> Vec<u8> {
        fs::read(self.path(name)).expect("a file of the test")
    }

    pub fn names(&self) -> Vec<String> {
        let mut names: Vec<String> = fs::read_dir(&self.directory)
            .expect("the test's directory")
            .map(|entry| entry.expect("an entry").file_name())
            .map(|name| name.to_string_lossy().into_owned())
            .collect();
        names.sort();
        names
    }

    pub fn run(&self, words: &[&str]) -> Said {
        self.run_with(words, b"")
    }

    pub fn run_with(&self, words: &[&str], input: &[u8]) -> Said {
        let mut running = self.start(words);
        running.send(input);
        running.end()
    }

    /// Starts the command and goes on while it runs.
    pub fn start(&self, words: &[&str]) -> Running {
        let mut command = tapecard();
        command.args(words);
        self.start_command(command)
    }

    /// Runs a line of the shell in which `$TAPECARD` is the command.
    pub fn shell(&self, line: &str) -> Said {
        self.start_shell(line).end()
    }

    pub fn start_shell(&self, line: &str) -> Running {
        let mut shell = Command::new("sh");
        shell
            .args(["-c", line])
            .env("TAPECARD", command_words().join(" "));
        self.start_command(shell)
    }

    fn start_command(&self, mut command: Command) -> Running {
        let child = command
            .current_dir(&self.directory)
            .stdin(Stdio::piped())
            .stdout(Stdio::piped())
            .stderr(Stdio::piped())
            .spawn()
            .expect("the command starts");
        Running { child }
    }
}

/// A command that is at work.
pub struct Running {
    child: Child,
}

impl Running {
    /// A command that does not read its input may have ended before it is written.
    pub fn send(&mut self, input: &[u8]) {
        let _ = self
            .child
            .stdin
            .as_mut()
            .expect("its input")
            .write_all(input);
    }

    /// Reads its output until this text has come.
    pub fn hear(&mut self, text: &str) {
        read_until(self.child.stdout.as_mut().expect("its output"), text);
    }

    /// Reads its standard error until this text has come.
    pub fn hear_error(&mut self, text: &str) {
        read_until(self.child.stderr.as_mut().expect("its errors"), text);
    }

    /// Sends a signal by its name.
    pub fn signal(&self, name: &str) {
        let number = self.child.id().to_string();
        let sent = Command::new("kill").args(["-s", name, &number]).status();
        assert!(sent.expect("kill runs").success());
    }

    /// Sends a signal and waits for the end that it brings; input stays open until then.
    pub fn end_by(mut self, signal: &str) -> Said {
        self.signal(signal);
        let input = self.child.stdin.take();
        let said = self.end();
        drop(input);
        said
    }

    /// Sends a signal, reads nothing, and waits some seconds for the end that it should bring.
    pub fn ends_unread_by(&mut self, signal: &str) -> bool {
        self.signal(signal);
        (0..500).any(|_| {
            thread::sleep(Duration::from_millis(10));
            self.child.try_wait().expect("a child").is_some()
        })
    }

    /// Closes its output, as `head` does when it has seen enough.
    pub fn close_output(&mut self) {
        self.child.stdout = None;
    }

    pub fn end(mut self) -> Said {
        self.child.stdin = None;
        let done = self.child.wait_with_output().expect("the command ends");
        Said {
            status: done
                .status
                .code()
                .unwrap_or_else(|| -done.status.signal().expect("a signal ended it")),
            out: String::from_utf8_lossy(&done.stdout).into_owned(),
            err: String::from_utf8_lossy(&done.stderr).into_owned(),
            bytes: done.stdout,
        }
    }
}

impl Drop for Place {
    fn drop(&mut self) {
        let _ = fs::remove_dir_all(&self.directory);
    }
}

impl Said {
    /// Went well, with this on standard output and nothing on standard error.
    #[track_caller]
    pub fn is_good(&self, out: &str) {
        assert_eq!((self.status, self.err.as_str()), (0, ""), "{}", self.out);
        assert_eq!(self.out, out);
    }

    /// Failed with this exit status and sentence, and nothing on standard output.
    #[track_caller]
    pub fn is_bad(&self, status: i32, sentence: &str) {
        assert_eq!(self.err, format!("tapecard: {sentence}\n"));
        assert_eq!((self.status, self.out.as_str()), (status, ""));
    }

    /// Has these lines among its output, in this order.
    #[track_caller]
    pub fn has_lines(&self, wanted: &[&str]) {
        let mut lines = self.out.lines().map(str::trim_end);
        for line in wanted {
            assert!(
                lines.any(|l| l == *line),
                "{line:?} in order in:\n{}",
                self.out
            );
        }
    }
}

/// The command, under the emulator that the environment names where the archive is for another processor. `TAPECARD` may name
/// another build of it.
///
/// Whoever runs the tests may have set signals to be ignored, as a background job has; the command would honour that.
fn tapecard() -> Command {
    let mut command = Command::new("env");
    command
        .arg("--default-signal=INT,TERM,HUP")
        .args(command_words());
    command
}

fn command_words() -> Vec<String> {
    let word = |name: &str| std::env::var(name).unwrap_or_default();
    let emulator = word("TAPECARD_RUN");
    let mut words: Vec<String> = emulator.split_whitespace().map(String::from).collect();
    let other = word("TAPECARD");
    words.push(match other.as_str() {
        "" => env!("CARGO_BIN_EXE_tapecard").into(),
        _ => other,
    });
    words
}

fn read_until(from: &mut impl Read, text: &str) {
    let mut heard = Vec::new();
    let mut byte = [0];
    while !heard.ends_with(text.as_bytes()) {
        let read = from.read(&mut byte).expect("it can be read");
        let so_far = String::from_utf8_lossy(&heard);
        assert_eq!(read, 1, "it ended before {text:?}: {so_far}");
        heard.push(byte[0]);
    }
}

/// Bytes that look random and are the same in every run.
pub struct Dice(pub u64);

impl Dice {
    pub fn throw(&mut self, below: u64) -> u64 {
        self.0 = self
            .0
            .wrapping_mul(6_364_136_223_846_793_005)
            .wrapping_add(1);
        (self.0 >> 33) % below
    }

    pub fn bytes(&mut self, count: usize) -> Vec<u8> {
        (0..count).map(|_| self.throw(256) as u8).collect()
    }
}
