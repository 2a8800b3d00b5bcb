//! Another program, run on an input: from a file, in pieces through a pipe, with nobody to read what it prints, or from a
//! socket whose reads fail or are interrupted; or with no input open.

use std::fs::{create_dir_all, read, remove_dir_all, write, File};
use std::io::{self, Read, Write};
use std::os::fd::OwnedFd;
use std::os::unix::net::UnixStream;
use std::path::PathBuf;
use std::process::{Child, Command, ExitStatus, Stdio};
use std::sync::atomic::{AtomicUsize, Ordering};
use std::thread::{scope, sleep};
use std::time::{Duration, Instant};

/// How long a program may take for one file, and for one that nobody reads the answers to.
const PATIENCE: Duration = Duration::from_secs(60);
const PATIENCE_UNREAD: Duration = Duration::from_secs(10);
/// Between pieces, so that each is read by itself, and between looks at whether a program has ended.
const PAUSE: Duration = Duration::from_micros(200);
/// How long a program is given to come to wait for its input, to be stopped and to be continued.
const REST: Duration = Duration::from_millis(40);

/// A program with its arguments, of which the last may name a file, and a folder of its own for its input and output.
pub struct Program {
    words: Vec<String>,
    named: Option<PathBuf>,
    folder: PathBuf,
}

/// What a program's last word names.
#[derive(Clone, Copy, Debug, PartialEq, Eq)]
pub enum Named<'a> {
    /// There is no such word.
    Nothing,
    /// A file that isn't there, so that it can't be opened.
    NoFile,
    /// A folder, which can be opened and not read.
    Folder,
    File(&'a [u8]),
}

/// What a program printed and said on standard error, where that was asked for, and its exit status; none if it did not
/// end in time and was stopped.
pub struct Ended {
    pub output: Vec<u8>,
    pub said: Vec<u8>,
    pub status: Option<ExitStatus>,
}

/// Where the output goes that nobody reads.
#[derive(Clone, Copy, Debug)]
pub enum Unread {
    /// Into a pipe whose reader leaves after the first bytes.
    Left,
    /// The same, with the signal ignored that says so.
    LeftUnsaid,
    /// Onto a device that is full.
    Full,
    /// Nowhere: standard output is not open.
    Closed,
}

pub const UNREAD: [Unread; 4] = [Unread::Left, Unread::LeftUnsaid, Unread::Full, Unread::Closed];

impl Program {
    pub fn new(words: Vec<String>) -> io::Result<Program> {
        static PROGRAMS: AtomicUsize = AtomicUsize::new(0);
        let number = PROGRAMS.fetch_add(1, Ordering::Relaxed);
        let folder = std::env::temp_dir().join(format!("trials-{}-{number}", std::process::id()));
        create_dir_all(&folder)?;
        Ok(Program { words, named: None, folder })
    }

    /// What the program's last word names from here on.
    pub fn name(&mut self, named: Named) -> io::Result<()> {
        self.named = match named {
            Named::Nothing => None,
            Named::NoFile => Some(self.folder.join("not-there")),
            Named::Folder => Some(self.folder.clone()),
            Named::File(bytes) => {
                let path = self.folder.join("named");
                write(&path, bytes)?;
                Some(path)
            }
        };
        Ok(())
    }

    pub fn on_file(&self, bytes: &[u8]) -> io::Result<Ended> {
        self.ended(self.command().stdin(self.input(bytes)?), &[])
    }

    pub fn in_pieces(&self, pieces: &[&[u8]]) -> io::Result<Ended> {
        self.ended(self.command().stdin(Stdio::piped()), pieces)
    }

    /// With more words after its own, and no input but the folder's, which can't be read.
    pub fn with_words(&self, words: &[&str]) -> io::Result<Ended> {
        self.telling(self.command().args(words).stdin(File::open(&self.folder)?), |_| Ok(()))
    }

    /// With standard input not open.
    pub fn without_input(&self) -> io::Result<Ended> {
        self.telling(&mut self.after("exec \"$@\" <&-"), |_| Ok(()))
    }

    /// From a socket that has these bytes, and on which every read after them fails.
    pub fn until_reads_fail(&self, bytes: &[u8]) -> io::Result<Ended> {
        let (mut ours, theirs) = UnixStream::pair()?;
        theirs.set_nonblocking(true)?;
        ours.write_all(bytes)?;
        self.telling(self.command().stdin(OwnedFd::from(theirs)), |_| Ok(()))
    }

    /// From a socket, of whose reads one is interrupted between the two pieces: with a time limit set, a wait that a stop and
    /// a continuation come between answers that.
    pub fn interrupted(&self, pieces: [&[u8]; 2]) -> io::Result<Ended> {
        let (mut ours, theirs) = UnixStream::pair()?;
        theirs.set_read_timeout(Some(PATIENCE))?;
        ours.write_all(pieces[0])?;
        self.telling(self.command().stdin(OwnedFd::from(theirs)), |child| {
            for signal in ["-STOP", "-CONT"] {
                sleep(REST);
                Command::new("sh").args(["-c", "kill \"$0\" \"$1\"", signal, &child.id().to_string()]).status()?;
            }
            sleep(REST);
            let _ = ours.write_all(pieces[1]);
            ours.shutdown(std::net::Shutdown::Write)
        })
    }

    /// Onto a device that is full, or nowhere.
    pub fn unwritten(&self, bytes: &[u8], unread: Unread) -> io::Result<Ended> {
        self.telling(self.for_unread(unread).stdin(self.input(bytes)?), |_| Ok(()))
    }

    /// The program's output and what it says, while something is done to it.
    fn telling(&self, command: &mut Command, mut doing: impl FnMut(&Child) -> io::Result<()>) -> io::Result<Ended> {
        let [output, said] = ["output", "said"].map(|name| self.folder.join(name));
        let mut child = command.stdout(File::create(&output)?).stderr(File::create(&said)?).spawn()?;
        doing(&child)?;
        let status = wait(&mut child, PATIENCE_UNREAD)?;
        Ok(Ended { output: read(output)?, said: read(said)?, status })
    }

    /// Whether the program ends by itself.
    pub fn ends(&self, bytes: &[u8], unread: Unread) -> io::Result<bool> {
        let mut command = self.for_unread(unread);
        let mut child = command.stdin(self.input(bytes)?).stdout(Stdio::piped()).stderr(Stdio::null()).spawn()?;
        scope(|threads| {
            if let Some(mut output) = child.stdout.take() {
                threads.spawn(move || output.read(&mut [0; 16]));
            }
            Ok(wait(&mut child, PATIENCE_UNREAD)?.is_some())
        })
    }

    fn ended(&self, command: &mut Command, pieces: &[&[u8]]) -> io::Result<Ended> {
        let path = self.folder.join("output");
        let mut child = command.stdout(File::create(&path)?).spawn()?;
        let status = scope(|threads| {
            if let Some(mut input) = child.stdin.take() {
                threads.spawn(move || {
                    for piece in pieces {
                        // After a refusal a program need not read on.
                        if input.write_all(piece).is_err() {
                            break;
                        }
                        sleep(PAUSE);
                    }
                });
            }
            wait(&mut child, PATIENCE)
        })?;
        Ok(Ended { output: read(path)?, said: Vec::new(), status })
    }

    fn input(&self, bytes: &[u8]) -> io::Result<File> {
        let path = self.folder.join("input");
        write(&path, bytes)?;
        File::open(path)
    }

    fn for_unread(&self, unread: Unread) -> Command {
        match unread {
            Unread::Left => self.command(),
            Unread::LeftUnsaid => self.after("trap '' PIPE; exec \"$@\""),
            Unread::Full => self.after("exec \"$@\" > /dev/full"),
            Unread::Closed => self.after("exec \"$@\" >&-"),
        }
    }

    fn command(&self) -> Command {
        let mut command = Command::new(&self.words[0]);
        command.args(&self.words[1..]).args(&self.named);
        command
    }

    /// The program in the place of a shell that has prepared its input or output.
    fn after(&self, script: &str) -> Command {
        let mut command = Command::new("sh");
        command.args(["-c", script, "sh"]).args(&self.words).args(&self.named);
        command
    }
}

impl Drop for Program {
    fn drop(&mut self) {
        // What stays of a temporary folder does no harm.
        let _ = remove_dir_all(&self.folder);
    }
}

fn wait(child: &mut Child, patience: Duration) -> io::Result<Option<ExitStatus>> {
    let begin = Instant::now();
    loop {
        if let Some(status) = child.try_wait()? {
            return Ok(Some(status));
        }
        if begin.elapsed() > patience {
            child.kill()?;
            child.wait()?;
            return Ok(None);
        }
        sleep(PAUSE);
    }
}
