//! What the programs share: commands with `--help` for each, standard input and output, messages and exit status.

use std::fs::{self, File};
use std::io::{self, Read, Write};
use std::process::ExitCode;

/// The exit status where a command could not be carried out: a command line that isn't one, a read or write that failed.
pub const NOT_DONE: u8 = 1;

pub struct Program {
    pub name: &'static str,
    /// What it is for, and what its exit status says.
    pub about: &'static str,
    pub commands: &'static [Command],
}

pub struct Command {
    pub name: &'static str,
    /// What follows the name on a command line.
    pub words: &'static str,
    /// A line for the list of all commands.
    pub about: &'static str,
    /// What there is to say besides.
    pub more: &'static str,
    pub run: fn(&[&str]) -> Done,
}

/// How a command ends, if it doesn't just end well.
#[derive(Debug)]
pub enum Ended {
    /// The words after its name are not what it takes.
    Words,
    /// With this exit status; what there was to say has been said.
    Status(u8),
}

pub type Done = Result<(), Ended>;

impl Program {
    /// Does what the command line says.
    pub fn main(&self) -> ExitCode {
        let words: Vec<String> = std::env::args().skip(1).collect();
        let words: Vec<&str> = words.iter().map(String::as_str).collect();
        match self.answer(&words) {
            Ok(()) => ExitCode::SUCCESS,
            Err(status) => ExitCode::from(status),
        }
    }

    fn answer(&self, words: &[&str]) -> Result<(), u8> {
        let is_help = |word: &&str| ["--help", "-h"].contains(word);
        let (name, rest) = match words {
            [] => return Err(self.refuse(&self.help())),
            ["help"] => return self.end(output(self.help().as_bytes()), None),
            [word] if is_help(word) => return self.end(output(self.help().as_bytes()), None),
            ["help", name] => (*name, &["--help"][..]),
            [name, rest @ ..] => (*name, rest),
        };
        let Some(command) = self.commands.iter().find(|command| command.name == name) else {
            return Err(self.refuse(&format!("{}: no command '{name}'\n\n{}", self.name, self.help())));
        };
        if rest.iter().any(is_help) {
            return self.end(output(self.help_of(command).as_bytes()), Some(command));
        }
        self.end((command.run)(rest), Some(command))
    }

    fn end(&self, done: Done, command: Option<&Command>) -> Result<(), u8> {
        done.map_err(|ended| match (ended, command) {
            (Ended::Status(status), _) => status,
            (Ended::Words, Some(command)) => self.refuse(&self.help_of(command)),
            (Ended::Words, None) => self.refuse(&self.help()),
        })
    }

    fn refuse(&self, message: &str) -> u8 {
        eprint!("{message}");
        NOT_DONE
    }

    fn help(&self) -> String {
        let usages: Vec<String> = self.commands.iter().map(|command| self.usage(command)).collect();
        let width = usages.iter().map(String::len).max().unwrap_or(0);
        let line = |(usage, command): (&String, &Command)| format!("  {usage:width$}  {}\n", command.about);
        let lines: String = usages.iter().zip(self.commands).map(line).collect();
        format!("{}\n\n{lines}\n'{} COMMAND --help' says more of a command.\n", self.about, self.name)
    }

    fn help_of(&self, command: &Command) -> String {
        let more = if command.more.is_empty() { String::new() } else { format!("\n{}\n", command.more) };
        format!("usage: {}\n\n{}\n{more}", self.usage(command), command.about)
    }

    fn usage(&self, command: &Command) -> String {
        format!("{} {} {}", self.name, command.name, command.words).trim_end().to_string()
    }
}

/// The bytes of the file that the words name, or of standard input where they name none.
pub fn input(words: &[&str]) -> Result<Vec<u8>, Ended> {
    match words {
        [] => standard_input(),
        [path] if !path.starts_with('-') => file(path),
        _ => Err(Ended::Words),
    }
}

pub fn standard_input() -> Result<Vec<u8>, Ended> {
    let mut bytes = Vec::new();
    match io::stdin().lock().read_to_end(&mut bytes) {
        Ok(_) => Ok(bytes),
        Err(error) => Err(ended(NOT_DONE, &format!("cannot read: {error}\n"))),
    }
}

pub fn file(path: &str) -> Result<Vec<u8>, Ended> {
    fs::read(path).map_err(|error| not_read(path, error))
}

/// The same where a file that can't be opened counts as empty. One that can be opened and not read, as a folder, does not.
pub fn file_or_empty(path: &str) -> Result<Vec<u8>, Ended> {
    let mut bytes = Vec::new();
    if let Ok(mut file) = File::open(path) {
        file.read_to_end(&mut bytes).map_err(|error| not_read(path, error))?;
    }
    Ok(bytes)
}

fn not_read(path: &str, error: io::Error) -> Ended {
    ended(NOT_DONE, &format!("cannot read {path}: {error}\n"))
}

pub fn output(bytes: &[u8]) -> Done {
    let mut out = io::stdout().lock();
    out.write_all(bytes).and_then(|()| out.flush()).map_err(not_written)
}

/// What a failed write is told as; nothing where nobody reads any more, as after `| head`.
pub fn not_written(error: io::Error) -> Ended {
    if error.kind() == io::ErrorKind::BrokenPipe {
        return Ended::Status(NOT_DONE);
    }
    ended(NOT_DONE, &format!("cannot write: {error}\n"))
}

/// The end with this status, after a message on standard error.
pub fn ended(status: u8, message: &str) -> Ended {
    eprint!("{message}");
    Ended::Status(status)
}
