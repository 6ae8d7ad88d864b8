//! Runs of a program with words and a log, in a folder of their own, held to what it has to write and end with.

use std::fs::{self, File};
use std::path::PathBuf;
use std::process::Stdio;

use crate::compare::hex;
use crate::ended::{differs, Ended};
use crate::program::{Feed, Program};

/// What the program has for its standard input.
pub enum Input<'a> {
    Nothing,
    Log(&'a [u8], Feed),
    Open(File),
}

/// A folder of temporary files, which goes with it.
pub struct Folder(pub PathBuf);

impl Drop for Folder {
    fn drop(&mut self) {
        let _ = fs::remove_dir_all(&self.0);
    }
}

pub struct Runner {
    program: Program,
    pub folder: Folder,
}

impl Runner {
    /// With a new folder of that name and the process's number.
    pub fn new(path: &str, folder: &str) -> Result<Runner, String> {
        let folder = std::env::temp_dir().join(format!("{folder} {}", std::process::id()));
        fs::create_dir(&folder).map_err(|error| format!("{}: {error}", folder.display()))?;
        Ok(Runner { program: Program::new(path, &[]), folder: Folder(folder) })
    }

    /// A file in the folder with such contents; its name.
    pub fn file(&self, name: &str, log: &[u8]) -> Result<String, String> {
        let path = self.folder.0.join(name);
        fs::write(&path, log).map_err(|error| format!("{}: {error}", path.display()))?;
        Ok(path.to_string_lossy().into_owned())
    }

    /// The program does what is expected with such words and standard input; `log` is told where not.
    pub fn expect(&self, words: &[&str], input: Input, log: &[u8], expected: &Ended) -> Result<(), String> {
        self.expect_into(Stdio::piped(), words, input, log, expected)
    }

    pub fn expect_into(
        &self,
        output: Stdio,
        words: &[&str],
        input: Input,
        log: &[u8],
        expected: &Ended,
    ) -> Result<(), String> {
        let told = |what: String| format!("words {words:?}\nlog {}\n{what}", shown(log));
        let ended = self.ended(output, words, input).map_err(told)?;
        differs(expected, &ended).map_or(Ok(()), |what| Err(told(what)))
    }

    /// The same with no input, whatever the exit status.
    pub fn expect_but_for_status(&self, words: &[&str], expected: &Ended) -> Result<(), String> {
        let ended = self.ended(Stdio::piped(), words, Input::Nothing)?;
        let expected = Ended { status: ended.status, ..expected.clone() };
        differs(&expected, &ended).map_or(Ok(()), |what| Err(format!("words {words:?}\n{what}")))
    }

    fn ended(&self, output: Stdio, words: &[&str], input: Input) -> Result<Ended, String> {
        let mut command = self.program.command(words);
        command.stdout(output).stderr(Stdio::piped());
        let (stdin, fed, feed) = match input {
            Input::Nothing => (Stdio::null(), [].as_slice(), Feed::Whole),
            Input::Log(log, feed) => (Stdio::piped(), log, feed),
            Input::Open(file) => (Stdio::from(file), [].as_slice(), Feed::Whole),
        };
        command.stdin(stdin);
        self.program.run(command, fed, feed)
    }
}

/// A log in hex as far as a line holds it.
fn shown(log: &[u8]) -> String {
    const MOST: usize = 4_096;
    match log.get(..MOST) {
        Some(front) => format!("{}.. ({} octets)", hex(front), log.len()),
        None => hex(log),
    }
}
