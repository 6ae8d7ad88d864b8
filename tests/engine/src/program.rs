//! Running another program: the log on its standard input, the text from its output.

use std::io::{ErrorKind, Read, Write};
use std::process::{Child, ChildStdin, Command, ExitStatus, Stdio};
use std::sync::{Arc, Mutex};
use std::thread;
use std::time::{Duration, Instant};

use crate::ended::Ended;

/// How a log is fed.
#[derive(Clone, Copy)]
pub enum Feed {
    Whole,
    /// Parts of so many octets with a pause after each, so that they arrive as parts.
    Parts(usize),
}

pub struct Program {
    path: String,
    arguments: Vec<String>,
    running: Arc<Mutex<Option<(Child, Instant)>>>,
}

impl Program {
    pub fn new(path: &str, arguments: &[&str]) -> Program {
        let running = Arc::new(Mutex::new(None));
        let watched = Arc::clone(&running);
        thread::spawn(move || stop_late_runs(&watched));
        Program {
            path: path.to_string(),
            arguments: arguments.iter().map(|text| text.to_string()).collect(),
            running,
        }
    }

    /// Plays a log; what is written on standard error is not looked at, nor the exit status.
    pub fn play(&self, log: &[u8], feed: Feed) -> Result<Vec<u8>, String> {
        let mut command = self.command(&[]);
        command.stdin(Stdio::piped()).stdout(Stdio::piped()).stderr(Stdio::null());
        self.run(command, log, feed).map(|ended| ended.output)
    }

    /// The program with its arguments and further ones.
    pub fn command(&self, further: &[&str]) -> Command {
        let mut command = Command::new(&self.path);
        command.args(&self.arguments).args(further);
        command
    }

    /// Runs a command with a log for its standard input, if that is a pipe. Writing and reading go on
    /// side by side, so no pipe can fill up for good.
    pub fn run(&self, mut command: Command, log: &[u8], feed: Feed) -> Result<Ended, String> {
        let mut child = command.spawn().map_err(|error| format!("{} does not start: {error}", self.path))?;
        let (input, output, errors) = (child.stdin.take(), child.stdout.take(), child.stderr.take());
        *self.running.lock().unwrap() = Some((child, Instant::now() + allowance(log)));
        let (written, read) = thread::scope(|scope| {
            let writer = scope.spawn(|| input.map_or(Ok(()), |input| write_log(input, log, feed)));
            let errors = scope.spawn(|| all(errors));
            let output = all(output);
            (writer.join(), output.and_then(|output| Some((output, errors.join().ok()??))))
        });
        match (written, read, self.end()) {
            (Ok(Ok(())), Some((output, errors)), Some(status)) => match status.code() {
                Some(status) => Ok(Ended { output, errors, status }),
                None => Err(format!("{} ended badly: {status}", self.path)),
            },
            _ => Err(format!("{}: pipe trouble", self.path)),
        }
    }

    /// Waits for the end, leaving the lock free in between for stopping a late run.
    fn end(&self) -> Option<ExitStatus> {
        loop {
            let mut running = self.running.lock().unwrap();
            match running.as_mut().map(|(child, _)| child.try_wait()) {
                Some(Ok(None)) => {}
                ended => {
                    *running = None;
                    return ended?.ok()?;
                }
            }
            drop(running);
            thread::sleep(Duration::from_micros(50));
        }
    }
}

/// All that comes by a pipe, if there is one.
fn all(pipe: Option<impl Read>) -> Option<Vec<u8>> {
    let mut octets = Vec::new();
    pipe.map_or(Ok(0), |mut pipe| pipe.read_to_end(&mut octets)).ok()?;
    Some(octets)
}

/// Far more time than any sensible player needs.
fn allowance(log: &[u8]) -> Duration {
    Duration::from_secs(60 + log.len() as u64 / 100_000)
}

/// A run that does not come to its end is stopped, which ends the comparison.
fn stop_late_runs(running: &Mutex<Option<(Child, Instant)>>) {
    loop {
        thread::sleep(Duration::from_millis(500));
        if let Some((child, deadline)) = running.lock().unwrap().as_mut() {
            if Instant::now() > *deadline {
                let _ = child.kill();
            }
        }
    }
}

/// A player may stop reading early, at a cut record or an unknown kind: that is no fault.
fn write_log(mut input: ChildStdin, log: &[u8], feed: Feed) -> std::io::Result<()> {
    let written = match feed {
        Feed::Whole => input.write_all(log),
        Feed::Parts(size) => log.chunks(size).try_for_each(|part| {
            thread::sleep(Duration::from_micros(20));
            input.write_all(part)
        }),
    };
    match written {
        Err(error) if error.kind() == ErrorKind::BrokenPipe => Ok(()),
        other => other,
    }
}
