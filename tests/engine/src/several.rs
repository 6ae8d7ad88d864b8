//! Running a program on many logs, some at once, while the next are made.

use std::sync::mpsc::{sync_channel, Receiver, SyncSender};
use std::sync::Mutex;
use std::thread;

use crate::compare::same;
use crate::program::{Feed, Program};

const AT_ONCE: usize = 4;

/// Two logs, each with the text that is due.
type Pair = [(Vec<u8>, Vec<u8>); 2];

pub struct Several<'a> {
    pairs: SyncSender<(usize, Pair)>,
    taken: usize,
    worst: &'a Worst,
}

/// The first pair, by its number, on which the program differs, and how.
type Worst = Mutex<Option<(usize, String)>>;

impl Several<'_> {
    /// Has the pairs made and the program run on them. The first difference by number is told, whichever came
    /// first: all pairs in front of it were taken before.
    pub fn run(path: &str, make: impl FnOnce(&mut Several) -> Result<(), String>) -> Result<(), String> {
        let (pairs, taken) = sync_channel(AT_ONCE);
        let (taken, worst) = (Mutex::new(taken), Worst::default());
        let made = thread::scope(|scope| {
            for _ in 0..AT_ONCE {
                scope.spawn(|| compared(&Program::new(path, &[]), &taken, &worst));
            }
            make(&mut Several { pairs, taken: 0, worst: &worst })
        });
        match worst.into_inner() {
            Ok(None) => made,
            Ok(Some((_, what))) => Err(what),
            Err(_) => Err("the comparison broke off".to_string()),
        }
    }

    /// Whether there is need of more.
    pub fn take(&mut self, pair: Pair) -> bool {
        self.taken += 1;
        let sent = self.pairs.send((self.taken, pair));
        sent.is_ok() && self.worst.lock().is_ok_and(|worst| worst.is_none())
    }
}

/// Until no more are made.
fn compared(program: &Program, pairs: &Mutex<Receiver<(usize, Pair)>>, worst: &Worst) {
    let next = || pairs.lock().ok()?.recv().ok();
    while let Some((number, pair)) = next() {
        let done = pair.iter().try_for_each(|(log, text)| same(program, log, Feed::Whole, text));
        let (Err(what), Ok(mut worst)) = (done, worst.lock()) else { continue };
        if worst.as_ref().is_none_or(|(before, _)| number < *before) {
            *worst = Some((number, what));
        }
    }
}
