//! Steps that must end.

use std::fmt::{self, Display, Formatter};
use std::panic::resume_unwind;
use std::sync::mpsc::{channel, RecvTimeoutError};
use std::sync::{Arc, Mutex};
use std::thread::spawn;
use std::time::Duration;

/// How often the steps are looked at: one that is the same twice takes too long.
const LIMIT: Duration = Duration::from_secs(10);

/// A step of a test, by its seed and its number from 0.
#[derive(Clone, Copy, Default)]
pub struct Step {
    pub seed: u64,
    pub number: usize,
}

impl Display for Step {
    fn fmt(&self, to: &mut Formatter) -> fmt::Result {
        write!(to, "seed {}, step {}", self.seed, self.number)
    }
}

/// The step that a test has begun, and how many before it.
#[derive(Default)]
pub struct Steps(Mutex<(usize, Step)>);

impl Steps {
    /// Says that this step begins.
    pub fn begin(&self, step: Step) {
        let mut last = self.0.lock().expect("no thread fails here");
        *last = (last.0 + 1, step);
    }

    fn last(&self) -> (usize, Step) {
        *self.0.lock().expect("no thread fails here")
    }
}

/// Runs a test that says which step it begins; fails with that step where one does
/// not end.
pub fn each_step_ends(test: impl FnOnce(&Steps) + Send + 'static) {
    let steps = Arc::new(Steps::default());
    let own = Arc::clone(&steps);
    let (running, ended) = channel::<()>();
    let thread = spawn(move || {
        let _running = running;
        test(&own);
    });
    let mut before = steps.last().0;
    while ended.recv_timeout(LIMIT) == Err(RecvTimeoutError::Timeout) {
        let (count, step) = steps.last();
        assert_ne!(count, before, "does not end: {step}");
        before = count;
    }
    if let Err(failure) = thread.join() {
        resume_unwind(failure);
    }
}
