//! A sign of life while something takes long.

use std::sync::atomic::{AtomicUsize, Ordering};
use std::sync::mpsc::{self, Receiver, RecvTimeoutError};
use std::thread;
use std::time::Duration;

use indicatif::{ProgressBar, ProgressStyle};

/// What is over sooner needs no sign of life.
const MOMENT: Duration = Duration::from_millis(500);
const TICK: Duration = Duration::from_millis(100);

/// Does the work, and meanwhile shows on standard error what it is and how long it has taken: if
/// that is a terminal, and the work takes longer than a moment. What was shown is gone afterwards.
pub fn while_shown<T>(what: &str, work: impl FnOnce() -> T) -> T {
    while_drawn(|| spinner(what), |_| work())
}

/// The same for work on many things, with a bar of how many are done. The work says so.
pub fn while_counted<T>(what: &str, many: usize, work: impl FnOnce(&Done) -> T) -> T {
    while_drawn(|| bar(what, many), work)
}

/// How many things are done.
#[derive(Default)]
pub struct Done(AtomicUsize);

impl Done {
    /// One more is.
    pub fn one_more(&self) {
        self.0.fetch_add(1, Ordering::Relaxed);
    }
}

fn while_drawn<T>(sign: impl FnOnce() -> ProgressBar + Send, work: impl FnOnce(&Done) -> T) -> T {
    let done = Done::default();
    thread::scope(|scope| {
        // what the thread waits for comes when the sender is dropped, also by a panic
        let (end, waiting) = mpsc::channel();
        let shown = &done;
        // with no thread to show it the work is done all the same
        let _ = thread::Builder::new().spawn_scoped(scope, move || show(sign, shown, &waiting));
        let result = work(&done);
        drop(end);
        result
    })
}

fn show(sign: impl FnOnce() -> ProgressBar, done: &Done, waiting: &Receiver<()>) {
    let goes_on_after =
        |time: Duration| waiting.recv_timeout(time) == Err(RecvTimeoutError::Timeout);
    if !goes_on_after(MOMENT) {
        return;
    }
    // draws on standard error, and nothing at all if that is no terminal
    let sign = sign();
    while goes_on_after(TICK) {
        sign.set_position(done.0.load(Ordering::Relaxed) as u64);
        sign.tick();
    }
    sign.finish_and_clear();
}

fn spinner(what: &str) -> ProgressBar {
    styled(
        ProgressBar::new_spinner(),
        what,
        "{spinner} {msg} ({elapsed})",
    )
}

fn bar(what: &str, many: usize) -> ProgressBar {
    let template = "{spinner} {msg} [{bar:30}] {pos}/{len} ({elapsed})";
    styled(ProgressBar::new(many as u64), what, template)
}

fn styled(sign: ProgressBar, what: &str, template: &str) -> ProgressBar {
    if let Ok(style) = ProgressStyle::with_template(template) {
        sign.set_style(style);
    }
    sign.with_message(what.to_owned()).with_elapsed(MOMENT)
}
