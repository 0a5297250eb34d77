//! Progress: what takes over a second is told on standard error, where that is a terminal. It is one line, drawn again in its place, and
//! gone when something else is told.

use std::env;
use std::io::{self, IsTerminal, Write};
use std::sync::{Arc, Condvar, Mutex, MutexGuard, PoisonError};
use std::thread::{self, JoinHandle};
use std::time::{Duration, Instant};

/// When the line first comes, and how often it is drawn again.
const FIRST: Duration = Duration::from_secs(1);
const AGAIN: Duration = Duration::from_millis(500);

/// Begins the line anew, and erases what stands behind it.
const BEGIN: &str = "\r";
const ERASE: &str = "\x1B[K";
/// A line that is too long for the terminal is cut off there and goes on in no other line.
const CUT: &str = "\x1B[?7l";
const UNCUT: &str = "\x1B[?7h";

#[derive(Default)]
struct State {
    over: bool,
    /// Whether the line stands on the terminal.
    drawn: bool,
    /// Whether nothing is drawn any more.
    hushed: bool,
    what: String,
    done: u64,
    total: Option<u64>,
    unit: &'static str,
}

impl State {
    fn erase(&mut self) {
        if std::mem::take(&mut self.drawn) {
            write(&format!("{BEGIN}{ERASE}"));
        }
    }
}

/// In one piece, so that nothing comes between.
fn write(text: &str) {
    let _ = io::stderr().write_all(text.as_bytes());
}

#[derive(Default)]
struct Shared {
    state: Mutex<State>,
    wake: Condvar,
}

impl Shared {
    fn lock(&self) -> MutexGuard<'_, State> {
        self.state.lock().unwrap_or_else(PoisonError::into_inner)
    }
}

/// Watches a command.
pub struct Watch {
    shared: Arc<Shared>,
    thread: Option<JoinHandle<()>>,
}

impl Watch {
    pub fn start() -> Watch {
        let shared = Arc::new(Shared::default());
        let theirs = Arc::clone(&shared);
        let draws =
            io::stderr().is_terminal() && env::var_os("TERM").is_some_and(|name| !name.is_empty() && name != "dumb");
        // Without a thread there is no progress, and all else works.
        let thread = draws.then(|| thread::Builder::new().spawn(move || draw(&theirs)).ok()).flatten();
        Watch { shared, thread }
    }

    /// Watches a part of a command that is told as a whole.
    pub fn silent() -> Watch {
        Watch { shared: Arc::default(), thread: None }
    }

    /// Begins a step of so many units; of one that is not known beforehand the count so far is told.
    pub fn step(&self, what: impl Into<String>, total: Option<u64>, unit: &'static str) {
        let mut state = self.shared.lock();
        (state.what, state.done, state.total, state.unit) = (what.into(), 0, total, unit);
    }

    /// Begins a step that is not counted.
    pub fn doing(&self, what: impl Into<String>) {
        self.step(what, None, "");
    }

    /// How far the step is.
    pub fn done(&self, done: u64) {
        self.shared.lock().done = done;
    }

    /// From now on the terminal belongs to somebody else: to what is printed, or to whoever reads that.
    pub fn hush(&self) {
        let mut state = self.shared.lock();
        state.erase();
        state.hushed = true;
    }
}

impl Drop for Watch {
    fn drop(&mut self) {
        let mut state = self.shared.lock();
        state.erase();
        state.over = true;
        drop(state);
        self.shared.wake.notify_all();
        if let Some(thread) = self.thread.take() {
            let _ = thread.join();
        }
    }
}

fn draw(shared: &Shared) {
    let mut next = Instant::now() + FIRST;
    let mut state = shared.lock();
    while !state.over && !state.hushed {
        let now = Instant::now();
        if now < next {
            state = shared.wake.wait_timeout(state, next - now).unwrap_or_else(PoisonError::into_inner).0;
            continue;
        }
        write(&format!("{BEGIN}{CUT}durpaxeta: {}{ERASE}{UNCUT}", text(&state)));
        state.drawn = true;
        next = now + AGAIN;
    }
}

fn text(state: &State) -> String {
    let State { what, done, total, unit, .. } = state;
    match total {
        Some(total) => format!("{what}: {done} of {total} {unit}"),
        None if unit.is_empty() => what.clone(),
        None => format!("{what}: {done} {unit} so far"),
    }
}

#[cfg(test)]
mod tests {
    use super::*;

    #[test]
    fn words() {
        let watch = Watch::start();
        watch.step("reading a.bin", Some(9), "bytes");
        watch.done(5);
        let mut state = watch.shared.lock();
        assert_eq!(text(&state), "reading a.bin: 5 of 9 bytes");
        state.total = None;
        assert_eq!(text(&state), "reading a.bin: 5 bytes so far");
        drop(state);
        watch.doing("decoding a.bin");
        assert_eq!(text(&watch.shared.lock()), "decoding a.bin");
    }
}
