//! How far the work is: blocks or layers done and vertices so far, on a terminal alone, once it has taken a second.

use std::io::{self, IsTerminal, Write};
use std::sync::mpsc::{Receiver, RecvTimeoutError};
use std::time::{Duration, Instant};

const QUIET: Duration = Duration::from_secs(1);
const BETWEEN: Duration = Duration::from_millis(200);

/// The steps of a work.
pub struct Steps {
    pub count: u64,
    /// Their name in words.
    pub name: &'static str,
}

/// Shows what the workers report, the new vertices of a step each time, until all of them are done. They began at `start`.
pub fn show(reports: Receiver<u64>, steps: Steps, start: Instant) {
    let Steps { count, name } = steps;
    let terminal = io::stderr().is_terminal();
    let (mut done, mut vertices, mut shown) = (0, 0, None::<Instant>);
    loop {
        match reports.recv_timeout(BETWEEN) {
            Ok(of_a_step) => {
                done += 1;
                vertices += of_a_step;
            }
            Err(RecvTimeoutError::Timeout) => {}
            Err(RecvTimeoutError::Disconnected) => break,
        }
        let due = shown.is_none_or(|last| last.elapsed() >= BETWEEN);
        if terminal && start.elapsed() >= QUIET && due {
            line(&format!("\r{done} of {count} {name}, {vertices} vertices"));
            shown = Some(Instant::now());
        }
    }
    if shown.is_some() {
        line("\r\x1b[K");
    }
}

fn line(text: &str) {
    let mut out = io::stderr();
    let _ = out.write_all(text.as_bytes()).and_then(|()| out.flush());
}
