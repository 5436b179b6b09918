//! Seconds on standard error while a call takes long.

use std::io::{self, IsTerminal, Write};
use std::sync::mpsc::{self, Receiver, RecvTimeoutError};
use std::thread;
use std::time::{Duration, Instant};

/// Makes the call. From the first second on, the seconds gone are shown on
/// standard error, if that is a terminal.
pub fn during<T>(call: impl FnOnce() -> T) -> T {
    if !io::stderr().is_terminal() {
        return call();
    }
    let (running, ended) = mpsc::channel();
    let counter = thread::spawn(move || count(&ended));
    let answer = call();
    drop(running);
    let _ = counter.join();
    answer
}

/// Counts until the other side is dropped.
fn count(ended: &Receiver<()>) {
    let began = Instant::now();
    let mut shown = false;
    while ended.recv_timeout(Duration::from_secs(1)) == Err(RecvTimeoutError::Timeout) {
        let _ = write!(io::stderr(), "\r{} s", began.elapsed().as_secs());
        shown = true;
    }
    if shown {
        let _ = writeln!(io::stderr());
    }
}
