//! A time limit for what must end.

use std::any::Any;
use std::panic::{self, AssertUnwindSafe};
use std::sync::mpsc::{RecvTimeoutError, channel};
use std::thread;
use std::time::Duration;

/// How long a test's calls may take together.
const LIMIT: Duration = Duration::from_secs(300);

/// Runs this in a thread of its own, and fails where it isn't done in time.
pub fn in_time(run: impl FnOnce() + Send + 'static) {
    let (sender, receiver) = channel();
    let running = thread::spawn(move || {
        run();
        let _ = sender.send(());
    });
    match receiver.recv_timeout(LIMIT) {
        Err(RecvTimeoutError::Timeout) => panic!("not done after {LIMIT:?}"),
        Ok(()) | Err(RecvTimeoutError::Disconnected) => {
            if let Err(reason) = running.join() {
                panic::resume_unwind(reason);
            }
        }
    }
}

/// What a call returns, or why it panics.
pub fn caught<R>(call: impl FnOnce() -> R) -> Result<R, Box<dyn Any + Send>> {
    panic::catch_unwind(AssertUnwindSafe(call))
}
