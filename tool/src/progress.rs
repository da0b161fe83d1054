//! A word on standard error about work that takes over a second.

use std::sync::mpsc::{channel, RecvTimeoutError, Sender};
use std::thread::{self, JoinHandle};
use std::time::{Duration, Instant};

use crate::failure::say;

/// After so long the work is told, and then again after each further `AGAIN`.
const SILENT: Duration = Duration::from_secs(1);
const AGAIN: Duration = Duration::from_secs(5);

/// Work under way; told from its first second on until this is dropped.
pub struct Progress {
    done: Option<Sender<()>>,
    teller: Option<JoinHandle<()>>,
}

impl Progress {
    pub fn begin(work: &'static str) -> Progress {
        Progress::telling(SILENT, AGAIN, move |time| say(&format!("lawhemuri: {work}, {} s …\n", time.as_secs())))
    }

    fn telling(silent: Duration, again: Duration, tell: impl Fn(Duration) + Send + 'static) -> Progress {
        let (done, finished) = channel::<()>();
        let teller = move || {
            let (begun, mut wait) = (Instant::now(), silent);
            while finished.recv_timeout(wait) == Err(RecvTimeoutError::Timeout) {
                tell(begun.elapsed());
                wait = again;
            }
        };
        // Without a thread the work goes on untold.
        Progress { done: Some(done), teller: thread::Builder::new().spawn(teller).ok() }
    }
}

impl Drop for Progress {
    fn drop(&mut self) {
        self.done = None;
        if let Some(teller) = self.teller.take() {
            let _ = teller.join();
        }
    }
}

#[cfg(test)]
mod tests {
    use super::*;

    #[test]
    fn long_work_is_told_and_short_work_is_not() {
        let (told, heard) = channel();
        let telling = |silent| {
            let told = told.clone();
            Progress::telling(silent, Duration::from_millis(1), move |_| told.send(()).unwrap())
        };
        drop(telling(Duration::from_secs(600)));
        assert!(heard.try_recv().is_err());
        let progress = telling(Duration::from_millis(1));
        heard.recv().unwrap();
        heard.recv().unwrap();
        drop(progress);
    }
}
