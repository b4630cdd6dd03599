//! A line on standard error for what takes over a second, at a terminal only.
use std::io::{self, IsTerminal, Write};
use std::sync::atomic::{AtomicU64, Ordering};
use std::sync::mpsc::{self, RecvTimeoutError, Sender};
use std::sync::Arc;
use std::thread::JoinHandle;
use std::time::Duration;

/// Says how far a command has come, while it lives.
pub struct Progress {
    done: Arc<AtomicU64>,
    clock: Option<(Sender<()>, JoinHandle<()>)>,
}

impl Progress {
    /// Of so many records. It keeps quiet where standard error is no terminal, and where standard output is one: there the lines themselves move.
    pub fn of(doing: &'static str, total: u64) -> Progress {
        let done = Arc::new(AtomicU64::new(0));
        let spoken = io::stderr().is_terminal() && !io::stdout().is_terminal();
        let clock = spoken.then(|| {
            let (stop, stopped) = mpsc::channel();
            let seen = done.clone();
            let watch = move || {
                let mut wait = Duration::from_secs(1);
                while let Err(RecvTimeoutError::Timeout) = stopped.recv_timeout(wait) {
                    wait = Duration::from_millis(200);
                    let _ = match seen.load(Ordering::Relaxed) {
                        0 => write!(io::stderr(), "\r{doing}, {total} records"),
                        n => write!(io::stderr(), "\r{doing}, {n} of {total} records"),
                    };
                }
                if wait < Duration::from_secs(1) {
                    let _ = write!(io::stderr(), "\r\x1b[K");
                }
            };
            // where the system gives no thread, nothing is said
            let thread = std::thread::Builder::new().spawn(watch);
            thread.ok().map(|thread| (stop, thread))
        });
        Progress { done, clock: clock.flatten() }
    }

    /// One more record is done.
    pub fn step(&self) {
        self.done.fetch_add(1, Ordering::Relaxed);
    }
}

impl Drop for Progress {
    fn drop(&mut self) {
        if let Some((stop, thread)) = self.clock.take() {
            drop(stop);
            let _ = thread.join();
        }
    }
}
