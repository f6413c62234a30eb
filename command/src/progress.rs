//! A word on standard error where a run takes over a second and somebody looks at it.
use std::io::{self, IsTerminal, Write};
use std::sync::mpsc::{Receiver, RecvTimeoutError, channel};
use std::thread;
use std::time::Duration;

/// Does the work, and tells every second that it still goes on, the reading of files and the searches in it alike.
pub fn during<T>(what: &str, work: impl FnOnce() -> T) -> T {
    if !io::stderr().is_terminal() {
        return work();
    }
    thread::scope(|scope| {
        let (done, waits) = channel::<()>();
        scope.spawn(move || tell(what, &waits, Duration::from_secs(1), &mut io::stderr()));
        let result = work();
        drop(done);
        result
    })
}

/// Tells until the other end is gone, and clears its line then. What cannot be written is not missed.
fn tell(what: &str, waits: &Receiver<()>, interval: Duration, out: &mut dyn Write) {
    let mut told = 0;
    while waits.recv_timeout(interval) == Err(RecvTimeoutError::Timeout) {
        told += 1;
        let _ = write!(out, "\rkelumavor: {what}, {} s", told * interval.as_millis() / 1000);
    }
    if told > 0 {
        let _ = write!(out, "\r\x1b[K");
    }
}

#[cfg(test)]
mod tests {
    use super::*;

    #[test]
    fn short_work_says_nothing() {
        let (done, waits) = channel();
        drop(done);
        let mut out = Vec::new();
        tell("searching", &waits, Duration::from_secs(9), &mut out);
        assert!(out.is_empty());
        assert_eq!(during("searching", || 7), 7);
    }

    #[test]
    fn long_work_is_told_and_cleared() {
        let (done, waits) = channel::<()>();
        let teller = thread::spawn(move || {
            let mut out = Vec::new();
            tell("searching", &waits, Duration::from_millis(2), &mut out);
            out
        });
        thread::sleep(Duration::from_millis(200));
        drop(done);
        let out = String::from_utf8(teller.join().unwrap()).unwrap();
        assert!(out.starts_with("\rkelumavor: searching, 0 s") && out.ends_with("\r\x1b[K"), "{out:?}");
    }
}
