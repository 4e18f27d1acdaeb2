//! The lock of a tokentree node, for Rust with nothing but std.
//!
//!     let mut lock = Lock::acquire("/tmp/nodes/desk-1.sock", Duration::from_secs(5))?;
//!     // You hold the lock. Ask lock.is_lost(Duration::ZERO) now and then.
//!     lock.release()?;    // an error if it was lost meanwhile; dropping the lock releases it too
//!
//! As a program it holds the lock until standard input ends: rustc tokentree_lock.rs && ./tokentree_lock SOCKET SECONDS
use std::io::{self, BufRead, BufReader, Error, ErrorKind, Read, Write};
use std::os::unix::net::UnixStream;
use std::process::ExitCode;
use std::sync::mpsc::{self, Receiver, RecvTimeoutError};
use std::thread;
use std::time::Duration;

/// A lock that is held. Each line of the node comes through the channel, which is closed when the connection has ended.
pub struct Lock {
    desk: UnixStream,
    lines: Receiver<String>,
    lost: bool,
}

impl Lock {
    /// Waits for the lock for up to `limit`. The error is `TimedOut` if it was not granted in time, another one if the node is
    /// not there or has no room.
    pub fn acquire(path: &str, limit: Duration) -> io::Result<Lock> {
        let mut desk = UnixStream::connect(path)?;
        let reader = BufReader::new(desk.try_clone()?);
        let (line, lines) = mpsc::channel();
        thread::spawn(move || reader.lines().map_while(Result::ok).try_for_each(|read| line.send(read)));
        desk.write_all(b"lock\n")?;
        match lines.recv_timeout(limit) {
            Ok(word) if word == "granted" => Ok(Lock { desk, lines, lost: false }),
            Ok(word) => Err(Error::other(word)),
            Err(RecvTimeoutError::Timeout) => Err(ErrorKind::TimedOut.into()),
            Err(RecvTimeoutError::Disconnected) => Err(ErrorKind::UnexpectedEof.into()),
        }
    }

    /// Whether the node has ended the hold or is gone; waits up to `wait` for that.
    pub fn is_lost(&mut self, wait: Duration) -> bool {
        self.lost = self.lost || !matches!(self.lines.recv_timeout(wait), Err(RecvTimeoutError::Timeout));
        self.lost
    }

    /// Releases the lock. The error says that it was lost before.
    pub fn release(mut self) -> io::Result<()> {
        self.desk.write_all(b"unlock\n")?;
        match self.lines.recv_timeout(Duration::from_secs(10)) {
            Ok(word) if word == "released" && !self.lost => Ok(()),
            _ => Err(Error::other("the lock was lost")),
        }
    }
}

impl Drop for Lock {
    fn drop(&mut self) {
        let _ = self.desk.shutdown(std::net::Shutdown::Both);
    }
}

fn hold(socket: &str, seconds: &str) -> io::Result<bool> {
    let mut lock = Lock::acquire(socket, Duration::from_secs(seconds.parse().map_err(Error::other)?))?;
    println!("granted");
    let input = thread::spawn(|| io::stdin().read_to_end(&mut Vec::new()));
    while !input.is_finished() && !lock.is_lost(Duration::from_millis(20)) {}
    Ok(lock.release().is_ok())
}

fn main() -> ExitCode {
    let words: Vec<String> = std::env::args().collect();
    let (word, status) = match hold(&words[1], &words[2]) {
        Ok(true) => ("released".to_owned(), 0),
        Ok(false) => ("lost".to_owned(), 122),
        Err(fault) => (fault.to_string(), if fault.kind() == ErrorKind::TimedOut { 124 } else { 125 }),
    };
    println!("{word}");
    ExitCode::from(status)
}
