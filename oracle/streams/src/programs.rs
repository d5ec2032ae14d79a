//! A program that is fed through a pipe, and what it writes.

use std::fs::File;
use std::io::{ErrorKind, Read, Write};
use std::os::fd::OwnedFd;
use std::os::unix::net::UnixDatagram;
use std::path::Path;
use std::process::{Child, Command, Stdio};
use std::sync::mpsc;
use std::time::{Duration, Instant};

use random::Random;

pub struct Program(String);

/// Nothing here takes that long.
const PATIENCE: Duration = Duration::from_secs(20);

impl Program {
    pub fn at(path: &str) -> Self {
        Program(path.to_string())
    }

    pub fn name(&self) -> &str {
        &self.0
    }

    fn start(&self) -> Result<Child, String> {
        Command::new(&self.0)
            .stdin(Stdio::piped())
            .stdout(Stdio::piped())
            .spawn()
            .map_err(|error| format!("{}: {error}", self.0))
    }

    /// What it writes for this input, fed in odd pieces.
    pub fn answer(&self, random: &mut Random, input: &[u8]) -> Result<Vec<u8>, String> {
        let mut child = self.start()?;
        let mut to = child.stdin.take().expect("a pipe");
        let most = random.one_of(&[1, 7, 94, 111, 4096, 65_536, 1 << 20]);
        // Single bytes only for short streams.
        let most = most.max(input.len() / 2000);
        let mut pieces = Vec::new();
        let mut at = 0;
        while at < input.len() {
            let end = input.len().min(at + 1 + random.below(most));
            pieces.push(input[at..end].to_vec());
            at = end;
        }
        let feeder = std::thread::spawn(move || {
            for piece in pieces {
                // A program that has refused reads no more.
                if to.write_all(&piece).is_err() {
                    break;
                }
            }
        });
        let answer = self.read(&mut child);
        feeder.join().expect("the feeder ends");
        self.end(child)?;
        answer
    }

    fn read(&self, child: &mut Child) -> Result<Vec<u8>, String> {
        let mut answer = Vec::new();
        let mut from = child.stdout.take().expect("a pipe");
        from.read_to_end(&mut answer)
            .map_err(|error| error.to_string())?;
        Ok(answer)
    }

    /// Waits for the end; ends it by force where it does not come.
    fn end(&self, mut child: Child) -> Result<(), String> {
        for _ in 0..PATIENCE.as_millis() / 5 {
            match child.try_wait() {
                Ok(Some(_)) => return Ok(()),
                Ok(None) => std::thread::sleep(Duration::from_millis(5)),
                Err(error) => return Err(error.to_string()),
            }
        }
        let _ = child.kill();
        Err(format!("{}: it does not end", self.0))
    }

    /// It writes its answer while its input is still open.
    pub fn answers_before_more(&self, input: &[u8], expected: &[u8]) -> Result<(), String> {
        let mut child = self.start()?;
        let mut to = child.stdin.take().expect("a pipe");
        let mut from = child.stdout.take().expect("a pipe");
        let (tell, told) = mpsc::channel();
        let wanted = expected.len();
        std::thread::spawn(move || {
            let mut answer = vec![0; wanted];
            let _ = tell.send(from.read_exact(&mut answer).map(|()| answer));
        });
        to.write_all(input).map_err(|error| error.to_string())?;
        let answer = told.recv_timeout(PATIENCE);
        drop(to);
        self.end(child)?;
        match answer {
            Ok(Ok(answer)) if answer == expected => Ok(()),
            Ok(Ok(_)) => Err(format!("{}: another answer than expected", self.0)),
            _ => Err(format!("{}: it waits for more before it answers", self.0)),
        }
    }

    /// Where nobody takes its answers, it ends.
    pub fn ends_unread(&self, head: &[u8], frame: &[u8]) -> Result<(), String> {
        let mut child = Command::new(&self.0)
            .stdin(Stdio::piped())
            .stdout(Stdio::piped())
            .stderr(Stdio::null())
            .spawn()
            .map_err(|error| format!("{}: {error}", self.0))?;
        drop(child.stdout.take());
        let mut to = child.stdin.take().expect("a pipe");
        let mut input = head.to_vec();
        for _ in 0..20_000 {
            input.extend(frame);
        }
        // The pipe stays open, so that only the failed write can end the program.
        let feeder = std::thread::spawn(move || {
            let _ = to.write_all(&input);
            to
        });
        let ended = self.end(child);
        drop(feeder);
        ended.map_err(|told| format!("{told}, though nobody takes its answers"))
    }

    /// What it writes for a file, and in how many writes: each of them is one message of a socket.
    pub fn answer_file(&self, file: &Path) -> Result<(Vec<u8>, usize), String> {
        let told = |error: std::io::Error| format!("{}: {error}", self.0);
        let (from, to) = UnixDatagram::pair().map_err(told)?;
        let mut child = Command::new(&self.0)
            .stdin(File::open(file).map_err(told)?)
            .stdout(OwnedFd::from(to))
            .spawn()
            .map_err(told)?;
        from.set_read_timeout(Some(Duration::from_millis(20)))
            .map_err(told)?;
        let (mut answer, mut writes, mut ended) = (Vec::new(), 0, false);
        let mut message = vec![0; 1 << 17];
        let begun = Instant::now();
        loop {
            match from.recv(&mut message) {
                Ok(bytes) => {
                    answer.extend(&message[..bytes]);
                    writes += 1;
                }
                // What it wrote last may have come after the time was up.
                Err(_) if ended => return Ok((answer, writes)),
                Err(error)
                    if error.kind() == ErrorKind::WouldBlock && begun.elapsed() < PATIENCE =>
                {
                    ended = child.try_wait().map_err(told)?.is_some();
                }
                Err(_) => {
                    self.end(child)?;
                    return Ok((answer, writes));
                }
            }
        }
    }

    /// What it writes where each of these pieces is one read: each is one message of a socket, and an empty one is the end.
    pub fn answer_pieces(&self, pieces: Vec<Vec<u8>>) -> Result<Vec<u8>, String> {
        let told = |error: std::io::Error| format!("{}: {error}", self.0);
        let (to, from) = UnixDatagram::pair().map_err(told)?;
        let mut child = Command::new(&self.0)
            .stdin(OwnedFd::from(from))
            .stdout(Stdio::piped())
            .spawn()
            .map_err(told)?;
        let feeder = std::thread::spawn(move || {
            for piece in pieces.iter().map(Vec::as_slice).chain([&[][..]]) {
                // A program that has refused reads no more.
                if to.send(piece).is_err() {
                    break;
                }
            }
        });
        let answer = self.read(&mut child);
        feeder.join().expect("the feeder ends");
        self.end(child)?;
        answer
    }

    /// Where its output is full, it ends, though its input stays open.
    pub fn ends_where_full(&self, input: &[u8]) -> Result<(), String> {
        let told = |error: std::io::Error| format!("{}: {error}", self.0);
        let full = File::options()
            .write(true)
            .open("/dev/full")
            .map_err(told)?;
        let mut child = Command::new(&self.0)
            .stdin(Stdio::piped())
            .stdout(full)
            .stderr(Stdio::null())
            .spawn()
            .map_err(told)?;
        let mut to = child.stdin.take().expect("a pipe");
        to.write_all(input).map_err(told)?;
        let ended = self.end(child);
        drop(to);
        ended.map_err(|told| format!("{told}, though its output is full"))
    }
}
