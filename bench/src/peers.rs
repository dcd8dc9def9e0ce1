//! The peers that are programs of their own: the libraries in C but mbedTLS, and Go. They answer `c/peer.c`'s lines.

use std::cell::RefCell;
use std::io::{BufRead, BufReader, Write};
use std::path::{Path, PathBuf};
use std::process::{Child, ChildStdout, Command, Stdio};

/// A peer's name, and the name of its program in the folder `peers` of the room.
pub const ALL: [(&str, &str); 8] = [
    ("wolfSSL", "wolfssl"),
    ("GnuTLS", "gnutls"),
    ("NSS", "nss"),
    ("BoringSSL", "boringssl"),
    ("OpenSSL 3.0", "openssl-3.0"),
    ("OpenSSL 3.5", "openssl-3.5"),
    ("Go crypto/x509", "go-x509"),
    ("Go cryptobyte", "go-cryptobyte"),
];

struct Running {
    child: Child,
    answers: BufReader<ChildStdout>,
}

/// A program that is started when it is first asked.
pub struct Peer {
    pub name: &'static str,
    program: PathBuf,
    running: RefCell<Option<Running>>,
}

impl Peer {
    /// The peers that are there; of those that are not the name is printed.
    pub fn all(room: &Path) -> Vec<Peer> {
        let mut there = Vec::new();
        for (name, program) in ALL {
            let program = room.join("peers").join(program);
            if program.exists() {
                there.push(Peer { name, program, running: RefCell::new(None) });
            } else {
                println!("not there: {name}");
            }
        }
        there
    }

    fn start(&self) -> Running {
        let mut command = Command::new(&self.program);
        let mut child = command.stdin(Stdio::piped()).stdout(Stdio::piped()).spawn().expect("a peer's program starts");
        let answers = BufReader::new(child.stdout.take().unwrap());
        Running { child, answers }
    }

    /// The nanoseconds of so many rounds over a file's messages, and the sum of the answers in one; none where the peer
    /// has no such call.
    pub fn ask(&self, call: &str, file: &Path, rounds: i64) -> Option<(i64, usize)> {
        let mut running = self.running.borrow_mut();
        let running = running.get_or_insert_with(|| self.start());
        let input = running.child.stdin.as_mut().unwrap();
        writeln!(input, "{call} {} {rounds}", file.display()).expect("a peer listens");
        let mut line = String::new();
        running.answers.read_line(&mut line).expect("a peer answers");
        let (nanoseconds, sum) = line.trim().split_once(' ')?;
        Some((nanoseconds.parse().ok()?, sum.parse().ok()?))
    }

    /// The instructions of one round, by valgrind.
    pub fn instructions(&self, call: &str, file: &Path) -> Option<u64> {
        let mut command = Command::new("valgrind");
        command.args(["--tool=callgrind", "--callgrind-out-file=/dev/null", "--toggle-collect=measured"]).arg(&self.program);
        let streams = command.stdin(Stdio::piped()).stdout(Stdio::null()).stderr(Stdio::piped());
        let mut child = streams.spawn().ok()?;
        writeln!(child.stdin.take()?, "{call} {} 1", file.display()).ok()?;
        let said = child.wait_with_output().ok()?.stderr;
        let said = String::from_utf8_lossy(&said);
        said.split("Collected : ").nth(1)?.split_whitespace().next()?.parse().ok()
    }
}

impl Drop for Peer {
    fn drop(&mut self) {
        if let Some(mut running) = self.running.borrow_mut().take() {
            drop(running.child.stdin.take());
            let _ = running.child.wait();
        }
    }
}
