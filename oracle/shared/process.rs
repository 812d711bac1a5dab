//! The process of our side, and the words of 64 bits that go to it and come from it.

use std::io::{Read, Write};
use std::process::{Child, ChildStdin, ChildStdout, Command, Stdio};

pub struct Process {
    child: Child,
    to: ChildStdin,
    from: ChildStdout,
}

impl Process {
    pub fn start(command: &[String]) -> Process {
        let mut child = Command::new(&command[0])
            .args(&command[1..])
            .stdin(Stdio::piped())
            .stdout(Stdio::piped())
            .spawn()
            .unwrap_or_else(|error| panic!("{}: {error}", command[0]));
        let (to, from) = (child.stdin.take().unwrap(), child.stdout.take().unwrap());
        Process { child, to, from }
    }

    /// Sends a batch: the number of its words, then the words, which it takes.
    pub fn send(&mut self, words: &mut Vec<u64>) {
        let mut bytes = Vec::with_capacity(8 * words.len() + 8);
        bytes.extend((words.len() as u64).to_le_bytes());
        bytes.extend(words.drain(..).flat_map(u64::to_le_bytes));
        self.to.write_all(&bytes).unwrap_or_else(|error| panic!("our side ended early: {error}"));
    }

    pub fn receive(&mut self, words: usize) -> Words {
        let mut bytes = vec![0; 8 * words];
        self.from.read_exact(&mut bytes).unwrap_or_else(|error| panic!("our side ended early: {error}"));
        Words { bytes, at: 0 }
    }

    /// Ends the process, which must have had nothing to complain of.
    pub fn end(self) {
        let Process { mut child, to, .. } = self;
        drop(to);
        assert!(child.wait().unwrap().success(), "our side's process failed");
    }
}

/// What came back, word by word.
pub struct Words {
    bytes: Vec<u8>,
    at: usize,
}

impl Words {
    pub fn word(&mut self) -> u64 {
        self.at += 8;
        u64::from_le_bytes(self.bytes[self.at - 8..self.at].try_into().unwrap())
    }
}
