//! Our side: worker.c in its process, and the batch that is being written for it.

use crate::shared::process::{Process, Words};
use crate::shared::room::{Outcome, Room};

pub struct Worker {
    process: Process,
    request: Vec<u64>,
    /// The words of an answer to a call that changed all of the room.
    most: usize,
    /// The words of all answers, were they such.
    answers: usize,
}

impl Worker {
    /// A batch is full once its answers may take so many words: half of what worker.c has room for, as the
    /// last call may go past it. A request is shorter than that.
    const LIMIT: usize = 1 << 19;
    const STATE: u64 = 0;
    /// The most numbers that a call is lent, as lent.h has it.
    const NUMBERS: usize = 19;

    pub fn start(command: &[String]) -> Worker {
        Worker { process: Process::start(command), request: Vec::new(), most: 0, answers: 0 }
    }

    /// The room that the calls after it have.
    pub fn state(&mut self, room: &Room) {
        let words = room.words();
        self.request.extend([Self::STATE, words.len() as u64, room.row_words()]);
        self.request.extend(words);
        self.most = 3 + Self::NUMBERS + 2 * words.len();
    }

    /// A call by its number and its own numbers. With `keep`, what it leaves is there for the next one; else
    /// the room is put back.
    pub fn call(&mut self, (what, numbers): (u64, [u64; 6]), keep: bool) {
        self.request.extend([what, keep as u64]);
        self.request.extend(numbers);
        self.answers += self.most;
    }

    pub fn full(&self) -> bool {
        self.answers > Self::LIMIT
    }

    pub fn send(&mut self) {
        self.process.send(&mut self.request);
        self.answers = 0;
    }

    /// The answers to the batch that was sent, in the order of its calls.
    pub fn receive(&mut self) -> Answers {
        let count = self.process.receive(1).word();
        Answers(self.process.receive(count as usize))
    }

    pub fn end(self) {
        self.process.end();
    }
}

pub struct Answers(Words);

impl Answers {
    pub fn next(&mut self) -> Outcome {
        let mut word = || self.0.word();
        let (code, count) = (word(), word());
        let numbers = (0..count).map(|_| word()).collect();
        let count = word();
        Outcome { code, numbers, changes: (0..count).map(|_| (word(), word())).collect() }
    }
}
