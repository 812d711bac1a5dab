//! The program under test, fed in parts through a pipe.

use std::ffi::{c_int, c_ulong};
use std::fs::File;
use std::io::{Read, Write};
use std::os::fd::{AsRawFd, FromRawFd, OwnedFd};
use std::process::{Command, Stdio};
use std::thread;
use std::time::Duration;

unsafe extern "C" {
    fn pipe2(ends: *mut [c_int; 2], flags: c_int) -> c_int;
    fn ioctl(file: c_int, request: c_ulong, ...) -> c_int;
}

/// What the program printed, whether it ended with status 0, and the most memory that it had, in KiB.
pub struct Printed {
    pub text: Vec<u8>,
    pub well: bool,
    pub peak: u64,
}

/// Runs the program on an input in parts, of which `size` says the next one's. With `packets` each read of
/// the program gets one part, of up to 4096 bytes, for which its buffer must have room; else as much as is
/// there.
pub fn feed(command: &[String], input: &[u8], packets: bool, mut size: impl FnMut() -> usize) -> Printed {
    let (from, mut to) = pipe(packets);
    let mut child = Command::new(&command[0])
        .args(&command[1..])
        .stdin(from)
        .stdout(Stdio::piped())
        .spawn()
        .unwrap_or_else(|error| panic!("{}: {error}", command[0]));
    let mut output = child.stdout.take().unwrap();
    let reader = thread::spawn(move || {
        let mut text = Vec::new();
        output.read_to_end(&mut text).unwrap();
        text
    });
    let mut rest = input;
    while !rest.is_empty() {
        let (part, after) = rest.split_at(size().min(rest.len()));
        // A program that ended early is seen by what it did not print.
        rest = if to.write_all(part).is_ok() { after } else { &[] };
    }
    while unread(&to) > 0 && !reader.is_finished() {
        thread::sleep(Duration::from_millis(1));
    }
    let peak = peak(child.id());
    drop(to);
    let text = reader.join().unwrap();
    Printed { text, well: child.wait().unwrap().success(), peak }
}

/// The two ends of a pipe, of which neither goes to other programs.
fn pipe(packets: bool) -> (OwnedFd, File) {
    const CLOSED_ELSEWHERE: c_int = 0o2000000;
    const PACKETS: c_int = if cfg!(target_arch = "x86_64") { 0o40000 } else { 0o200000 };
    let mut ends = [0; 2];
    let flags = if packets { CLOSED_ELSEWHERE | PACKETS } else { CLOSED_ELSEWHERE };
    assert!(unsafe { pipe2(&mut ends, flags) } == 0, "no pipe");
    let [from, to] = ends.map(|end| unsafe { OwnedFd::from_raw_fd(end) });
    (from, to.into())
}

/// How many bytes in the pipe are still to be read.
fn unread(to: &File) -> c_int {
    const UNREAD: c_ulong = 0x541b;
    let mut count: c_int = 0;
    assert!(unsafe { ioctl(to.as_raw_fd(), UNREAD, &mut count) } == 0, "no pipe");
    count
}

/// The most memory that a process had so far, or 0 where it has ended.
fn peak(process: u32) -> u64 {
    let status = std::fs::read_to_string(format!("/proc/{process}/status")).unwrap_or_default();
    let line = status.lines().find_map(|line| line.strip_prefix("VmHWM:"));
    line.map_or(0, |line| line.trim().trim_end_matches(" kB").parse().unwrap())
}
