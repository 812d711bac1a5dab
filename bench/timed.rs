//! Runs a command so many times, from a file to a file, and prints its least wall time in seconds and its most
//! memory in KiB. Run by bench/trace, as: timed RUNS INPUT OUTPUT COMMAND..

use std::env;
use std::fs::File;
use std::os::unix::process::CommandExt;
use std::process::Command;
use std::time::Instant;

/// The 64-bit words of Linux's struct rusage: four of time, then the most memory.
type Usage = [i64; 18];
const MEMORY: usize = 4;

unsafe extern "C" {
    fn wait4(pid: i32, status: &mut i32, options: i32, usage: &mut Usage) -> i32;
}

/// The seconds and the memory of one run.
fn run(input: &str, output: &str, command: &[String]) -> (f64, i64) {
    let mut child = Command::new(&command[0]);
    child.args(&command[1..]);
    child.stdin(File::open(input).unwrap()).stdout(File::create(output).unwrap());
    // With something to do between the two, it is fork and exec: a spawn would count our memory as the child's.
    unsafe { child.pre_exec(|| Ok(())) };
    let (mut status, mut usage) = (0, [0; 18]);
    let start = Instant::now();
    let pid = child.spawn().unwrap().id() as i32;
    let ended = unsafe { wait4(pid, &mut status, 0, &mut usage) };
    let time = start.elapsed().as_secs_f64();
    assert_eq!((ended, status), (pid, 0), "{} failed", command[0]);
    (time, usage[MEMORY])
}

fn main() {
    let words: Vec<String> = env::args().skip(1).collect();
    let [runs, input, output, command @ ..] = &words[..] else { panic!("timed RUNS INPUT OUTPUT COMMAND..") };
    let (mut least, mut most) = (f64::MAX, 0);
    for _ in 0..runs.parse().unwrap() {
        let (time, memory) = run(input, output, command);
        (least, most) = (least.min(time), most.max(memory));
    }
    println!("{least:.4} {most}");
}
