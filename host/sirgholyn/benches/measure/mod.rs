//! Processor seconds and peak memory of a command.

use std::env;
use std::fs::File;
use std::process::Command;

pub struct Spent {
    pub seconds: f64,
    pub peak_megabytes: f64,
}

/// What a command spends; what it prints goes to the file. It is run by a process of its own, this program with
/// `--measure`, which has to hand its further words to `measure_once`.
pub fn spent(command: &[String], printed: &str) -> Spent {
    let output = Command::new(env::current_exe().unwrap())
        .args(["--measure", printed])
        .args(command)
        .output()
        .unwrap();
    let complaint = String::from_utf8_lossy(&output.stderr);
    assert!(output.status.success(), "{command:?}: {complaint}");
    let numbers = String::from_utf8(output.stdout).unwrap();
    let mut numbers = numbers
        .split_whitespace()
        .map(|word| word.parse::<f64>().unwrap());
    Spent {
        seconds: numbers.next().unwrap(),
        peak_megabytes: numbers.next().unwrap() / 1024.0,
    }
}

/// Of `getrusage` the processor's seconds, which other work on the machine hardly changes, and the peak memory are looked at.
#[repr(C)]
struct Usage {
    times: [i64; 4],
    peak_kilobytes: i64,
    others: [i64; 13],
}

extern "C" {
    fn getrusage(whose: i32, usage: *mut Usage) -> i32;
}

/// Runs a command, and prints the processor's seconds and the peak memory in kilobytes. This process is small, so that
/// the peak is the command's own.
pub fn measure_once(printed: &str, command: &[&str]) {
    const CHILDREN: i32 = -1;
    Command::new(command[0])
        .args(&command[1..])
        .stdout(File::create(printed).unwrap())
        .status()
        .unwrap();
    let mut usage = Usage {
        times: [0; 4],
        peak_kilobytes: 0,
        others: [0; 13],
    };
    // SAFETY: the structure has the size and layout of C's on 64-bit Linux.
    unsafe { getrusage(CHILDREN, &mut usage) };
    let [user, user_micro, system, system_micro] = usage.times;
    let seconds = (user + system) as f64 + (user_micro + system_micro) as f64 / 1e6;
    println!("{seconds} {}", usage.peak_kilobytes);
}
