//! Runs a program and writes to the file of the first word its exit status, its processor time in
//! microseconds and its peak of resident memory in kilobytes. A small process of its own does this, since
//! a child's peak counts what its parent holds when it is made.
use std::process::{Command, Stdio};

#[repr(C)]
struct Usage {
    user: [i64; 2],
    system: [i64; 2],
    peak: i64,
    others: [i64; 13],
}

extern "C" {
    fn wait4(pid: i32, status: *mut i32, options: i32, usage: *mut Usage) -> i32;
}

fn main() {
    let words: Vec<String> = std::env::args().skip(1).collect();
    let child = Command::new(&words[1]).args(&words[2..]).stdin(Stdio::null()).spawn().unwrap();
    let mut status = 0;
    let mut usage = Usage { user: [0; 2], system: [0; 2], peak: 0, others: [0; 13] };
    let waited = unsafe { wait4(child.id() as i32, &mut status, 0, &mut usage) };
    assert_eq!(waited, child.id() as i32);
    let micros = |time: [i64; 2]| time[0] * 1_000_000 + time[1];
    let line = format!("{} {} {}\n", status >> 8 & 255, micros(usage.user) + micros(usage.system), usage.peak);
    std::fs::write(&words[0], line).unwrap();
}
