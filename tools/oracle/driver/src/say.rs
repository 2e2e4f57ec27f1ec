//! What a run prints. The Rust prints a line for each bad command; `quiet` sends those nowhere and keeps standard output for `say`.
use std::fs::File;
use std::io::Write;
use std::os::fd::FromRawFd;
use std::sync::{Mutex, OnceLock};

static OUT: OnceLock<Mutex<File>> = OnceLock::new();

extern "C" {
    fn dup(fd: i32) -> i32;
    fn dup2(from: i32, to: i32) -> i32;
}

pub fn quiet() {
    use std::os::fd::AsRawFd;
    let nowhere = File::options().write(true).open("/dev/null").expect("/dev/null");
    let kept = unsafe { dup(1) };
    assert!(kept >= 0 && unsafe { dup2(nowhere.as_raw_fd(), 1) } == 1, "standard output kept");
    OUT.get_or_init(|| Mutex::new(unsafe { File::from_raw_fd(kept) }));
}

pub fn say(line: &str) {
    write(format!("{line}\n").as_bytes());
}

pub fn write(bytes: &[u8]) {
    match OUT.get() {
        Some(out) => out.lock().expect("one thread").write_all(bytes).expect("written"),
        None => std::io::stdout().write_all(bytes).expect("written"),
    }
}
