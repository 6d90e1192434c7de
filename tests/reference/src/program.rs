//! Running a program through pipes, for the check programs.

use std::io::{Read, Write};
use std::os::fd::AsRawFd;
use std::process::{Command, ExitStatus, Stdio};

unsafe extern "C" {
    fn ioctl(file: i32, request: u64, ...) -> i32;
}

/// How many bytes of a pipe are not read yet.
fn unread(pipe: &impl AsRawFd) -> i32 {
    const FIONREAD: u64 = 0x541b;
    let mut bytes = 0i32;
    let status = unsafe { ioctl(pipe.as_raw_fd(), FIONREAD, &mut bytes) };
    assert!(status == 0, "the pipe cannot be asked what it holds");
    bytes
}

/// What a program has left when it has ended.
pub struct Ended {
    pub output: Vec<u8>,
    /// What it wrote to standard error.
    pub errors: String,
    pub status: ExitStatus,
    /// Whether it read its whole input.
    pub read_all: bool,
}

/// Runs a program on an input, handed over in chunks, each one only when the last was read.
pub fn run(program: &str, input: &[u8], chunk: usize) -> Ended {
    let mut child = Command::new(program)
        .stdin(Stdio::piped())
        .stdout(Stdio::piped())
        .stderr(Stdio::piped())
        .spawn()
        .unwrap_or_else(|e| panic!("{program}: {e}"));
    let mut writer = child.stdin.take().expect("a pipe");
    let (output, errors) = (child.stdout.take().expect("a pipe"), child.stderr.take().expect("a pipe"));
    let (output, errors) = (reading(output), reading(errors));
    let mut hand_over = |part: &[u8]| {
        if writer.write_all(part).is_err() {
            return false;
        }
        while unread(&writer) > 0 {
            if child.try_wait().expect("the program").is_some() {
                return false;
            }
            std::thread::yield_now();
        }
        true
    };
    let read_all = input.chunks(chunk).all(&mut hand_over);
    drop(writer);
    let (output, errors) = (output.join().expect("a thread"), errors.join().expect("a thread"));
    let errors = String::from_utf8_lossy(&errors).into_owned();
    Ended { output, errors, status: child.wait().expect("the program"), read_all }
}

/// Reads a pipe to its end, beside the writing of the input.
fn reading(mut pipe: impl Read + Send + 'static) -> std::thread::JoinHandle<Vec<u8>> {
    std::thread::spawn(move || {
        let mut bytes = Vec::new();
        pipe.read_to_end(&mut bytes).expect("what the program writes");
        bytes
    })
}

/// The output of a program that has to read its whole input and to end well.
pub fn output(program: &str, input: &[u8], chunk: usize) -> Vec<u8> {
    let Ended { output, errors, status, read_all } = run(program, input, chunk);
    assert!(read_all, "{program} ended before its input did, with {status}: {errors}");
    assert!(status.success(), "{program} ended with {status}: {errors}");
    output
}
