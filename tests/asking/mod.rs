// How the library and roomrun are asked: behind commands, which read questions or scripts and answer.
pub mod calls;
pub mod live;
pub mod questions;
pub mod scripts;
use crate::fail;
use std::io::{ErrorKind, Write};
use std::os::fd::OwnedFd;
use std::os::unix::net::UnixStream;
use std::process::{Command, Stdio};
use std::time::Duration;

// What `command` writes where it reads `input`, which it is given in pieces of so many bytes. Small ones come slowly, so that it
// reads one by one. It need not read all of them.
pub fn output(command: &[String], input: Vec<u8>, piece: usize) -> Vec<u8> {
    let mut program = Command::new(&command[0])
        .args(&command[1..])
        .stdin(Stdio::piped())
        .stdout(Stdio::piped())
        .spawn()
        .unwrap_or_else(|e| fail(format!("{}: {e}", command[0])));
    let mut stdin = program.stdin.take().unwrap();
    let pause = Duration::from_millis((piece < 100) as u64);
    let mut feed = move |part: &[u8]| {
        std::thread::sleep(pause);
        stdin.write_all(part)
    };
    let feeder = std::thread::spawn(move || input.chunks(piece).try_for_each(&mut feed));
    let output = program.wait_with_output().unwrap();
    match feeder.join().unwrap() {
        Err(e) if e.kind() != ErrorKind::BrokenPipe => fail(format!("{command:?} cannot be written to: {e}")),
        _ if !output.status.success() => fail(format!("{command:?} ended with {}", output.status)),
        _ => output.stdout,
    }
}

// What `command` writes, to standard output and to standard error, where it reads `input`.
pub fn written(command: &[String], input: Stdio) -> [Vec<u8>; 2] {
    let output = Command::new(&command[0]).args(&command[1..]).stdin(input).output();
    let output = output.unwrap_or_else(|e| fail(format!("{}: {e}", command[0])));
    [output.stdout, output.stderr]
}

// Input of which these bytes can be read, and then a read fails: its other end, which has to be held as long, is still open and
// has no more to give, and the reader may not wait.
pub fn cut_short(bytes: &[u8]) -> std::io::Result<(UnixStream, Stdio)> {
    let (mut ours, theirs) = UnixStream::pair()?;
    ours.write_all(bytes)?;
    theirs.set_nonblocking(true)?;
    Ok((ours, Stdio::from(OwnedFd::from(theirs))))
}

// The lines that `command` answers to the questions in `text`.
pub fn ask(command: &[String], text: String) -> Vec<String> {
    let told = String::from_utf8(output(command, text.into_bytes(), usize::MAX)).unwrap();
    told.lines().map(str::to_string).collect()
}
