//! A program: bytes to its standard input, what it writes from its standard output and error.

use std::io::{ErrorKind, Write};
use std::process::{ChildStdin, Command, Output, Stdio};
use std::thread;
use std::time::{Duration, Instant};

/// How an input is written.
#[derive(Clone, Copy)]
pub struct Writes {
    /// So many bytes at a time.
    pub piece: usize,
    /// Whether each is written only when the program has read the one before.
    pub apart: bool,
}

impl Writes {
    /// All at once.
    pub const WHOLE: Writes = Writes {
        piece: usize::MAX,
        apart: false,
    };

    /// So many bytes at a time, each for a read of its own.
    pub fn apart(piece: usize) -> Writes {
        Writes { piece, apart: true }
    }
}

/// The words of a command that runs the program.
pub struct Program {
    words: Vec<String>,
}

impl Program {
    /// A program, run by an emulator if one is given, as `qemu-x86_64 -L DIR`.
    pub fn new(emulator: Option<&str>, path: &str) -> Program {
        let mut words: Vec<String> = emulator
            .unwrap_or("")
            .split_whitespace()
            .map(str::to_string)
            .collect();
        words.push(path.to_string());
        Program { words }
    }

    /// The text for a recording; an error where the program can't be run or fails.
    pub fn run(&self, recording: &[u8], writes: Writes) -> Result<Vec<u8>, String> {
        let output = self.output(recording, writes, Stdio::inherit())?;
        Ok(output.stdout)
    }

    /// What it writes to standard output and to standard error for an input given in pieces of so many bytes.
    pub fn said(&self, input: &[u8], piece: usize) -> Result<(Vec<u8>, Vec<u8>), String> {
        let apart = false;
        let output = self.output(input, Writes { piece, apart }, Stdio::piped())?;
        Ok((output.stdout, output.stderr))
    }

    fn output(&self, input: &[u8], writes: Writes, error: Stdio) -> Result<Output, String> {
        let name = &self.words[0];
        let mut child = Command::new(name)
            .args(&self.words[1..])
            .stdin(Stdio::piped())
            .stdout(Stdio::piped())
            .stderr(error)
            .spawn()
            .map_err(|e| format!("cannot run {name}: {e}"))?;
        let stdin = child.stdin.take().expect("standard input is a pipe");
        let id = child.id();
        let output = thread::scope(|scope| {
            let fed = scope.spawn(|| feed(stdin, input, writes, id));
            let output = child.wait_with_output();
            fed.join().expect("the feeding thread ends").and(output)
        })
        .map_err(|e| format!("{name}: {e}"))?;
        if output.status.success() {
            Ok(output)
        } else {
            Err(format!("{name}: {}", output.status))
        }
    }
}

/// Writes the input to a program's process; it may stop reading before the end.
fn feed(mut stdin: ChildStdin, input: &[u8], writes: Writes, id: u32) -> std::io::Result<()> {
    for some in input.chunks(writes.piece.max(1)) {
        if writes.apart {
            wait_for_read(id);
        }
        match stdin.write_all(some).and_then(|()| stdin.flush()) {
            Err(e) if e.kind() == ErrorKind::BrokenPipe => return Ok(()),
            other => other?,
        }
    }
    Ok(())
}

/// Waits until a process sleeps, as it does in a read when there is nothing to be read, or
/// has ended; for a second at most.
fn wait_for_read(id: u32) {
    let begin = Instant::now();
    let works = |state| matches!(state, Some('R' | 'D'));
    while works(state_of(id)) && begin.elapsed() < Duration::from_secs(1) {
        thread::sleep(Duration::from_micros(20));
    }
}

/// The letter of a process's state, which follows its name in brackets.
fn state_of(id: u32) -> Option<char> {
    let stat = std::fs::read_to_string(format!("/proc/{id}/stat")).ok()?;
    stat.rsplit_once(") ")?.1.chars().next()
}

#[cfg(test)]
mod tests {
    use super::*;

    /// What `dd` says it read: whole blocks of 4,096 bytes, and shorter pieces.
    fn reads(input: &[u8], writes: Writes) -> String {
        let program = Program::new(Some("dd bs=4096 of=/dev/null"), "status=noxfer");
        let output = program.output(input, writes, Stdio::piped()).unwrap();
        let says = String::from_utf8(output.stderr).unwrap();
        says.split_whitespace().next().unwrap().to_string()
    }

    #[test]
    fn an_input_comes_whole_or_in_pieces() {
        assert_eq!(reads(&[7; 60], Writes::WHOLE), "0+1");
        assert_eq!(reads(&[7; 60], Writes::apart(1)), "0+60");
        assert_eq!(reads(&[7; 60], Writes::apart(7)), "0+9");
        assert_eq!(reads(&[7; 8_192], Writes::apart(4_096)), "2+0");
        assert_eq!(reads(&[], Writes::apart(1)), "0+0");
    }
}
