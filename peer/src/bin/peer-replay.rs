//! Replays the recording on standard input, all registers 0 at first, and
//! writes its text to standard output.

use std::fs::File;
use std::io::{self, ErrorKind, Read};
use std::os::fd::AsFd;
use std::process::ExitCode;

use peer::Replay;

/// The bytes of the input buffer; the replay has the output buffer.
const BUFFER_LENGTH: usize = 4096;

fn main() -> ExitCode {
    match run() {
        Ok(()) => ExitCode::SUCCESS,
        Err(message) => {
            eprintln!("peer-replay: {message}");
            ExitCode::FAILURE
        }
    }
}

fn run() -> Result<(), String> {
    let mut store = [0; 100];
    let mut replay = Replay::new(&mut store, io::stdout().lock());
    let mut input = open_input().map_err(cannot_read)?;
    let mut buffer = [0; BUFFER_LENGTH];
    while !replay.is_over() {
        let length = read_piece(&mut input, &mut buffer).map_err(cannot_read)?;
        if length == 0 {
            break;
        }
        let piece = &buffer[..length];
        replay.feed(piece).map_err(cannot_write)?;
    }
    replay.finish().map(drop).map_err(cannot_write)
}

/// Standard input as a plain file: the standard library's own reader would put a
/// buffer of more than 4,096 bytes in between.
fn open_input() -> io::Result<File> {
    Ok(File::from(io::stdin().as_fd().try_clone_to_owned()?))
}

/// Reads the next piece and gives its length, which is 0 only at the real end.
fn read_piece(input: &mut File, buffer: &mut [u8]) -> io::Result<usize> {
    loop {
        match input.read(buffer) {
            Err(error) if error.kind() == ErrorKind::Interrupted => {}
            result => return result,
        }
    }
}

fn cannot_read(error: io::Error) -> String {
    format!("cannot read standard input: {error}")
}

fn cannot_write(error: io::Error) -> String {
    format!("cannot write standard output: {error}")
}
