//! Two threads, one stream. One thread writes numbered frames, the other one reads them and compares each.
//!
//!     stream [FRAMES]      1,000,000 frames, if not said otherwise

mod zeldorgacs;

use std::fmt;
use std::process::ExitCode;
use std::thread;
use zeldorgacs::{open_stream, Client, Error, Found, Frame, Server};

const BUFFER: u32 = 2048;
const MOST: usize = 256;

/// What stops the reader.
enum Stop {
    Refused(Error),
    Differs(usize),
    Flushed(u64),
}

impl fmt::Display for Stop {
    fn fmt(&self, f: &mut fmt::Formatter<'_>) -> fmt::Result {
        match self {
            Stop::Refused(error) => write!(f, "{error}"),
            Stop::Differs(number) => write!(f, "frame {number} differs"),
            Stop::Flushed(dropped) => write!(f, "{dropped} frames were flushed, and nobody asked"),
        }
    }
}

impl From<Error> for Stop {
    fn from(error: Error) -> Stop {
        Stop::Refused(error)
    }
}

fn frame_of(number: usize) -> Frame {
    let number = number as u32;
    [
        (number.wrapping_mul(2654435761) >> 16) as i16,
        (number.wrapping_mul(40503) ^ (number >> 7)) as i16,
    ]
}

/// Writes all frames, as many at a time as there is room for.
fn write_all(mut client: Client, total: usize) -> Result<(), Error> {
    let mut at = 0;
    while at < total {
        let frames: Vec<Frame> = (at..total.min(at + MOST)).map(frame_of).collect();
        let written = client.write(&frames)?;
        if written == 0 {
            thread::yield_now(); // full: a program with a clock would come back a period later
        }
        at += written;
    }
    Ok(())
}

/// Reads as many frames, and compares each.
fn read_all(mut server: Server, total: usize) -> Result<(), Stop> {
    let mut frames = [[0; 2]; MOST];
    let mut at = 0;
    while at < total {
        let count = match server.read(&mut frames)? {
            Found::Frames(count) => count,
            Found::Flushed(dropped) => return Err(Stop::Flushed(dropped)),
        };
        if count == 0 {
            thread::yield_now(); // empty: AudioFlinger would mix silence, and count an underrun
        }
        for (i, frame) in frames[..count].iter().enumerate() {
            if *frame != frame_of(at + i) {
                return Err(Stop::Differs(at + i));
            }
        }
        at += count;
    }
    Ok(())
}

fn main() -> ExitCode {
    let total = std::env::args()
        .nth(1)
        .map_or(1_000_000, |word| word.parse().expect("a number of frames"));
    let (client, server) = match open_stream(BUFFER) {
        Ok(ends) => ends,
        Err(error) => {
            println!("no stream: {error}");
            return ExitCode::FAILURE;
        }
    };
    let writer = thread::spawn(move || write_all(client, total));
    if let Err(stop) = read_all(server, total) {
        println!("the reader stopped: {stop}");
        return ExitCode::FAILURE;
    }
    if let Err(error) = writer.join().expect("the writer's end") {
        println!("the writer stopped: {error}");
        return ExitCode::FAILURE;
    }
    println!("{total} frames written, read and compared: all equal, in order");
    ExitCode::SUCCESS
}
