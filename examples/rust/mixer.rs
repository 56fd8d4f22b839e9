//! Two tracks, each on a thread of its own, the normal mixer on another one, and the periods here: all that was written is heard, to the last frame.
//!
//!     mixer [FRAMES]     100,000 frames of each track, if not said otherwise
mod zeldorgacs;

use std::sync::atomic::{AtomicBool, Ordering};
use std::thread;
use zeldorgacs::{open_mixer, Cycle, Error, Fast, Mixer, Normal, Track, TrackSpec, Turn};
use zeldorgacs::{DISABLED, UNITY};

const PERIOD: usize = 64;
const CHUNK: usize = 100;

static OVER: AtomicBool = AtomicBool::new(false);

/// Sends a command, once there is room for it.
fn ask(track: &mut Track, command: fn(&mut Track) -> Result<(), Error>) -> Result<(), Error> {
    loop {
        match command(track) {
            Err(Error::Full) if !OVER.load(Ordering::SeqCst) => thread::yield_now(),
            answer => return answer,
        }
    }
}

/// Writes so many frames of one sample, starts the track again if it was disabled for want of frames, and removes it once all was heard.
fn speak(mut track: Track, sample: i16, total: usize) -> Result<(), Error> {
    let frames = [[sample, -sample]; CHUNK];
    ask(&mut track, Track::start)?;
    let mut at = 0;
    while at < total {
        let put = track.write(&frames[..CHUNK.min(total - at)])?;
        at += put;
        if track.status()?.flags & DISABLED != 0 {
            ask(&mut track, Track::start)?;
        }
        if put == 0 {
            thread::yield_now();
        }
    }
    ask(&mut track, Track::start)?;
    ask(&mut track, Track::stop)?;
    while track.status()?.drained == 0 && !OVER.load(Ordering::SeqCst) {
        thread::yield_now();
    }
    ask(&mut track, Track::remove)
}

/// Turns of the normal mixer, until it ends.
fn turns(mut normal: Normal) -> Result<u64, Error> {
    while !OVER.load(Ordering::SeqCst) && normal.turn()? != Turn::Ended {
        thread::yield_now();
    }
    normal.turns()
}

/// Periods until the mixer ends: the sums of the two sides.
fn periods(fast: &mut Fast) -> Result<(i64, i64), Error> {
    let mut frames = [[0; 2]; PERIOD];
    let mut heard = (0, 0);
    loop {
        match fast.cycle(&mut frames)? {
            Cycle::Mixed => {
                for [left, right] in frames {
                    heard.0 += i64::from(left);
                    heard.1 += i64::from(right);
                }
            }
            Cycle::Exit => return Ok(heard),
            _ => {}
        }
        thread::yield_now();
    }
}

fn main() -> Result<(), Error> {
    let total = std::env::args()
        .nth(1)
        .and_then(|word| word.parse().ok())
        .unwrap_or(100_000);
    let spec = |fast| TrackSpec {
        fast,
        mono: false,
        scale: UNITY,
        frames: 1024,
    };
    let mixer = Mixer {
        frames: PERIOD as u32,
        normal: 4,
        log: 1,
    };
    let (normal, mut fast, tracks) = open_mixer(mixer, &[spec(true), spec(false)])?;
    assert_eq!(fast.frames()?, PERIOD);
    let turning = thread::spawn(move || turns(normal));
    let speaking: Vec<_> = tracks
        .into_iter()
        .zip([3, 5])
        .map(|(track, sample)| thread::spawn(move || speak(track, sample, total)))
        .collect();
    let heard = periods(&mut fast);
    OVER.store(true, Ordering::SeqCst);
    for one in speaking {
        one.join().expect("a track's thread")?;
    }
    turning.join().expect("the turns' thread")?;
    let wanted = 8 * total as i64;
    assert_eq!(heard?, (wanted, -wanted));
    println!("{total} frames of two tracks, each heard once");
    Ok(())
}
