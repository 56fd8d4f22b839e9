//! Each call of zeldorgacs.rs on one thread, and what it answers.
mod zeldorgacs;

use zeldorgacs::{open_record, open_static, open_stream, Error, Found, Frame, Played};
use zeldorgacs::{DISABLED, INVALID, MOST_BUFFER, UNDERRUN, UNITY, WITHOUT_END};

fn frames_from(first: i16, count: i16) -> Vec<Frame> {
    (first..first + count).map(|left| [left, -left]).collect()
}

fn stream() -> Result<(), Error> {
    assert_eq!(open_stream(0).err(), Some(Error::Argument));
    assert_eq!(
        open_stream(MOST_BUFFER as u32 + 1).err(),
        Some(Error::Argument)
    );
    let (mut client, mut server) = open_stream(8)?;
    let mut into = [[7, 7]; 8];
    assert_eq!((client.frames()?, server.frames()?), (8, 8));
    assert_eq!(client.write(&frames_from(1, 5))?, 5);
    assert_eq!(client.write(&[])?, 0);
    assert_eq!(server.available()?, Found::Frames(5));
    assert_eq!(server.read(&mut into[..3])?, Found::Frames(3));
    assert_eq!(into[..4], [[1, -1], [2, -2], [3, -3], [7, 7]]);
    assert_eq!(client.flush()?, 1);
    assert_eq!(server.read(&mut into)?, Found::Flushed(2));
    assert_eq!(server.read(&mut into)?, Found::Frames(0));
    assert_eq!((client.released()?, client.flushes()?), (5, 1));
    assert_eq!((server.consumed()?, server.flush_seen()?), (5, 1));
    assert_eq!(server.gains()?, (UNITY, UNITY));
    client.set_gains(3, 5)?;
    assert_eq!(client.set_gains(UNITY + 1, 0), Err(Error::Argument));
    assert_eq!(server.gains()?, (3, 5));
    assert_eq!(client.status()?, 0);
    server.set_status(0xffff_fffe)?;
    assert_eq!(client.status()?, 0xffff_fffe);
    assert_eq!(server.tally(0), Err(Error::Argument));
    server.tally(4)?;
    server.disable()?;
    assert_eq!(client.clear_disabled()?, UNDERRUN | DISABLED);
    server.invalidate()?;
    assert_eq!(client.clear_disabled()?, UNDERRUN | INVALID);
    assert_eq!(client.write(&frames_from(1, 1)), Err(Error::Dead));
    Ok(())
}

fn record() -> Result<(), Error> {
    let (mut capture, mut listener) = open_record(4)?;
    let mut into = [[7, 7]; 6];
    assert_eq!(capture.supply(&frames_from(1, 6))?, 4);
    assert_eq!((capture.supplied()?, capture.overrun()?), (6, 2));
    assert_eq!(listener.read(&mut into)?, 4);
    assert_eq!(into[..5], [[1, -1], [2, -2], [3, -3], [4, -4], [7, 7]]);
    drop(capture);
    assert_eq!((listener.read(&mut into)?, listener.total()?), (0, 4));
    Ok(())
}

fn fixed() -> Result<(), Error> {
    assert_eq!(open_static(&[]).err(), Some(Error::Argument));
    assert_eq!(
        open_static(&[[0, 0]; MOST_BUFFER + 1]).err(),
        Some(Error::Argument)
    );
    let (mut setter, mut player) = open_static(&frames_from(100, 20))?;
    let mut into = [[7, 7]; 22];
    assert_eq!(
        player.play(UNITY, 0, &mut into)?,
        Played {
            frames: 20,
            setting: 0
        }
    );
    assert_eq!(
        (into[0], into[19], into[20], into[21]),
        ([100, 0], [119, 0], [0, 0], [0, 0])
    );
    assert_eq!(setter.set(2, 18, WITHOUT_END)?, 1);
    assert_eq!(
        player.play(0xffff, UNITY, &mut into)?,
        Played {
            frames: 22,
            setting: 1
        }
    );
    assert_eq!(
        (into[0], into[15], into[16]),
        ([102, -102], [117, -117], [102, -102])
    );
    assert_eq!(player.play(UNITY, UNITY, &mut []), Err(Error::Argument));
    assert_eq!(setter.set(21, 0, 0)?, 2);
    assert_eq!(player.play(UNITY, UNITY, &mut into), Err(Error::Corrupt));
    assert_eq!(into, [[0, 0]; 22]);
    Ok(())
}

fn main() -> Result<(), Error> {
    stream()?;
    record()?;
    fixed()?;
    println!("each call: as the header says");
    Ok(())
}
