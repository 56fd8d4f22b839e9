//! The library for C from Rust: the ends of mixers, streams, recordings and static buffers as owned types, over `include/zeldorgacs.h`, whose words these are.
//! Plain `rustc`, edition 2021, no crate: `mod zeldorgacs;`, and `-L native=FOLDER/lib -l static=zeldorgacs` for FOLDER of `./build library`.
//!
//! A frame is two samples, left and right. An end is open from its making to its drop, so no call here answers that a handle is closed. Each end may
//! go to another thread (`Send`), and no two threads share one (it isn't `Sync`). No call but an opening and a drop takes or gives back memory.
//!
//! YOU STILL OWE what no type says: an end goes to another thread by the thread's start or join, a lock, or a sequentially consistent atomic; no call
//! in a signal handler, nor in the child of a fork of a process with threads; a stack with 16 KB to spare. An end that is forgotten is never freed.
#![allow(dead_code)] // a program needn't make each call

use std::cell::UnsafeCell;
use std::ffi::c_void;
use std::fmt;
use std::sync::Arc;

/// A frame: left and right.
pub type Frame = [i16; 2];

/// The most frames that one call takes. Of more, the first of them are taken.
pub const MOST_FRAMES: usize = 1024;
/// The most frames that a stream, a recording or a static buffer has.
pub const MOST_BUFFER: usize = 8192;
/// The gain 1, in 4.12.
pub const UNITY: u16 = 0x1000;
/// The count of a loop without end.
pub const WITHOUT_END: u32 = 0xffff_ffff;

/// A flag of a stream: frames were missing.
pub const UNDERRUN: u32 = 0x01;
/// A flag of a stream: it is dead, and the client is to open another one.
pub const INVALID: u32 = 0x04;
/// A flag of a stream: the server has disabled it, and the client is to start it again.
pub const DISABLED: u32 = 0x08;

/// What a call is refused for: the header's ZG_E_..
#[derive(Clone, Copy, Debug, PartialEq, Eq)]
pub enum Error {
    /// An argument is out of its range.
    Argument,
    /// Out of memory: only from an opening, which then changed nothing.
    Memory,
    /// The handle is closed, or of another kind: no end here has such a handle.
    Handle,
    /// INVALID was seen: AudioTrack's DEAD_OBJECT.
    Dead,
    /// This end is shut for good.
    Corrupt,
    /// This end has counted as far as it can.
    Limit,
    /// 64 commands of the track are on their way: the normal mixer's next turn takes them.
    Full,
}

impl fmt::Display for Error {
    fn fmt(&self, f: &mut fmt::Formatter<'_>) -> fmt::Result {
        f.write_str(match self {
            Error::Argument => "an argument is out of its range",
            Error::Memory => "out of memory",
            Error::Handle => "the handle is closed, or of another kind",
            Error::Dead => "the stream is dead",
            Error::Corrupt => "this end is shut for good",
            Error::Limit => "this end has counted as far as it can",
            Error::Full => "64 commands are on their way",
        })
    }
}

impl std::error::Error for Error {}

// A call's answer: 0 or more, or one of the header's errors.
fn answered(answer: i64) -> Result<u64, Error> {
    match answer {
        -1 => Err(Error::Argument),
        -2 => Err(Error::Memory),
        -3 => Err(Error::Handle),
        -4 => Err(Error::Dead),
        -5 => Err(Error::Corrupt),
        -6 => Err(Error::Limit),
        -7 => Err(Error::Full),
        _ => Ok(u64::try_from(answer).expect("an answer that the header has")),
    }
}

// How many of these frames one call is given.
fn first_of(frames: &[Frame]) -> usize {
    frames.len().min(MOST_FRAMES)
}

// zg_handle: two words of the library's own.
#[repr(C)]
struct Handle {
    tag: u64,
    at: *mut c_void,
}

// The functions of the archive, which take no null pointer, and frames as pairs of samples.
extern "C" {
    fn zeldorgacs_stream_open(frames: u32, client: *mut Handle, server: *mut Handle) -> i64;
    fn zeldorgacs_client_write(client: *mut Handle, samples: *const i16, frames: usize) -> i64;
    fn zeldorgacs_client_flush(client: *mut Handle) -> i64;
    fn zeldorgacs_client_set_gains(client: *mut Handle, left: u16, right: u16) -> i64;
    fn zeldorgacs_client_status(client: *mut Handle) -> i64;
    fn zeldorgacs_client_clear_disabled(client: *mut Handle) -> i64;
    fn zeldorgacs_client_released(client: *mut Handle) -> i64;
    fn zeldorgacs_client_flushes(client: *mut Handle) -> i64;
    fn zeldorgacs_client_frames(client: *mut Handle) -> i64;
    fn zeldorgacs_server_read(
        server: *mut Handle,
        samples: *mut i16,
        frames: usize,
        flushed: *mut i64,
    ) -> i64;
    fn zeldorgacs_server_available(server: *mut Handle, flushed: *mut i64) -> i64;
    fn zeldorgacs_server_gains(server: *mut Handle) -> i64;
    fn zeldorgacs_server_tally(server: *mut Handle, missing: u32) -> i64;
    fn zeldorgacs_server_invalidate(server: *mut Handle) -> i64;
    fn zeldorgacs_server_disable(server: *mut Handle) -> i64;
    fn zeldorgacs_server_set_status(server: *mut Handle, word: u32) -> i64;
    fn zeldorgacs_server_consumed(server: *mut Handle) -> i64;
    fn zeldorgacs_server_flush_seen(server: *mut Handle) -> i64;
    fn zeldorgacs_server_frames(server: *mut Handle) -> i64;
    fn zeldorgacs_record_open(frames: u32, capture: *mut Handle, listener: *mut Handle) -> i64;
    fn zeldorgacs_capture_supply(capture: *mut Handle, samples: *const i16, frames: usize) -> i64;
    fn zeldorgacs_capture_supplied(capture: *mut Handle) -> i64;
    fn zeldorgacs_capture_overrun(capture: *mut Handle) -> i64;
    fn zeldorgacs_listener_read(listener: *mut Handle, samples: *mut i16, frames: usize) -> i64;
    fn zeldorgacs_listener_total(listener: *mut Handle) -> i64;
    fn zeldorgacs_static_open(
        samples: *const i16,
        frames: usize,
        setter: *mut Handle,
        player: *mut Handle,
    ) -> i64;
    fn zeldorgacs_setter_set(setter: *mut Handle, start: u32, end: u32, count: u32) -> i64;
    fn zeldorgacs_player_play(
        player: *mut Handle,
        left: u16,
        right: u16,
        samples: *mut i16,
        frames: usize,
        number: *mut i64,
    ) -> i64;
    fn zeldorgacs_mixer_open(
        mixer: *const Mixer,
        specs: *const TrackSpec,
        count: usize,
        turns: *mut Handle,
        cycles: *mut Handle,
        tracks: *mut Handle,
        handles: usize,
    ) -> i64;
    fn zeldorgacs_track_write(track: *mut Handle, samples: *const i16, frames: usize) -> i64;
    fn zeldorgacs_track_start(track: *mut Handle) -> i64;
    fn zeldorgacs_track_pause(track: *mut Handle) -> i64;
    fn zeldorgacs_track_stop(track: *mut Handle) -> i64;
    fn zeldorgacs_track_flush(track: *mut Handle) -> i64;
    fn zeldorgacs_track_remove(track: *mut Handle) -> i64;
    fn zeldorgacs_track_set_gains(track: *mut Handle, left: u16, right: u16) -> i64;
    fn zeldorgacs_track_status(track: *mut Handle, info: *mut TrackInfo) -> i64;
    fn zeldorgacs_normal_turn(normal: *mut Handle) -> i64;
    fn zeldorgacs_normal_turns(normal: *mut Handle) -> i64;
    fn zeldorgacs_fast_cycle(fast: *mut Handle, samples: *mut i16, frames: usize) -> i64;
    fn zeldorgacs_fast_frames(fast: *mut Handle) -> i64;
    fn zeldorgacs_close(handle: *mut Handle);
}

// One end, closed when it is dropped. Its two words lie in a box, since nobody but the library may copy those of an open handle, and a move would. By
// the pointer among them an end is neither `Send` nor `Sync` by itself.
struct End(Box<Handle>);

// SAFETY: the header lets another thread go on with a handle once that is ordered by a thread's start or join, a lock or a sequentially consistent
// atomic. One owner has the end and each call takes it by `&mut`, so there is one call at a time; by which of these it is sent is what the caller owes
// (the head of this file). What the two ends of a pair share is the library's, which lets two threads use it. That an end may be sent is the header's
// word, which also says what of that is proved.
unsafe impl Send for End {}

impl End {
    fn closed() -> End {
        End(Box::new(Handle {
            tag: 0,
            at: std::ptr::null_mut(),
        }))
    }

    fn at(&mut self) -> *mut Handle {
        &mut *self.0
    }
}

impl Drop for End {
    fn drop(&mut self) {
        // SAFETY: two words that only the library has written, or that are closed; the library frees what they lead to once.
        unsafe { zeldorgacs_close(self.at()) }
    }
}

/// What the server of a stream finds.
#[derive(Clone, Copy, Debug, PartialEq, Eq)]
pub enum Found {
    /// So many frames.
    Frames(usize),
    /// A flush, which discarded so many frames. None was read.
    Flushed(u64),
}

// What was found, by the answer and by what the call said of a flush, -1 for none.
fn found(answer: i64, flushed: i64) -> Result<Found, Error> {
    let count = answered(answer)?;
    Ok(match u64::try_from(flushed) {
        Ok(dropped) => Found::Flushed(dropped),
        Err(_) => Found::Frames(count as usize),
    })
}

/// The client of a stream: it writes frames. AudioTrackClientProxy.
pub struct Client(End);

/// The server of a stream: it reads them. AudioTrackServerProxy.
pub struct Server(End);

/// Opens a stream for so many frames, 1 to `MOST_BUFFER`. Argument, Memory.
pub fn open_stream(frames: u32) -> Result<(Client, Server), Error> {
    let (mut client, mut server) = (End::closed(), End::closed());
    // SAFETY: two handles of our own, which aren't one.
    answered(unsafe { zeldorgacs_stream_open(frames, client.at(), server.at()) })?;
    Ok((Client(client), Server(server)))
}

impl Client {
    /// Writes the first of these frames, as many as there is room for before the end of the buffer: how many. 0 if the stream is full or `frames` is
    /// empty. After a short count a second call may find room again, at the start of the buffer. Dead, Limit.
    pub fn write(&mut self, frames: &[Frame]) -> Result<usize, Error> {
        // SAFETY: the frames are readable for the call, and no pointer of a slice is null.
        let count = answered(unsafe {
            zeldorgacs_client_write(self.0.at(), frames.as_ptr().cast(), first_of(frames))
        })?;
        Ok(count as usize)
    }

    /// Asks that the frames written so far and not read yet be discarded: how many times this client has asked. Limit.
    pub fn flush(&mut self) -> Result<u64, Error> {
        // SAFETY: the handle is ours, as in each call below.
        answered(unsafe { zeldorgacs_client_flush(self.0.at()) })
    }

    /// Sets the gains of the two sides, each in 4.12, 0 to `UNITY`. The library hands them to the server, and doesn't apply them. Argument.
    pub fn set_gains(&mut self, left: u16, right: u16) -> Result<(), Error> {
        answered(unsafe { zeldorgacs_client_set_gains(self.0.at(), left, right) })?;
        Ok(())
    }

    /// The status word that the server stored last, 0 before any.
    pub fn status(&mut self) -> Result<u32, Error> {
        Ok(answered(unsafe { zeldorgacs_client_status(self.0.at()) })? as u32)
    }

    /// Clears `DISABLED`, and answers all flags as they were before.
    pub fn clear_disabled(&mut self) -> Result<u32, Error> {
        Ok(answered(unsafe { zeldorgacs_client_clear_disabled(self.0.at()) })? as u32)
    }

    /// How many frames this client has written.
    pub fn released(&mut self) -> Result<u64, Error> {
        answered(unsafe { zeldorgacs_client_released(self.0.at()) })
    }

    /// How many times it has asked for a flush.
    pub fn flushes(&mut self) -> Result<u64, Error> {
        answered(unsafe { zeldorgacs_client_flushes(self.0.at()) })
    }

    /// For how many frames the stream was opened.
    pub fn frames(&mut self) -> Result<usize, Error> {
        Ok(answered(unsafe { zeldorgacs_client_frames(self.0.at()) })? as usize)
    }
}

impl Server {
    /// Reads as many frames as there are, up to the length of `frames`, whose rest stays. A flush is noticed first: then this call reads none. Corrupt.
    pub fn read(&mut self, frames: &mut [Frame]) -> Result<Found, Error> {
        let mut flushed = -1;
        // SAFETY: the frames are writable for the call, and no pointer of a slice is null.
        let answer = unsafe {
            zeldorgacs_server_read(
                self.0.at(),
                frames.as_mut_ptr().cast(),
                first_of(frames),
                &mut flushed,
            )
        };
        found(answer, flushed)
    }

    /// How many frames there are, of which it reads none. It notices a flush as a read does. Corrupt.
    pub fn available(&mut self) -> Result<Found, Error> {
        let mut flushed = -1;
        // SAFETY: the handle is ours, as in each call below.
        let answer = unsafe { zeldorgacs_server_available(self.0.at(), &mut flushed) };
        found(answer, flushed)
    }

    /// The gains that the client set last, left and right, both `UNITY` before any.
    pub fn gains(&mut self) -> Result<(u16, u16), Error> {
        let gains = answered(unsafe { zeldorgacs_server_gains(self.0.at()) })?;
        Ok((gains as u16, (gains >> 16) as u16))
    }

    /// Counts so many frames as missing, and sets `UNDERRUN`. Argument if `missing` is 0.
    pub fn tally(&mut self, missing: u32) -> Result<(), Error> {
        answered(unsafe { zeldorgacs_server_tally(self.0.at(), missing) })?;
        Ok(())
    }

    /// Sets `INVALID`: each later write of the client answers Dead.
    pub fn invalidate(&mut self) -> Result<(), Error> {
        answered(unsafe { zeldorgacs_server_invalidate(self.0.at()) })?;
        Ok(())
    }

    /// Sets `DISABLED`, which the client clears.
    pub fn disable(&mut self) -> Result<(), Error> {
        answered(unsafe { zeldorgacs_server_disable(self.0.at()) })?;
        Ok(())
    }

    /// Stores the status word, which the client sees.
    pub fn set_status(&mut self, word: u32) -> Result<(), Error> {
        answered(unsafe { zeldorgacs_server_set_status(self.0.at(), word) })?;
        Ok(())
    }

    /// How many frames this server has read and discarded.
    pub fn consumed(&mut self) -> Result<u64, Error> {
        answered(unsafe { zeldorgacs_server_consumed(self.0.at()) })
    }

    /// How many flushes had been asked for, by the last one that it noticed.
    pub fn flush_seen(&mut self) -> Result<u64, Error> {
        answered(unsafe { zeldorgacs_server_flush_seen(self.0.at()) })
    }

    /// For how many frames the stream was opened.
    pub fn frames(&mut self) -> Result<usize, Error> {
        Ok(answered(unsafe { zeldorgacs_server_frames(self.0.at()) })? as usize)
    }
}

/// The source of a recording, which never waits: what finds no room is lost, and counted. RecordThread.
pub struct Capture(End);

/// The reader of a recording. AudioRecord.
pub struct Listener(End);

/// Opens a recording for so many frames, 1 to `MOST_BUFFER`. Argument, Memory.
pub fn open_record(frames: u32) -> Result<(Capture, Listener), Error> {
    let (mut capture, mut listener) = (End::closed(), End::closed());
    // SAFETY: two handles of our own, which aren't one.
    answered(unsafe { zeldorgacs_record_open(frames, capture.at(), listener.at()) })?;
    Ok((Capture(capture), Listener(listener)))
}

impl Capture {
    /// Supplies these frames: the first of them are put, as many as there is room for, and the others are lost. How many were put. Limit.
    pub fn supply(&mut self, frames: &[Frame]) -> Result<usize, Error> {
        // SAFETY: the frames are readable for the call, and no pointer of a slice is null.
        let put = answered(unsafe {
            zeldorgacs_capture_supply(self.0.at(), frames.as_ptr().cast(), first_of(frames))
        })?;
        Ok(put as usize)
    }

    /// How many frames were supplied.
    pub fn supplied(&mut self) -> Result<u64, Error> {
        // SAFETY: the handle is ours, as in the call below.
        answered(unsafe { zeldorgacs_capture_supplied(self.0.at()) })
    }

    /// How many of them were lost.
    pub fn overrun(&mut self) -> Result<u64, Error> {
        answered(unsafe { zeldorgacs_capture_overrun(self.0.at()) })
    }
}

impl Listener {
    /// Reads as many frames as there are, up to the length of `frames`, whose rest stays: how many. Limit.
    pub fn read(&mut self, frames: &mut [Frame]) -> Result<usize, Error> {
        // SAFETY: the frames are writable for the call, and no pointer of a slice is null.
        let count = answered(unsafe {
            zeldorgacs_listener_read(self.0.at(), frames.as_mut_ptr().cast(), first_of(frames))
        })?;
        Ok(count as usize)
    }

    /// How many frames were read.
    pub fn total(&mut self) -> Result<u64, Error> {
        // SAFETY: the handle is ours.
        answered(unsafe { zeldorgacs_listener_total(self.0.at()) })
    }
}

/// The setter of a static buffer: it sets loops while the sound plays. StaticAudioTrackClientProxy.
pub struct Setter(End);

/// The player of a static buffer. StaticAudioTrackServerProxy.
pub struct Player(End);

/// What one call of a player did.
#[derive(Clone, Copy, Debug, PartialEq, Eq)]
pub struct Played {
    /// How many frames of the buffer were taken. What stands behind them is silence.
    pub frames: usize,
    /// The number of the setting, 0 before any.
    pub setting: u64,
}

/// Opens a static buffer with a copy of these frames, 1 to `MOST_BUFFER`. Argument, Memory.
pub fn open_static(frames: &[Frame]) -> Result<(Setter, Player), Error> {
    if frames.len() > MOST_BUFFER {
        return Err(Error::Argument);
    }
    let (mut setter, mut player) = (End::closed(), End::closed());
    // SAFETY: the frames are readable for the call, no pointer of a slice is null, and two handles of our own aren't one.
    answered(unsafe {
        zeldorgacs_static_open(
            frames.as_ptr().cast(),
            frames.len(),
            setter.at(),
            player.at(),
        )
    })?;
    Ok((Setter(setter), Player(player)))
}

impl Setter {
    /// Sets where the player is to play: with count 0 from start to the end of the buffer; else from start to end, again so many times, or
    /// `WITHOUT_END`, and then on to the end of the buffer. The player judges the numbers when it sees them. The number of this setting, from 1. Limit.
    pub fn set(&mut self, start: u32, end: u32, count: u32) -> Result<u64, Error> {
        // SAFETY: the handle is ours.
        answered(unsafe { zeldorgacs_setter_set(self.0.at(), start, end, count) })
    }
}

impl Player {
    /// Plays the next frames of the buffer to the places of `frames`, at most `MOST_FRAMES` of them, by the newest setting, at gains in 4.12, above
    /// `UNITY` taken for that. Corrupt if a setting doesn't fit the buffer: this player is shut then for good, and `frames` is all silence. Argument if
    /// `frames` is empty.
    pub fn play(&mut self, left: u16, right: u16, frames: &mut [Frame]) -> Result<Played, Error> {
        let mut number = 0;
        // SAFETY: the frames are writable for the call, and no pointer of a slice is null.
        let answer = unsafe {
            zeldorgacs_player_play(
                self.0.at(),
                left,
                right,
                frames.as_mut_ptr().cast(),
                first_of(frames),
                &mut number,
            )
        };
        Ok(Played {
            frames: answered(answer)? as usize,
            setting: answered(number)?,
        })
    }
}

/// The most tracks of a mixer.
pub const MOST_TRACKS: usize = 32;

/// What a mixer is: zg_mixer_spec.
#[repr(C)]
#[derive(Clone, Copy, Debug, PartialEq, Eq)]
pub struct Mixer {
    /// The frames of a cycle, 1 to 1024.
    pub frames: u32,
    /// The cycles of a normal buffer, 1 to 16.
    pub normal: u32,
    /// How many cycles the fast mixer's log has before it forgets them: 1 will do, as nothing reads them.
    pub log: u32,
}

/// What a track is: zg_track_spec.
#[repr(C)]
#[derive(Clone, Copy, Debug, PartialEq, Eq)]
pub struct TrackSpec {
    /// Whether it asks for a slot of the fast mixer.
    pub fast: bool,
    /// Whether its frames have one channel, the left.
    pub mono: bool,
    /// A scale of its gains in 4.12, up to `UNITY`.
    pub scale: u16,
    /// The frames of its buffer, 1 to `MOST_BUFFER`.
    pub frames: u32,
}

/// What is known of a track: zg_track_info.
#[repr(C)]
#[derive(Clone, Copy, Debug, Default, PartialEq, Eq)]
pub struct TrackInfo {
    /// The number of its life, as the header has them: `ACTIVE`, `PAUSED`, `STOPPED`, `FLUSHED` and others.
    pub life: u32,
    /// 1 once a stop let all that was written be consumed, until a start.
    pub drained: u32,
    /// How many commands were obeyed, modulo 2^24: the opening is the first.
    pub settled: u32,
    /// The flags of the stream before the call, which clears `DISABLED`.
    pub flags: u32,
    /// The frames written so far.
    pub released: u64,
}

/// A life: the track plays.
pub const ACTIVE: u32 = 2;
/// A life: the track is paused.
pub const PAUSED: u32 = 4;
/// A life: the track has stopped.
pub const STOPPED: u32 = 8;
/// A life: the track is flushed.
pub const FLUSHED: u32 = 9;

/// What a turn of the normal mixer was.
#[derive(Clone, Copy, Debug, PartialEq, Eq)]
pub enum Turn {
    /// It didn't mix: nothing plays through it, or the pipe is full.
    Turned,
    /// It mixed a buffer.
    Mixed,
    /// All tracks were removed, and the fast mixer knows.
    Ended,
}

/// What a cycle of the fast mixer was. Only Mixed writes the frames.
#[derive(Clone, Copy, Debug, PartialEq, Eq)]
pub enum Cycle {
    Mixed,
    /// Nothing plays.
    Idle,
    /// The first idle cycle after some that mixed.
    Cold,
    /// The mixer has ended.
    Exit,
}

// The handles of a mixer's tracks, which lie side by side. Each is used by its track alone.
struct Handles(Box<[UnsafeCell<Handle>]>);

// SAFETY: as for an `End`; and each place is used by one `Track` alone, which takes it by `&mut`.
unsafe impl Send for Handles {}
unsafe impl Sync for Handles {}

/// A track of a mixer: AudioTrack. Its drop closes it, and doesn't remove the track.
pub struct Track {
    handles: Arc<Handles>,
    number: usize,
}

/// The normal mixer, one turn every `normal` periods: MixerThread.
pub struct Normal(End);

/// The fast mixer, one cycle a period: FastMixer.
pub struct Fast(End);

/// Opens a mixer with tracks of these specs, 1 to `MOST_TRACKS`, all of which are opened. Argument, Memory.
pub fn open_mixer(mixer: Mixer, specs: &[TrackSpec]) -> Result<(Normal, Fast, Vec<Track>), Error> {
    if specs.len() > MOST_TRACKS {
        return Err(Error::Argument);
    }
    let closed = || {
        UnsafeCell::new(Handle {
            tag: 0,
            at: std::ptr::null_mut(),
        })
    };
    let handles = Arc::new(Handles(specs.iter().map(|_| closed()).collect()));
    let tracks = (0..specs.len()).map(|number| Track {
        handles: handles.clone(),
        number,
    });
    let (tracks, mut normal, mut fast) = (tracks.collect(), End::closed(), End::closed());
    // SAFETY: the specs are readable for the call, the handles are our own and no two of them one, and nobody else has the tracks' yet. An UnsafeCell
    // of a handle is laid out as the handle.
    answered(unsafe {
        zeldorgacs_mixer_open(
            &mixer,
            specs.as_ptr(),
            specs.len(),
            normal.at(),
            fast.at(),
            handles.0.as_ptr().cast_mut().cast(),
            specs.len(),
        )
    })?;
    Ok((Normal(normal), Fast(fast), tracks))
}

impl Track {
    fn at(&mut self) -> *mut Handle {
        self.handles.0[self.number].get()
    }

    /// Writes the first of these frames, as many as there is room for before the end of the buffer: how many. Dead, Limit.
    pub fn write(&mut self, frames: &[Frame]) -> Result<usize, Error> {
        // SAFETY: the frames are readable for the call, and no pointer of a slice is null.
        let count = answered(unsafe {
            zeldorgacs_track_write(self.at(), frames.as_ptr().cast(), first_of(frames))
        })?;
        Ok(count as usize)
    }

    /// Plays from the next turn on. Full, Dead, Limit, as each command below.
    pub fn start(&mut self) -> Result<(), Error> {
        // SAFETY: the handle is ours, as in each call below.
        answered(unsafe { zeldorgacs_track_start(self.at()) })?;
        Ok(())
    }

    /// Pauses: what was written stays, and a start goes on from there.
    pub fn pause(&mut self) -> Result<(), Error> {
        answered(unsafe { zeldorgacs_track_pause(self.at()) })?;
        Ok(())
    }

    /// Stops once all that was written is consumed. Limit also if 2^32 frames or more were written.
    pub fn stop(&mut self) -> Result<(), Error> {
        answered(unsafe { zeldorgacs_track_stop(self.at()) })?;
        Ok(())
    }

    /// Discards what was written and not played yet, also if the answer is Full.
    pub fn flush(&mut self) -> Result<(), Error> {
        answered(unsafe { zeldorgacs_track_flush(self.at()) })?;
        Ok(())
    }

    /// Ends the track for good.
    pub fn remove(&mut self) -> Result<(), Error> {
        answered(unsafe { zeldorgacs_track_remove(self.at()) })?;
        Ok(())
    }

    /// Sets the gains of the two sides, each in 4.12, 0 to `UNITY`. Argument.
    pub fn set_gains(&mut self, left: u16, right: u16) -> Result<(), Error> {
        answered(unsafe { zeldorgacs_track_set_gains(self.at(), left, right) })?;
        Ok(())
    }

    /// What is known of the track. It clears `DISABLED`.
    pub fn status(&mut self) -> Result<TrackInfo, Error> {
        let mut info = TrackInfo::default();
        // SAFETY: the handle is ours, and so is the place of what is told.
        answered(unsafe { zeldorgacs_track_status(self.at(), &mut info) })?;
        Ok(info)
    }
}

impl Drop for Track {
    fn drop(&mut self) {
        // SAFETY: two words that only the library has written, or that are closed; the library frees what they lead to once.
        unsafe { zeldorgacs_close(self.at()) }
    }
}

impl Normal {
    /// One turn. Limit after 2^55 of them.
    pub fn turn(&mut self) -> Result<Turn, Error> {
        // SAFETY: the handle is ours, as in the call below.
        Ok(
            match answered(unsafe { zeldorgacs_normal_turn(self.0.at()) })? {
                0 => Turn::Turned,
                1 => Turn::Mixed,
                _ => Turn::Ended,
            },
        )
    }

    /// How many turns it has made.
    pub fn turns(&mut self) -> Result<u64, Error> {
        answered(unsafe { zeldorgacs_normal_turns(self.0.at()) })
    }
}

impl Fast {
    /// One cycle: Mixed if it wrote the frames. Argument if there are not as many as a cycle has, Limit after 2^32 - 1 cycles.
    pub fn cycle(&mut self, frames: &mut [Frame]) -> Result<Cycle, Error> {
        if frames.len() > MOST_FRAMES {
            return Err(Error::Argument);
        }
        // SAFETY: the frames are writable for the call, and no pointer of a slice is null.
        let answer = unsafe {
            zeldorgacs_fast_cycle(self.0.at(), frames.as_mut_ptr().cast(), frames.len())
        };
        Ok(match answered(answer)? {
            0 => Cycle::Mixed,
            1 => Cycle::Idle,
            2 => Cycle::Cold,
            _ => Cycle::Exit,
        })
    }

    /// The frames of a cycle.
    pub fn frames(&mut self) -> Result<usize, Error> {
        // SAFETY: the handle is ours.
        Ok(answered(unsafe { zeldorgacs_fast_frames(self.0.at()) })? as usize)
    }
}
