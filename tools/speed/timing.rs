//! How long it takes to write a message and to read it, again and again.

ghost use Rattle.mb_msg.specs.Fits.{Fits};

use mb_base::Shape;
use mb_msg::{Message, decode, encode, fits};
use std::io;
use std::io::ErrorKind;
use std::time::{Duration, Instant};

/// About so many bytes of each message are written and read.
const AMOUNT: usize = 64_000_000;

/// How often the same was done, and how long that took in all.
#[derive(Clone, Copy)]
pub struct Rounds {
    count: usize,
    time: Duration,
}

impl Rounds {
    /// The nanoseconds of one round.
    pub fn once(&self) -> u128 {
        self.time.as_nanos() / (self.count as u128).max(1)
    }
}

/// The bytes of a message, and how long it took to write them and to read the message from them.
#[derive(Clone, Copy)]
pub struct Speed {
    pub len: usize,
    pub written: Rounds,
    pub read: Rounds,
}

/// What is written is let go within the time.
fn writing(rt: &HostRuntime, shape: &Shape, message: &Message, count: usize) -> io::Result<Rounds>
    requires { Fits shape.now message.now }
{
    let start = Instant::now(rt)?;
    for _ in 0..count {
        if encode(rt.alloc(), shape, message).is_err() {
            return Err(ErrorKind::OutOfMemory.into());
        }
    }
    let time = start.elapsed(rt)?;
    Ok(Rounds { count, time })
}

/// What is read is let go within the time.
fn reading(rt: &HostRuntime, shape: &Shape, bytes: &[u8], count: usize) -> io::Result<Rounds> {
    let start = Instant::now(rt)?;
    for _ in 0..count {
        if decode(rt.alloc(), shape, bytes).is_err() {
            return Err(ErrorKind::OutOfMemory.into());
        }
    }
    let time = start.elapsed(rt)?;
    Ok(Rounds { count, time })
}

/// How fast a message is written and read. It is an error where the message does not fit.
pub fn measured(rt: &HostRuntime, shape: &Shape, message: &Message) -> io::Result<Speed> {
    if !fits(shape, message) {
        return Err(ErrorKind::InvalidInput.into());
    }
    let Ok(bytes) = encode(rt.alloc(), shape, message) else {
        return Err(ErrorKind::OutOfMemory.into());
    };
    let len = bytes.len();
    let count = AMOUNT / len.max(1) + 1;
    let written = writing(rt, shape, message, count)?;
    let read = reading(rt, shape, &bytes, count)?;
    Ok(Speed { len, written, read })
}
