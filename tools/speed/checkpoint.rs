//! How long the digest of a state takes of which one key was changed.

use crate::least::{CALLS, Least};
use mb_base::{NoMemory, Shape};
use mb_cache::{Table, digest};
use mb_kv::{Kv, MAX_KEYS};
use mb_service::Service;
use std::alloc::Global;
use std::io;
use std::io::ErrorKind;
use std::time::Instant;

/// The first byte of the last digest, to compare, and the times: of the first digest, for which all is hashed, and the least of those
/// before each of which one key was changed.
#[derive(Clone, Copy)]
pub struct CheckpointSpeed {
    pub digest: u8,
    pub first: Least,
    pub changed: Least,
}

/// Puts a value of so many bytes under the key of a number.
fn put(alloc: Global, kv: &mut Kv, number: u16, value: u16) -> Result<(), NoMemory> {
    let [high, low] = number.to_be_bytes();
    let [long, short] = value.to_be_bytes();
    let mut op = vec![in alloc; 1, 2, high, low, long, short]?;
    for _ in 0..value {
        op.push(b'v')?;
    }
    kv.apply(alloc, op.as_slice())?;
    Ok(())
}

/// As many keys as are allowed, each with a value of so many bytes.
fn filled(alloc: Global, value: u16) -> Result<Kv, NoMemory> {
    let mut kv = Kv::new(alloc);
    for number in 0..MAX_KEYS as u16 {
        put(alloc, &mut kv, number, value)?;
    }
    Ok(kv)
}

/// How long the digest takes where each value has so many bytes.
pub fn checkpoint_speed(rt: &HostRuntime, shape: Shape, value: u16) -> io::Result<CheckpointSpeed> {
    let alloc = rt.alloc();
    let (Ok(mut kv), Ok(table)) = (filled(alloc, value), Table::make(alloc, shape)) else {
        return Err(ErrorKind::OutOfMemory.into());
    };
    let mut first = Least::none();
    let start = Instant::now(rt)?;
    let Ok(whole) = digest(alloc, &mut kv, &table, 32) else {
        return Err(ErrorKind::OutOfMemory.into());
    };
    first.take(start.elapsed(rt)?);
    let mut speed = CheckpointSpeed {
        digest: whole[0],
        first,
        changed: Least::none(),
    };
    for _ in 0..CALLS {
        if put(alloc, &mut kv, 77, value).is_err() {
            return Err(ErrorKind::OutOfMemory.into());
        }
        let start = Instant::now(rt)?;
        let Ok(next) = digest(alloc, &mut kv, &table, 64) else {
            return Err(ErrorKind::OutOfMemory.into());
        };
        speed.changed.take(start.elapsed(rt)?);
        speed.digest = next[0];
    }
    Ok(speed)
}
