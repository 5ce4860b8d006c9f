//! How long it takes to read a NEW_VIEW and to check it.

ghost use Rattle.std.specs.Prelude.{◌≡◌, IfOk};
ghost use Rattle.std.specs.List.{AllByRecursion};
ghost use Rattle.mb_msg.specs.Bodies.{FitsBody};
ghost use Rattle.mb_msg.specs.Fits.{FitsMember, FitsNewView, CanDigestVotes};

use crate::least::{CALLS, Least};
use mb_base::{Duplicate, Shape};
use mb_msg::{Body, Message, NewView, ViewChange, decode};
use mb_plan::{check_new_view, usable};
use mb_usig::Usig;
use std::io;
use std::io::ErrorKind;
use std::time::Instant;

/// The length of a NEW_VIEW in bytes, the entries of its first log, and the least times.
#[derive(Clone, Copy)]
pub struct NewViewSpeed {
    pub len: usize,
    pub entries: usize,
    /// With the digests that a host has it keep before its check.
    pub read: Least,
    /// By `check_new_view`.
    pub checked: Least,
    pub read_and_checked: Least,
    /// By `usable` of the first log, whose votes keep the digests of their batches. That they were taken is not counted.
    pub log_checked: Least,
}

/// How many entries a VIEW_CHANGE shows.
fn entry_count(change: &ViewChange) -> usize {
    match &change.body {
        Body::Whole(body) => body.as_part().entries.len(),
        Body::Bare(_) => 0,
    }
}

/// A NEW_VIEW as a host has it when it checks it: read, and beside what each member shows the digest of that. It is an error where the bytes are none,
/// and for want of memory.
fn new_view_of(rt: &HostRuntime, shape: &Shape, bytes: &[u8]) -> io::Result<NewView>
    ensures { IfOk result (FitsNewView shape.now) }
{
    let Ok(Message::NewView(new_view)) = decode(rt.alloc(), shape, bytes) else {
        return Err(ErrorKind::InvalidData.into());
    };
    match new_view.with_digests(rt.alloc(), shape) {
        Ok(new_view) => Ok(new_view),
        Err(_) => Err(ErrorKind::OutOfMemory.into()),
    }
}

/// Whether bytes are a NEW_VIEW, which is let go.
fn is_read(rt: &HostRuntime, shape: &Shape, bytes: &[u8]) -> bool {
    new_view_of(rt, shape, bytes).is_ok()
}

/// Whether bytes are a NEW_VIEW that follows from its members.
fn is_sound(rt: &HostRuntime, shape: &Shape, usig: &Usig, bytes: &[u8]) -> bool
    requires { usig.now.shape ≡ shape.now }
{
    match new_view_of(rt, shape, bytes) {
        Ok(m) => check_new_view(rt.alloc(), shape, usig, &m).is_ok(),
        Err(_) => false,
    }
}

/// The time of reading, and of taking the digests of what the members show.
fn reading(rt: &HostRuntime, shape: &Shape, bytes: &[u8]) -> io::Result<Least> {
    let mut least = Least::none();
    for _ in 0..CALLS {
        let start = Instant::now(rt)?;
        let is_done = is_read(rt, shape, bytes);
        least.take(start.elapsed(rt)?);
        if !is_done {
            return Err(ErrorKind::InvalidData.into());
        }
    }
    Ok(least)
}

/// The time of reading and checking.
fn reading_and_checking(
    rt: &HostRuntime,
    shape: &Shape,
    usig: &Usig,
    bytes: &[u8],
) -> io::Result<Least>
    requires { usig.now.shape ≡ shape.now }
{
    let mut least = Least::none();
    for _ in 0..CALLS {
        let start = Instant::now(rt)?;
        let is_done = is_sound(rt, shape, usig, bytes);
        least.take(start.elapsed(rt)?);
        if !is_done {
            return Err(ErrorKind::InvalidData.into());
        }
    }
    Ok(least)
}

/// The time of checking what was read.
fn checking(rt: &HostRuntime, shape: &Shape, usig: &Usig, new_view: &NewView) -> io::Result<Least>
    requires { (usig.now.shape ≡ shape.now) × FitsNewView shape.now new_view.now }
{
    let mut least = Least::none();
    for _ in 0..CALLS {
        let start = Instant::now(rt)?;
        let is_done = check_new_view(rt.alloc(), shape, usig, new_view).is_ok();
        least.take(start.elapsed(rt)?);
        if !is_done {
            return Err(ErrorKind::InvalidData.into());
        }
    }
    Ok(least)
}

/// A VIEW_CHANGE as a host has it when it checks it: its votes keep the digests of their batches. An error is want of memory.
fn kept(rt: &HostRuntime, change: &ViewChange) -> io::Result<ViewChange>
    requires { FitsBody CanDigestVotes change.now.body }
    ensures { IfOk result (λ m. m ≡ change.now) }
{
    match change.duplicate(rt.alloc()) {
        Ok(copy) => Ok(copy.with_digests()),
        Err(_) => Err(ErrorKind::OutOfMemory.into()),
    }
}

/// The entries of the first log, and the time of checking it.
#[tactic(auto, using(mb_msg::proofs::Opened::change_can_digest))]
fn checking_first(
    rt: &HostRuntime,
    shape: &Shape,
    usig: &Usig,
    changes: &[ViewChange],
) -> io::Result<(usize, Least)>
    requires { (usig.now.shape ≡ shape.now) × AllByRecursion (FitsMember shape.now) changes.now }
{
    let Some(change) = changes.first() else {
        return Err(ErrorKind::InvalidData.into());
    };
    let change = kept(rt, change)?;
    let mut least = Least::none();
    for _ in 0..CALLS {
        let start = Instant::now(rt)?;
        let is_done = usable(rt.alloc(), shape, usig, &change).is_ok();
        least.take(start.elapsed(rt)?);
        if !is_done {
            return Err(ErrorKind::InvalidData.into());
        }
    }
    Ok((entry_count(&change), least))
}

/// How fast bytes are read as a NEW_VIEW, and that is checked. It is an error where they are none, or one that does not follow.
pub fn new_view_speed(
    rt: &HostRuntime,
    shape: &Shape,
    usig: &Usig,
    bytes: &[u8],
) -> io::Result<NewViewSpeed>
    requires { usig.now.shape ≡ shape.now }
{
    let new_view = new_view_of(rt, shape, bytes)?;
    let checked = checking(rt, shape, usig, &new_view)?;
    let Body::Whole(body) = &new_view.body else {
        return Err(ErrorKind::InvalidData.into());
    };
    let (entries, log_checked) = checking_first(rt, shape, usig, body.changes.as_slice())?;
    Ok(NewViewSpeed {
        len: bytes.len(),
        entries,
        read: reading(rt, shape, bytes)?,
        checked,
        read_and_checked: reading_and_checking(rt, shape, usig, bytes)?,
        log_checked,
    })
}
