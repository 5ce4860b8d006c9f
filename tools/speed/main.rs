//! How fast messages are written and read, and how fast tables are.
//!
//! With the word `measure` it prints three lines for each of three messages: its bytes, and the nanoseconds that writing it once
//! and reading it once take. With the word `tables` it takes the bytes of a NEW_VIEW from standard input, of the largest system and a
//! secret of 32 bytes 7, and prints how long it takes to read it, with the
//! digests of what its members show, and to check it, and the digest of a state takes. All times differ from
//! run to run, so without such a word it says no more than how it is used.
#![tactic(auto)]

mod checkpoint;
mod least;
mod messages;
mod new_view;
mod timing;

use checkpoint::checkpoint_speed;
use least::Least;
use mb_base::Shape;
use mb_msg::{MESSAGE_LIMIT, Message};
use mb_usig::Usig;
use new_view::new_view_speed;
use std::alloc::AllocError;
use std::io::{ErrorKind, Read};
use std::process::ExitCode;
use std::{env, io};
use timing::measured;

/// The exit status where the words are not those of its use.
const USAGE: u8 = 1;

/// What is measured.
#[derive(Clone, Copy, PartialEq, Eq)]
enum Subject {
    Messages,
    Tables,
}

fn subject_of(word: &str) -> Option<Subject> {
    if word == "measure" {
        return Some(Subject::Messages);
    }
    if word == "tables" {
        return Some(Subject::Tables);
    }
    None
}

/// What the one word asks for. None where there is no such word, or more than one.
fn asked(rt: &HostRuntime) -> io::Result<Option<Subject>> {
    let mut words = env::args(rt)?.skip(1);
    let subject = match words.next() {
        Some(word) => subject_of(word.as_str()),
        None => None,
    };
    if words.next().is_some() {
        return Ok(None);
    }
    Ok(subject)
}

fn print_number(rt: &HostRuntime, name: &str, what: &str, number: u128) -> io::Result<()> {
    println!(rt; "{name}, {what}: {number}")
}

fn print_speed(rt: &HostRuntime, shape: &Shape, name: &str, message: &Message) -> io::Result<()> {
    let speed = measured(rt, shape, message)?;
    print_number(rt, name, "bytes", speed.len as u128)?;
    print_number(rt, name, "ns to write", speed.written.once())?;
    print_number(rt, name, "ns to read", speed.read.once())
}

/// The largest system.
fn largest() -> io::Result<Shape> {
    match Shape::new(3, 32, 64) {
        Ok(shape) => Ok(shape),
        Err(_) => Err(ErrorKind::InvalidInput.into()),
    }
}

/// The speed of a message of the largest system, if it could be made.
fn print_made(rt: &HostRuntime, name: &str, made: Result<Message, AllocError>) -> io::Result<()> {
    print_speed(rt, &largest()?, name, &made?)
}

fn print_speeds(rt: &HostRuntime) -> io::Result<()> {
    let alloc = rt.alloc();
    print_made(rt, "COMMIT", messages::commit(alloc))?;
    print_made(rt, "half a NEW_VIEW", messages::new_view(alloc, 480))?;
    print_made(rt, "NEW_VIEW", messages::new_view(alloc, 960))
}

fn print_time(rt: &HostRuntime, name: &str, what: &str, time: &Least) -> io::Result<()> {
    print_number(rt, name, what, time.nanos())
}

/// The speed of a NEW_VIEW, whose bytes stand in standard input.
fn print_new_view(rt: &HostRuntime, shape: Shape) -> io::Result<()> {
    let mut bytes = Vec::new(rt.alloc());
    let mut input = rt.stdin().take(MESSAGE_LIMIT as u64);
    input.read_to_end(&mut bytes)?;
    let usig = Usig::new(shape, 0, &[7; 32]);
    let speed = new_view_speed(rt, &shape, &usig, bytes.as_slice())?;
    print_number(rt, "NEW_VIEW", "bytes", speed.len as u128)?;
    print_time(rt, "NEW_VIEW", "ns to read", &speed.read)?;
    print_time(rt, "NEW_VIEW", "ns to check", &speed.checked)?;
    print_time(
        rt,
        "NEW_VIEW",
        "ns to read and check",
        &speed.read_and_checked,
    )?;
    print_number(rt, "its first log", "entries", speed.entries as u128)?;
    print_time(rt, "its first log", "ns to check", &speed.log_checked)
}

/// The speed of the digests of a state whose values have so many bytes.
fn print_checkpoint(rt: &HostRuntime, shape: Shape, name: &str, value: u16) -> io::Result<()> {
    let speed = checkpoint_speed(rt, shape, value)?;
    print_number(rt, name, "first byte of the digest", speed.digest as u128)?;
    print_time(rt, name, "ns of the first", &speed.first)?;
    print_time(rt, name, "ns with one key changed", &speed.changed)
}

fn print_tables(rt: &HostRuntime) -> io::Result<()> {
    let shape = largest()?;
    print_new_view(rt, shape)?;
    print_checkpoint(rt, shape, "checkpoint, values of 2 bytes", 2)?;
    print_checkpoint(rt, shape, "checkpoint, values of 500 bytes", 500)
}

fn main(rt: HostRuntime) -> io::Result<ExitCode> {
    match asked(&rt)? {
        Some(Subject::Messages) => print_speeds(&rt)?,
        Some(Subject::Tables) => print_tables(&rt)?,
        None => {
            println!(rt; "usage: mb_speed measure | tables < NEW_VIEW")?;
            return Ok(ExitCode::from(USAGE));
        }
    }
    Ok(ExitCode::SUCCESS)
}
