//! Safe calls of libxvfs.a, the lower storey of the xv6 file system, over an image in memory.
//!
//! A `Session` holds a copy of an image. Each step tells the block that it wrote, and the caller
//! writes it to a device before the next step; xvfs.h says what else the caller owes. A device that
//! holds writes back is flushed behind each told write, or, by `Session::open_holding`, at the told
//! syncs alone. A `Host` does all this over a `Device`.
mod host;
mod raw;

pub use host::{Device, Fault, Host};

use std::fmt;
use std::ptr;

/// The bytes of a block.
pub const BLOCK_SIZE: usize = 1024;

/// The most bytes of one read or write.
pub const TRANSFER: usize = 3072;

/// Why a call was refused: by the layer and the number that xvfs.h has.
#[derive(Clone, Copy, Debug, PartialEq, Eq)]
pub struct Refusal {
    pub layer: u32,
    pub number: u32,
    /// Of a check, the inode or the block that has the fault; else 0.
    pub at: u32,
}

impl fmt::Display for Refusal {
    fn fmt(&self, f: &mut fmt::Formatter<'_>) -> fmt::Result {
        write!(f, "refusal {} of layer {}", self.number, self.layer)?;
        if self.at == 0 {
            return Ok(());
        }
        write!(f, ", at {}", self.at)
    }
}

impl std::error::Error for Refusal {}

fn outcome(number: u32, at: u32) -> Result<(), Refusal> {
    if number == 0 {
        return Ok(());
    }
    let layer = number >> 8;
    let number = number & 255;
    Err(Refusal { layer, number, at })
}

/// What a check found.
#[derive(Clone, Copy, Debug, PartialEq, Eq)]
pub struct Report {
    /// 1, or 2 for files of up to 65,803 blocks.
    pub form: u32,
    pub size: u32,
    pub nblocks: u32,
    pub ninodes: u32,
    /// Blocks that recovery would copy home.
    pub logged: u32,
    /// Files once it has.
    pub files: u32,
}

/// Says that an image is sound once its log is copied home, or its first fault.
pub fn check(image: &[u8]) -> Result<Report, Refusal> {
    let mut out = raw::Report::default();
    // SAFETY: pointer and length are of one slice; `out` is this function's.
    let number = unsafe { raw::xvfs_check(image.as_ptr(), image.len(), &mut out) };
    outcome(number, out.at)?;
    Ok(Report {
        form: out.form,
        size: out.size,
        nblocks: out.nblocks,
        ninodes: out.ninodes,
        logged: out.logged,
        files: out.files,
    })
}

/// The version of the library: 65,536 times its first number, 256 times its second one, and its third.
pub fn version() -> u32 {
    // SAFETY: it takes nothing.
    unsafe { raw::xvfs_version() }
}

/// Makes an empty image with 2 to 1024 inode numbers, of form 2 if it is `large`.
pub fn mkfs(image: &mut [u8], ninodes: u32, large: bool) -> Result<(), Refusal> {
    let form = if large { 2 } else { 1 };
    // SAFETY: pointer and length are of one slice, lent for the call.
    let number = unsafe { raw::xvfs_mkfs(image.as_mut_ptr(), image.len(), ninodes, form) };
    outcome(number, 0)
}

/// Copies the blocks of the log home and empties the log. How many they were.
pub fn recover(image: &mut [u8]) -> Result<u32, Refusal> {
    let mut recovered = 0;
    // SAFETY: pointer and length are of one slice, lent for the call.
    let number = unsafe { raw::xvfs_recover(image.as_mut_ptr(), image.len(), &mut recovered) };
    outcome(number, 0)?;
    Ok(recovered)
}

/// What is to be done to a device.
#[derive(Clone, Copy, Debug, PartialEq, Eq)]
pub enum Told<'a> {
    Nothing,
    /// Write these bytes to the block of this number.
    Write(u32, &'a [u8; BLOCK_SIZE]),
    /// Flush it.
    Sync,
}

impl<'a> Told<'a> {
    fn of(wrote: u32, block: u32, synced: u32, bytes: &'a [u8; BLOCK_SIZE]) -> Told<'a> {
        match (wrote, synced) {
            (1, _) => Told::Write(block, bytes),
            (_, 1) => Told::Sync,
            _ => Told::Nothing,
        }
    }
}

/// The recovery of a device, write by write and flush by flush. A stop anywhere in it is recovered
/// to the same image.
pub struct Recovery<'a> {
    found: &'a [u8],
    place: u32,
    block: Box<[u8; BLOCK_SIZE]>,
}

impl<'a> Recovery<'a> {
    /// Of the device that has this image.
    pub fn of(found: &'a [u8]) -> Recovery<'a> {
        Recovery {
            found,
            place: 0,
            block: Box::new([0; BLOCK_SIZE]),
        }
    }

    /// What is to be done next; `Nothing` at the end, when the device has the recovered image. The
    /// first call checks the image.
    pub fn step(&mut self) -> Result<Told<'_>, Refusal> {
        let mut out = raw::Told::default();
        // SAFETY: pointer and length are of one slice; `out` and `block` are lent for the call, and
        // `block` has that many bytes.
        let number = unsafe {
            raw::xvfs_recover_step(
                self.found.as_ptr(),
                self.found.len(),
                self.place,
                &mut out,
                self.block.as_mut_ptr(),
                BLOCK_SIZE,
            )
        };
        outcome(number, 0)?;
        self.place = self.place.saturating_add(1);
        Ok(Told::of(out.wrote, out.block, out.synced, &self.block))
    }
}

/// An operation, by inode number.
#[derive(Clone, Copy, Debug, PartialEq, Eq)]
pub enum Op<'a> {
    /// A new file of a type: 1 directory, 2 file, 3 device.
    Create {
        kind: u16,
    },
    Write {
        inum: u32,
        offset: u32,
        bytes: &'a [u8],
    },
    Read {
        inum: u32,
        offset: u32,
        len: u32,
    },
    Trunc {
        inum: u32,
    },
    Remove {
        inum: u32,
    },
    Stat {
        inum: u32,
    },
    /// Gives the file that many links, and leaves its bytes.
    Links {
        inum: u32,
        count: u16,
    },
    /// Cuts the file to its first `len` bytes, or adds zeroes up to `len`, at most 3,072 of them: then
    /// the reply is `Wrote`, as a write's.
    Resize {
        inum: u32,
        len: u32,
    },
}

/// What an operation was answered.
#[derive(Clone, Debug, PartialEq, Eq)]
pub enum Reply {
    /// The new file's number.
    Made(u32),
    /// How many bytes were written, or zeroes added.
    Wrote(u32),
    Bytes(Vec<u8>),
    Done,
    Stat {
        kind: u32,
        links: u32,
        size: u32,
    },
    NoInode,
    NoFile,
    BadOffset,
    TooBig,
    TooLong,
    BadType,
}

/// An answer of a process.
#[derive(Clone, Debug, PartialEq, Eq)]
pub struct Answer {
    /// The operation's number among the process's, from 1.
    pub seq: u64,
    /// It outlives a stop once as many groups are committed; 0 for a question.
    pub group: u64,
    pub reply: Reply,
}

/// Why a process sleeps.
#[derive(Clone, Copy, Debug, PartialEq, Eq)]
pub enum Why {
    Committing,
    LogFull,
    InodeHeld,
    BufferHeld,
    NoBuffer,
    AnswersFull,
}

/// What a step of a process was.
#[derive(Clone, Copy, Debug, PartialEq, Eq)]
pub enum Step {
    Moved,
    Answered,
    Sleeping(Why),
    Idle,
    /// Memory was refused; the next step begins the operation.
    NoMemory,
    ShutDown,
}

/// What a step did, and what is to be done to the device.
#[derive(Debug)]
pub struct Stepped<'a> {
    pub step: Step,
    pub told: Told<'a>,
    /// Who holds the inode or the buffer that a process waits for which sleeps.
    pub by: Option<u32>,
    /// The groups that a stop keeps, once that is done.
    pub committed: u64,
}

fn step_of(step: u32, why: u32) -> Step {
    match (step, why) {
        (0, _) => Step::Moved,
        (1, _) => Step::Answered,
        (2, 1) => Step::Sleeping(Why::Committing),
        (2, 2) => Step::Sleeping(Why::LogFull),
        (2, 3) => Step::Sleeping(Why::InodeHeld),
        (2, 4) => Step::Sleeping(Why::BufferHeld),
        (2, 5) => Step::Sleeping(Why::NoBuffer),
        (2, 6) => Step::Sleeping(Why::AnswersFull),
        (3, _) => Step::Idle,
        (4, _) => Step::NoMemory,
        (5, _) => Step::ShutDown,
        _ => unreachable!("xvfs.h has no step {step}, {why}"),
    }
}

fn reply_of(answer: &raw::Answer, bytes: &[u8]) -> Reply {
    match answer.reply {
        0 => Reply::Made(answer.value),
        1 => Reply::Wrote(answer.value),
        2 => Reply::Bytes(bytes[..answer.len as usize].to_vec()),
        3 => Reply::Done,
        4 => Reply::Stat {
            kind: answer.value,
            links: answer.links,
            size: answer.size,
        },
        5 => Reply::NoInode,
        6 => Reply::NoFile,
        7 => Reply::BadOffset,
        8 => Reply::TooBig,
        9 => Reply::TooLong,
        10 => Reply::BadType,
        reply => unreachable!("xvfs.h has no reply {reply}"),
    }
}

/// An open session. Threads share one behind a lock.
pub struct Session {
    raw: raw::Handle,
    block: Box<[u8; BLOCK_SIZE]>,
}

// SAFETY: the library says that a handle may go to any thread (xvfs.h), which is proved of it. It is no
// `Sync`: each call takes it by `&mut`.
unsafe impl Send for Session {}

impl Session {
    /// Opens 1 to 32 processes over a copy of an image, which is checked. A log that isn't empty is
    /// refused: recover the image first.
    pub fn open(image: &[u8], processes: u32) -> Result<Session, Refusal> {
        Session::open_with(image, processes, 0)
    }

    /// As `open`, for a device that holds writes back: steps tell when it is to be flushed, four
    /// times a commit, and it need not be flushed behind each write.
    pub fn open_holding(image: &[u8], processes: u32) -> Result<Session, Refusal> {
        Session::open_with(image, processes, raw::HOLD)
    }

    fn open_with(image: &[u8], processes: u32, flags: u32) -> Result<Session, Refusal> {
        let mut raw = raw::Handle {
            session: ptr::null_mut(),
        };
        // SAFETY: a handle of null is closed; pointer and length are of one slice.
        let number = unsafe {
            raw::xvfs_open(&mut raw, image.as_ptr(), image.len(), processes, flags)
        };
        outcome(number, 0)?;
        let block = Box::new([0; BLOCK_SIZE]);
        Ok(Session { raw, block })
    }

    /// Hands an operation of a process in, behind those that wait. Its number among the process's.
    pub fn submit(&mut self, pid: u32, op: Op) -> Result<u64, Refusal> {
        let (kind, inum, offset, len, bytes): (u32, u32, u32, u32, &[u8]) = match op {
            Op::Create { kind } => (0, u32::from(kind), 0, 0, &[]),
            Op::Write {
                inum,
                offset,
                bytes,
            } => (1, inum, offset, 0, bytes),
            Op::Read { inum, offset, len } => (2, inum, offset, len, &[]),
            Op::Trunc { inum } => (3, inum, 0, 0, &[]),
            Op::Remove { inum } => (4, inum, 0, 0, &[]),
            Op::Stat { inum } => (5, inum, 0, 0, &[]),
            Op::Links { inum, count } => (6, inum, 0, u32::from(count), &[]),
            Op::Resize { inum, len } => (7, inum, 0, len, &[]),
        };
        let op = raw::Op {
            kind,
            inum,
            offset,
            len,
        };
        let mut seq = 0;
        // SAFETY: the handle is open from `open` to `drop`; the rest is lent for the call.
        let number = unsafe {
            raw::xvfs_submit(
                &mut self.raw,
                pid,
                &op,
                bytes.as_ptr(),
                bytes.len(),
                &mut seq,
            )
        };
        outcome(number, 0)?;
        Ok(seq)
    }

    /// One step of a process. What it tells is to be done to the device before the next step, a write
    /// whole or not at all.
    pub fn step(&mut self, pid: u32) -> Result<Stepped<'_>, Refusal> {
        let mut out = raw::Stepped::default();
        let block = self.block.as_mut_ptr();
        // SAFETY: the handle is open; `block` has that many bytes and is this session's own.
        let number = unsafe { raw::xvfs_step(&mut self.raw, pid, &mut out, block, BLOCK_SIZE) };
        outcome(number, 0)?;
        Ok(Stepped {
            step: step_of(out.step, out.why),
            told: Told::of(out.wrote, out.block, out.synced, &self.block),
            by: (out.by != raw::NOBODY).then_some(out.by),
            committed: out.committed,
        })
    }

    /// Takes the oldest answer of a process; `None` where there is none, or no such process.
    pub fn poll(&mut self, pid: u32) -> Option<Answer> {
        let mut out = raw::Answer::default();
        let mut bytes = [0; TRANSFER];
        // SAFETY: the handle is open; `bytes` has that many bytes.
        let number =
            unsafe { raw::xvfs_poll(&mut self.raw, pid, &mut out, bytes.as_mut_ptr(), TRANSFER) };
        (number == 0).then(|| Answer {
            seq: out.seq,
            group: out.group,
            reply: reply_of(&out, &bytes),
        })
    }

    /// The answers of a process that wait, the oldest first. Each is taken as it is asked for.
    pub fn answers(&mut self, pid: u32) -> Answers<'_> {
        Answers { session: self, pid }
    }

    /// No operation begins from now on. Those that began go on to their ends.
    pub fn shut(&mut self) {
        // SAFETY: the handle is open.
        unsafe { raw::xvfs_shut(&mut self.raw) }
    }
}

impl Drop for Session {
    /// Ends the session. What was not committed is lost, as by a stop.
    fn drop(&mut self) {
        // SAFETY: the handle is open, and nothing uses it behind this.
        unsafe { raw::xvfs_close(&mut self.raw) }
    }
}

/// The answers of a process.
pub struct Answers<'a> {
    session: &'a mut Session,
    pid: u32,
}

impl Iterator for Answers<'_> {
    type Item = Answer;

    fn next(&mut self) -> Option<Answer> {
        self.session.poll(self.pid)
    }
}
