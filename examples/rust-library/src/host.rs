//! A session with its device, which keeps the host's duties of xvfs.h as xvfs_host.h does in C.
use crate::{Answer, Op, Recovery, Refusal, Session, Step, Told, BLOCK_SIZE};
use std::fmt;

/// Where the blocks are kept.
pub trait Device {
    type Error;

    /// How many blocks there are.
    fn blocks(&self) -> u32;

    fn read(&mut self, block: u32, bytes: &mut [u8; BLOCK_SIZE]) -> Result<(), Self::Error>;

    /// Brings a block to the device, whole or not at all. It may hold writes back until the next sync,
    /// and a stop may lose any of these; two of one block stay in their order.
    fn write(&mut self, block: u32, bytes: &[u8; BLOCK_SIZE]) -> Result<(), Self::Error>;

    /// Succeeds only where all writes before it outlive a stop.
    fn sync(&mut self) -> Result<(), Self::Error>;
}

/// Why a call of a host was not made.
#[derive(Clone, Copy, Debug, PartialEq, Eq)]
pub enum Fault<E> {
    /// The library refused it.
    Refused(Refusal),
    /// The device failed: the session is ended.
    Device(E),
    /// The device failed before.
    Halted,
    /// The device hasn't the writes that its recovery told.
    Lost,
    /// The operation can't go on, or its answer isn't kept yet: other processes are to go on first.
    Waits(Step),
}

impl<E> From<Refusal> for Fault<E> {
    fn from(refusal: Refusal) -> Fault<E> {
        Fault::Refused(refusal)
    }
}

impl<E: fmt::Display> fmt::Display for Fault<E> {
    fn fmt(&self, f: &mut fmt::Formatter<'_>) -> fmt::Result {
        match self {
            Fault::Refused(refusal) => write!(f, "{refusal}"),
            Fault::Device(error) => write!(f, "the device failed: {error}"),
            Fault::Halted => write!(f, "the device failed before"),
            Fault::Lost => write!(f, "the device lost a write"),
            Fault::Waits(step) => write!(f, "the operation waits: {step:?}"),
        }
    }
}

impl<E: fmt::Debug + fmt::Display> std::error::Error for Fault<E> {}

/// A session over a device. What a step tells is done to the device before the next, and an answer comes
/// once no stop can lose it. Where a write or a sync fails the session ends. Threads share one behind a
/// lock.
pub struct Host<D> {
    session: Option<Session>,
    device: D,
    committed: u64,
    /// Of each process the answer that isn't kept yet.
    early: Vec<Option<Answer>>,
}

impl<D: Device> Host<D> {
    /// Recovers the device, and opens a session of 1 to 32 processes over what it holds then.
    pub fn open(mut device: D, processes: u32) -> Result<Host<D>, Fault<D::Error>> {
        // It may still hold what a host wrote that was killed.
        device.sync().map_err(Fault::Device)?;
        let found = image_of(&mut device)?;
        let mut recovery = Recovery::of(&found);
        loop {
            match recovery.step()? {
                Told::Nothing => break,
                told => bring(&mut device, told).map_err(Fault::Device)?,
            }
        }
        let image = image_of(&mut device)?;
        let session = match Session::open_holding(&image, processes) {
            // Its log isn't empty still.
            Err(Refusal {
                layer: 5,
                number: 6,
                ..
            }) => return Err(Fault::Lost),
            opened => opened?,
        };
        Ok(Host {
            session: Some(session),
            device,
            committed: 0,
            early: vec![None; processes as usize],
        })
    }

    /// Hands an operation of a process in, behind those that wait. Its number among the process's.
    pub fn submit(&mut self, pid: u32, op: Op) -> Result<u64, Fault<D::Error>> {
        let session = self.session.as_mut().ok_or(Fault::Halted)?;
        Ok(session.submit(pid, op)?)
    }

    /// One step of a process, and what it tells.
    pub fn step(&mut self, pid: u32) -> Result<Step, Fault<D::Error>> {
        let session = self.session.as_mut().ok_or(Fault::Halted)?;
        let stepped = session.step(pid)?;
        let (step, committed) = (stepped.step, stepped.committed);
        if let Err(error) = bring(&mut self.device, stepped.told) {
            self.session = None;
            return Err(Fault::Device(error));
        }
        self.committed = committed;
        Ok(step)
    }

    /// Takes the oldest answer of a process, if no stop can lose it; `None` also where there is none, or
    /// no such process.
    pub fn poll(&mut self, pid: u32) -> Option<Answer> {
        let session = self.session.as_mut()?;
        let early = self.early.get_mut(pid as usize)?;
        if early.is_none() {
            *early = session.poll(pid);
        }
        if early.as_ref()?.group > self.committed {
            return None;
        }
        early.take()
    }

    /// Makes an operation of a process that has no other, from its beginning to its answer. Where it
    /// `Waits` it goes on by `step`, and its answer comes by `poll`.
    pub fn call(&mut self, pid: u32, op: Op) -> Result<Answer, Fault<D::Error>> {
        self.submit(pid, op)?;
        loop {
            match self.step(pid)? {
                Step::Moved => {}
                step => return self.poll(pid).ok_or(Fault::Waits(step)),
            }
        }
    }

    /// No operation begins from now on.
    pub fn shut(&mut self) {
        if let Some(session) = &mut self.session {
            session.shut();
        }
    }

    /// Ends the session, and gives the device back. What was not committed is lost, as by a stop.
    pub fn close(self) -> D {
        self.device
    }
}

fn bring<D: Device>(device: &mut D, told: Told) -> Result<(), D::Error> {
    match told {
        Told::Nothing => Ok(()),
        Told::Write(block, bytes) => device.write(block, bytes),
        Told::Sync => device.sync(),
    }
}

fn image_of<D: Device>(device: &mut D) -> Result<Vec<u8>, Fault<D::Error>> {
    let mut image = Vec::new();
    let mut bytes = [0; BLOCK_SIZE];
    for block in 0..device.blocks() {
        device.read(block, &mut bytes).map_err(Fault::Device)?;
        image.extend_from_slice(&bytes);
    }
    Ok(image)
}
