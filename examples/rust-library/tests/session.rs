//! A host over a device in memory, which is stopped at each of its calls; and the session alone.
use std::sync::Mutex;
use std::thread;
use xvfs::{
    check, mkfs, recover, version, Answer, Device, Fault, Host, Op, Recovery, Refusal, Reply,
    Session, Step, Told, Why, BLOCK_SIZE,
};

const BLOCKS: usize = 200;

fn new_device() -> Vec<u8> {
    let mut device = vec![0; BLOCKS * BLOCK_SIZE];
    mkfs(&mut device, 32, false).expect("a new image");
    device
}

fn put(device: &mut [u8], block: u32, bytes: &[u8; BLOCK_SIZE]) {
    let at = block as usize * BLOCK_SIZE;
    device[at..at + BLOCK_SIZE].copy_from_slice(bytes);
}

/// A device in memory, which tells the blocks that were written and, by `None`, the syncs. It stops
/// before the call of number `stop`, from 1; 0 stops it before none. A deaf one makes no write.
struct Disk {
    bytes: Vec<u8>,
    told: Vec<Option<u32>>,
    stop: usize,
    is_deaf: bool,
}

impl Disk {
    fn of(bytes: Vec<u8>, stop: usize) -> Disk {
        Disk {
            bytes,
            told: Vec::new(),
            stop,
            is_deaf: false,
        }
    }

    fn tell(&mut self, told: Option<u32>) -> Result<(), &'static str> {
        self.told.push(told);
        if self.told.len() == self.stop {
            return Err("power failed");
        }
        Ok(())
    }
}

impl Device for Disk {
    type Error = &'static str;

    fn blocks(&self) -> u32 {
        (self.bytes.len() / BLOCK_SIZE) as u32
    }

    fn read(&mut self, block: u32, bytes: &mut [u8; BLOCK_SIZE]) -> Result<(), &'static str> {
        let at = block as usize * BLOCK_SIZE;
        bytes.copy_from_slice(&self.bytes[at..at + BLOCK_SIZE]);
        Ok(())
    }

    fn write(&mut self, block: u32, bytes: &[u8; BLOCK_SIZE]) -> Result<(), &'static str> {
        self.tell(Some(block))?;
        if !self.is_deaf {
            put(&mut self.bytes, block, bytes);
        }
        Ok(())
    }

    fn sync(&mut self) -> Result<(), &'static str> {
        self.tell(None)
    }
}

fn new_host(processes: u32, stop: usize) -> Host<Disk> {
    Host::open(Disk::of(new_device(), stop), processes).expect("a host")
}

const CREATE: Op = Op::Create { kind: 2 };

#[test]
fn writes_and_reads() {
    let mut host = new_host(2, 0);
    let made = host.call(0, CREATE).expect("an answer");
    assert_eq!(
        made,
        Answer {
            seq: 1,
            group: 1,
            reply: Reply::Made(1)
        }
    );
    let write = Op::Write {
        inum: 1,
        offset: 0,
        bytes: b"to be",
    };
    assert_eq!(host.call(1, write).expect("one").reply, Reply::Wrote(5));
    let disk = host.close();
    let mut host = Host::open(disk, 2).expect("a host");
    let read = Op::Read {
        inum: 1,
        offset: 0,
        len: 100,
    };
    let read = host.call(0, read).expect("an answer");
    assert_eq!(read.reply, Reply::Bytes(b"to be".to_vec()));
    let stat = host.call(0, Op::Stat { inum: 1 }).expect("an answer");
    let told = Reply::Stat {
        kind: 2,
        links: 1,
        size: 5,
    };
    assert_eq!(stat.reply, told);
}

#[test]
fn links_are_kept() {
    let mut host = new_host(1, 0);
    host.call(0, CREATE).expect("an answer");
    let links = Op::Links {
        inum: 1,
        count: 258,
    };
    assert_eq!(host.call(0, links).expect("one").reply, Reply::Done);
    let stat = host.call(0, Op::Stat { inum: 1 }).expect("an answer");
    let told = Reply::Stat {
        kind: 2,
        links: 258,
        size: 0,
    };
    assert_eq!(stat.reply, told);
    // The inode of number 1 is the second of block 33, and has its links at byte 6.
    let at = 33 * BLOCK_SIZE + 64 + 6;
    assert_eq!(host.close().bytes[at..at + 2], [2, 1]);
}

#[test]
fn a_file_is_cut_and_gets_zeroes() {
    let mut host = new_host(1, 0);
    host.call(0, CREATE).expect("an answer");
    let write = Op::Write {
        inum: 1,
        offset: 0,
        bytes: b"hello",
    };
    host.call(0, write).expect("an answer");
    let lengths = [
        (7, Reply::Wrote(2)),
        (7 + 3072 + 1, Reply::TooLong),
        (2, Reply::Done),
        (4, Reply::Wrote(2)),
    ];
    for (len, told) in lengths {
        let resize = Op::Resize { inum: 1, len };
        assert_eq!(host.call(0, resize).expect("one").reply, told);
    }
    let read = Op::Read {
        inum: 1,
        offset: 0,
        len: 9,
    };
    let told = Reply::Bytes(b"he\0\0".to_vec());
    assert_eq!(host.call(0, read).expect("an answer").reply, told);
}

#[test]
fn each_stop_keeps_whole_operations() {
    for stop in 2..=9 {
        let mut host = new_host(1, stop);
        let failed = Fault::Device("power failed");
        assert_eq!(host.call(0, CREATE), Err(failed));
        // Nothing reaches the device any more.
        assert_eq!(host.step(0), Err(Fault::Halted));
        assert_eq!(host.submit(0, CREATE), Err(Fault::Halted));
        assert_eq!(host.poll(0), None);
        let mut disk = host.close();
        assert_eq!(disk.told.len(), stop);
        // The fourth call writes the log's header, with which the group is kept.
        let (kept, logged) = (u32::from(stop > 4), u32::from(stop > 4 && stop < 9));
        assert_eq!(check(&disk.bytes).expect("it is sound").logged, logged);
        disk.stop = 0;
        let disk = Host::open(disk, 1).map(Host::close).expect("a host");
        let report = check(&disk.bytes).expect("it is sound");
        assert_eq!((report.logged, report.files), (0, kept));
    }
}

#[test]
fn an_opening_fails_with_its_device() {
    let mut host = new_host(1, 6);
    assert!(host.call(0, CREATE).is_err());
    let found = host.close().bytes;
    // A sync, the home of the logged block, a sync, the empty header, a sync.
    for stop in 1..=5 {
        let opened = Host::open(Disk::of(found.clone(), stop), 1);
        assert_eq!(opened.err(), Some(Fault::Device("power failed")));
    }
    let mut deaf = Disk::of(found, 0);
    deaf.is_deaf = true;
    assert_eq!(Host::open(deaf, 1).err(), Some(Fault::Lost));
}

#[test]
fn syncs_where_it_is_told() {
    let mut host = new_host(1, 0);
    host.call(0, CREATE).expect("an answer");
    // The opening's; a log block, the header, the inode's home, the empty header.
    let (log, header, home) = (Some(3), Some(2), Some(33));
    let wanted = [None, log, None, header, None, home, None, header, None];
    assert_eq!(host.close().told, wanted);
}

#[test]
fn a_session_tells_each_write() {
    let mut session = Session::open(&new_device(), 1).expect("a session");
    session.submit(0, CREATE).expect("room");
    let mut told = Vec::new();
    loop {
        let stepped = session.step(0).expect("a step");
        match stepped.told {
            Told::Nothing => {}
            Told::Write(block, _) => told.push(block),
            Told::Sync => panic!("a sync is told"),
        }
        if stepped.step == Step::Answered {
            break;
        }
    }
    assert_eq!(told, [3, 2, 33, 2]);
}

#[test]
fn a_step_that_sleeps_tells_who_holds_the_inode() {
    let mut session = Session::open(&new_device(), 2).expect("a session");
    session.submit(0, CREATE).expect("room");
    while session.step(0).expect("a step").step != Step::Answered {}
    for pid in 0..2 {
        session.submit(pid, Op::Trunc { inum: 1 }).expect("room");
    }
    // Its beginning, the reference, the lock.
    for _ in 0..3 {
        let stepped = session.step(1).expect("a step");
        assert_eq!((stepped.step, stepped.by), (Step::Moved, None));
    }
    let (step, by) = loop {
        let stepped = session.step(0).expect("a step");
        if stepped.step != Step::Moved {
            break (stepped.step, stepped.by);
        }
    };
    assert_eq!((step, by), (Step::Sleeping(Why::InodeHeld), Some(1)));
}

#[test]
fn an_answer_waits_for_its_group() {
    let mut host = new_host(2, 0);
    host.submit(0, CREATE).expect("room");
    assert_eq!(host.step(0), Ok(Step::Moved));
    // The group stays open as long as process 0 goes on.
    assert_eq!(host.call(1, CREATE), Err(Fault::Waits(Step::Answered)));
    assert_eq!(host.poll(1), None);
    while host.step(0) == Ok(Step::Moved) {}
    let groups = [0, 1].map(|pid| host.poll(pid).expect("an answer").group);
    assert_eq!(groups, [1, 1]);
}

#[test]
fn recovers_a_device_step_by_step() {
    let mut host = new_host(1, 6);
    assert!(host.call(0, CREATE).is_err());
    let mut device = host.close().bytes;
    let found = device.clone();
    let mut whole = found.clone();
    assert_eq!(recover(&mut whole), Ok(1));
    let mut recovery = Recovery::of(&found);
    let mut flushes = 0;
    loop {
        match recovery.step().expect("a sound image") {
            Told::Write(block, bytes) => put(&mut device, block, bytes),
            Told::Sync => flushes += 1,
            Told::Nothing => break,
        }
        // Wherever it stops, it is recovered to the same.
        let mut left = device.clone();
        recover(&mut left).expect("a sound image");
        assert_eq!(left, whole);
    }
    assert_eq!(device, whole);
    assert_eq!(flushes, 2);
    assert!(Recovery::of(&found[1..]).step().is_err());
}

#[test]
fn threads_share_a_host() {
    let host = Mutex::new(new_host(4, 0));
    thread::scope(|scope| {
        for pid in 0..4 {
            let host = &host;
            scope.spawn(move || {
                host.lock().expect("one").submit(pid, CREATE).expect("room");
                while host.lock().expect("one").step(pid).expect("a step") != Step::Answered {}
            });
        }
    });
    let mut host = host.into_inner().expect("one");
    assert!((0..4).all(|pid| host.poll(pid).is_some()));
    let report = check(&host.close().bytes).expect("it is sound");
    assert_eq!((report.logged, report.files), (0, 4));
}

#[test]
fn answers_come_in_order() {
    let mut device = new_device();
    let mut session = Session::open(&device, 1).expect("a session");
    for number in 1..=16 {
        assert_eq!(session.submit(0, Op::Stat { inum: 1 }), Ok(number));
    }
    let full = Refusal {
        layer: 6,
        number: 2,
        at: 0,
    };
    assert_eq!(session.submit(0, Op::Stat { inum: 1 }), Err(full));
    while session.step(0).expect("a step").step != Step::Idle {}
    let numbers: Vec<u64> = session.answers(0).map(|answer| answer.seq).collect();
    assert_eq!(numbers, (1..=16).collect::<Vec<u64>>());
    session.shut();
    session.submit(0, Op::Trunc { inum: 1 }).expect("room");
    assert_eq!(session.step(0).expect("a step").step, Step::ShutDown);
    device[1024] ^= 2;
    assert_eq!(
        check(&device),
        Err(Refusal {
            layer: 3,
            number: 1,
            at: 0
        })
    );
}

#[test]
fn refuses_what_it_cannot_do() {
    let device = new_device();
    let refused = |image: &[u8], processes| match Session::open(image, processes) {
        Ok(_) => panic!("it was opened"),
        Err(refusal) => (refusal.layer, refusal.number),
    };
    assert_eq!(version(), 0x0200);
    assert_eq!(refused(&device[1..], 1), (1, 2));
    assert_eq!(refused(&device, 0), (5, 4));
    assert_eq!(refused(&device, 33), (5, 4));
    assert_eq!(refused(&[0; 2 * BLOCK_SIZE], 1), (3, 1));
    let mut session = Session::open(&device, 1).expect("a session");
    assert_eq!(
        session.step(1).err().map(|it| (it.layer, it.number)),
        Some((6, 1))
    );
    assert_eq!(session.poll(0), None);
    assert_eq!(
        mkfs(&mut [0; 4096], 32, false).map_err(|it| it.to_string()),
        Err("refusal 1 of layer 2".to_string())
    );
}
