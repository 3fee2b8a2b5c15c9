//! The functions of libxvfs.a, as xvfs.h declares them. `reserved` is room for later versions.
use std::mem::{offset_of, size_of};

#[repr(C)]
pub struct Handle {
    pub session: *mut u8,
}

#[repr(C)]
#[derive(Default)]
pub struct Report {
    pub fault: u32,
    pub at: u32,
    pub form: u32,
    pub size: u32,
    pub nblocks: u32,
    pub ninodes: u32,
    pub logged: u32,
    pub files: u32,
    reserved: [u32; 8],
}

#[repr(C)]
pub struct Op {
    pub kind: u32,
    pub inum: u32,
    pub offset: u32,
    pub len: u32,
}

#[repr(C)]
#[derive(Default)]
pub struct Stepped {
    pub step: u32,
    pub why: u32,
    pub wrote: u32,
    pub block: u32,
    pub synced: u32,
    pub by: u32,
    pub committed: u64,
    reserved: [u64; 4],
}

#[repr(C)]
#[derive(Default)]
pub struct Told {
    pub wrote: u32,
    pub block: u32,
    pub synced: u32,
    reserved: [u32; 5],
}

pub const HOLD: u32 = 1;

/// No process.
pub const NOBODY: u32 = u32::MAX;

#[repr(C)]
#[derive(Default)]
pub struct Answer {
    pub seq: u64,
    pub group: u64,
    pub reply: u32,
    pub value: u32,
    pub size: u32,
    pub len: u32,
    pub links: u32,
    reserved: [u64; 3],
}

// As xvfs.h asserts it.
const _: () = {
    assert!(size_of::<Report>() == 64 && offset_of!(Report, files) == 28);
    assert!(size_of::<Told>() == 32 && offset_of!(Told, synced) == 8);
    assert!(size_of::<Op>() == 16 && offset_of!(Op, len) == 12);
    assert!(size_of::<Stepped>() == 64 && offset_of!(Stepped, by) == 20);
    assert!(offset_of!(Stepped, committed) == 24);
    assert!(size_of::<Answer>() == 64 && offset_of!(Answer, links) == 32);
};

extern "C" {
    pub fn xvfs_check(image: *const u8, len: usize, out: *mut Report) -> u32;
    pub fn xvfs_mkfs(image: *mut u8, len: usize, ninodes: u32, form: u32) -> u32;
    pub fn xvfs_recover(image: *mut u8, len: usize, recovered: *mut u32) -> u32;
    pub fn xvfs_recover_step(
        image: *const u8,
        len: usize,
        place: u32,
        out: *mut Told,
        bytes: *mut u8,
        bytes_len: usize,
    ) -> u32;
    pub fn xvfs_version() -> u32;
    pub fn xvfs_open(
        fs: *mut Handle,
        image: *const u8,
        len: usize,
        processes: u32,
        flags: u32,
    ) -> u32;
    pub fn xvfs_submit(
        fs: *mut Handle,
        pid: u32,
        op: *const Op,
        bytes: *const u8,
        len: usize,
        seq: *mut u64,
    ) -> u32;
    pub fn xvfs_step(
        fs: *mut Handle,
        pid: u32,
        out: *mut Stepped,
        bytes: *mut u8,
        len: usize,
    ) -> u32;
    pub fn xvfs_poll(
        fs: *mut Handle,
        pid: u32,
        out: *mut Answer,
        bytes: *mut u8,
        len: usize,
    ) -> u32;
    pub fn xvfs_shut(fs: *mut Handle);
    pub fn xvfs_close(fs: *mut Handle);
}
