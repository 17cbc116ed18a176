//! The functions of `numatrace.h`.

use std::ffi::c_void;

#[repr(C)]
pub struct Session {
    pub machine: *mut c_void,
}

#[repr(C)]
pub struct Asking {
    pub caller: u32,
    pub pid: u32,
    pub flags: u32,
}

#[repr(C)]
pub struct Binding {
    pub addr: u64,
    pub len: u64,
    pub nodes: u64,
    pub caller: u32,
    pub mode: u32,
    pub flags: u32,
}

#[repr(C)]
#[derive(Clone, Copy, Debug, Default, PartialEq, Eq)]
pub struct Entry {
    pub page: u64,
    pub frame: i64,
}

pub const BAD_ARGUMENT: i32 = 1;
pub const BAD_INPUT: i32 = 2;
pub const NO_MEMORY: i32 = 3;
pub const NOT_JSON: i32 = 4;
pub const SMALL_ROOM: i32 = 5;

extern "C" {
    pub fn numatrace_run(trace: *const u8, length: usize, report: *mut u8, room: usize, needed: *mut usize) -> i32;
    pub fn numatrace_open(session: *mut Session, top: *const u8, length: usize) -> i32;
    pub fn numatrace_step(session: *mut Session, step: *const u8, length: usize, lines: *mut u8, room: usize, needed: *mut usize) -> i32;
    pub fn numatrace_lines(session: *mut Session, lines: *mut u8, room: usize, needed: *mut usize) -> i32;
    pub fn numatrace_close(session: *mut Session);
    pub fn numatrace_spawn(session: *mut Session, pid: u32, uid: u32, home: u32, allowed: u64, privileged: bool) -> i32;
    pub fn numatrace_exit(session: *mut Session, pid: u32) -> i32;
    pub fn numatrace_map(session: *mut Session, pid: u32, addr: u64, pages: u64, shared: bool, segment: *mut u32) -> i32;
    pub fn numatrace_attach(session: *mut Session, pid: u32, addr: u64, segment: u64, offset: u64, pages: u64) -> i32;
    pub fn numatrace_unmap(session: *mut Session, pid: u32, addr: u64, pages: u64) -> i32;
    pub fn numatrace_read(session: *mut Session, pid: u32, addr: u64, bytes: *mut u8, length: usize) -> i32;
    pub fn numatrace_write(session: *mut Session, pid: u32, addr: u64, bytes: *const u8, length: usize) -> i32;
    pub fn numatrace_pin(session: *mut Session, pid: u32, addr: u64) -> i32;
    pub fn numatrace_unpin(session: *mut Session, pid: u32, addr: u64) -> i32;
    pub fn numatrace_move_pages(
        session: *mut Session, asking: *const Asking, pages: *const u64, page_count: usize, nodes: *const u32, node_count: usize,
        statuses: *mut i32, status_count: usize, failed: *mut usize,
    ) -> i32;
    pub fn numatrace_query(
        session: *mut Session, asking: *const Asking, pages: *const u64, page_count: usize, statuses: *mut i32, status_count: usize,
    ) -> i32;
    pub fn numatrace_migrate_pages(session: *mut Session, caller: u32, pid: u32, old_nodes: u64, new_nodes: u64, failed: *mut usize) -> i32;
    pub fn numatrace_mbind(session: *mut Session, binding: *const Binding) -> i32;
    pub fn numatrace_offline(session: *mut Session, node: u32) -> i32;
    pub fn numatrace_online(session: *mut Session, node: u32) -> i32;
    pub fn numatrace_free_list(session: *mut Session, node: u32, frames: *mut u16, room: usize, needed: *mut usize) -> i32;
    pub fn numatrace_pagemap(session: *mut Session, pid: u32, entries: *mut Entry, room: usize, needed: *mut usize) -> i32;
    pub fn numatrace_numa_maps(session: *mut Session, pid: u32, text: *mut u8, room: usize, needed: *mut usize) -> i32;
    pub fn numatrace_vmstat(session: *mut Session, moved: *mut u64, failed: *mut u64) -> i32;
}
