//! The modelled NUMA machine of numatrace, inside a Rust program: a `Machine` is opened from the top of a trace, and asked step by step
//! in JSON or by calls. The library behind it is proved to answer as the model says; this wrapper is not.

mod sys;

use std::fmt;
use std::ptr::null_mut;

pub use sys::{Asking, Binding, Entry};

/// Why a call failed.
#[derive(Clone, Copy, Debug, PartialEq, Eq)]
pub enum Error {
    /// The machine refuses the call: the errno.
    Refused(i32),
    /// The text is no trace, no top of one, or no step.
    BadInput,
    /// Lists do not fit one another, or a trace is too long.
    BadArgument,
    /// There is no memory.
    NoMemory,
}

impl fmt::Display for Error {
    fn fmt(&self, f: &mut fmt::Formatter) -> fmt::Result {
        match self {
            Error::Refused(errno) => std::io::Error::from_raw_os_error(*errno).fmt(f),
            Error::BadInput => f.write_str("no trace, top of one, or step"),
            Error::BadArgument => f.write_str("a bad argument"),
            Error::NoMemory => f.write_str("out of memory"),
        }
    }
}

impl std::error::Error for Error {}

/// What a status says.
fn told(status: i32) -> Result<(), Error> {
    match status {
        0 => Ok(()),
        sys::BAD_INPUT | sys::NOT_JSON => Err(Error::BadInput),
        sys::NO_MEMORY => Err(Error::NoMemory),
        sys::BAD_ARGUMENT | sys::SMALL_ROOM => Err(Error::BadArgument),
        errno => Err(Error::Refused(-errno)),
    }
}

/// A list that is written to a room, asked for again with more room where there was too little.
fn listed<T: Clone + Default>(mut ask: impl FnMut(*mut T, usize, &mut usize, bool) -> i32) -> Result<Vec<T>, Error> {
    let (mut room, mut needed, mut is_again) = (vec![T::default(); 256], 0, false);
    loop {
        let status = ask(room.as_mut_ptr(), room.len(), &mut needed, is_again);
        if status != sys::SMALL_ROOM {
            told(status)?;
            room.truncate(needed);
            return Ok(room);
        }
        room.resize(needed, T::default());
        is_again = true;
    }
}

fn text(bytes: Vec<u8>) -> String {
    String::from_utf8_lossy(&bytes).into_owned()
}

/// The report on a whole trace.
pub fn run(trace: &[u8]) -> Result<String, Error> {
    listed(|room, length, needed, _| unsafe { sys::numatrace_run(trace.as_ptr(), trace.len(), room, length, needed) }).map(text)
}

/// A machine. It may go to another thread, and is used by one at a time.
pub struct Machine {
    session: sys::Session,
}

unsafe impl Send for Machine {}

impl Drop for Machine {
    fn drop(&mut self) {
        unsafe { sys::numatrace_close(&mut self.session) }
    }
}

impl Machine {
    /// A machine with the nodes and the limit on runs at the top of a trace.
    pub fn open(top: &str) -> Result<Machine, Error> {
        let mut session = sys::Session { machine: null_mut() };
        told(unsafe { sys::numatrace_open(&mut session, top.as_ptr(), top.len()) })?;
        Ok(Machine { session })
    }

    /// Makes a step, given in JSON, and returns its lines of the report.
    pub fn step(&mut self, step: &str) -> Result<String, Error> {
        let session: *mut sys::Session = &mut self.session;
        listed(|room, length, needed, is_again| unsafe {
            match is_again {
                false => sys::numatrace_step(session, step.as_ptr(), step.len(), room, length, needed),
                true => sys::numatrace_lines(session, room, length, needed),
            }
        })
        .map(text)
    }

    /// Makes a process.
    pub fn spawn(&mut self, pid: u32, uid: u32, home: u32, allowed: u64, privileged: bool) -> Result<(), Error> {
        told(unsafe { sys::numatrace_spawn(&mut self.session, pid, uid, home, allowed, privileged) })
    }

    /// Ends a process.
    pub fn exit(&mut self, pid: u32) -> Result<(), Error> {
        told(unsafe { sys::numatrace_exit(&mut self.session, pid) })
    }

    /// Makes an area over a new segment, and returns the segment's number.
    pub fn map(&mut self, pid: u32, addr: u64, pages: u64, shared: bool) -> Result<u32, Error> {
        let mut segment = 0;
        told(unsafe { sys::numatrace_map(&mut self.session, pid, addr, pages, shared, &mut segment) })?;
        Ok(segment)
    }

    /// Makes an area over pages of a shared segment.
    pub fn attach(&mut self, pid: u32, addr: u64, segment: u64, offset: u64, pages: u64) -> Result<(), Error> {
        told(unsafe { sys::numatrace_attach(&mut self.session, pid, addr, segment, offset, pages) })
    }

    /// Unmaps pages.
    pub fn unmap(&mut self, pid: u32, addr: u64, pages: u64) -> Result<(), Error> {
        told(unsafe { sys::numatrace_unmap(&mut self.session, pid, addr, pages) })
    }

    /// Fills `bytes` with what a process reads at an address.
    pub fn read(&mut self, pid: u32, addr: u64, bytes: &mut [u8]) -> Result<(), Error> {
        told(unsafe { sys::numatrace_read(&mut self.session, pid, addr, bytes.as_mut_ptr(), bytes.len()) })
    }

    /// Writes bytes.
    pub fn write(&mut self, pid: u32, addr: u64, bytes: &[u8]) -> Result<(), Error> {
        told(unsafe { sys::numatrace_write(&mut self.session, pid, addr, bytes.as_ptr(), bytes.len()) })
    }

    /// Adds a pin to a page.
    pub fn pin(&mut self, pid: u32, addr: u64) -> Result<(), Error> {
        told(unsafe { sys::numatrace_pin(&mut self.session, pid, addr) })
    }

    /// Removes a pin from a page.
    pub fn unpin(&mut self, pid: u32, addr: u64) -> Result<(), Error> {
        told(unsafe { sys::numatrace_unpin(&mut self.session, pid, addr) })
    }

    /// Moves the page at each address to the node at the same index. Returns the statuses, and how many pages failed.
    pub fn move_pages(&mut self, asking: &Asking, pages: &[u64], nodes: &[u32]) -> Result<(Vec<i32>, usize), Error> {
        let (mut statuses, mut failed) = (vec![0; pages.len()], 0);
        told(unsafe {
            sys::numatrace_move_pages(
                &mut self.session, asking, pages.as_ptr(), pages.len(), nodes.as_ptr(), nodes.len(), statuses.as_mut_ptr(),
                statuses.len(), &mut failed,
            )
        })?;
        Ok((statuses, failed))
    }

    /// Where the page at each address is.
    pub fn query(&mut self, asking: &Asking, pages: &[u64]) -> Result<Vec<i32>, Error> {
        let mut statuses = vec![0; pages.len()];
        told(unsafe {
            sys::numatrace_query(&mut self.session, asking, pages.as_ptr(), pages.len(), statuses.as_mut_ptr(), statuses.len())
        })?;
        Ok(statuses)
    }

    /// Moves the pages of a process from nodes to nodes, and returns how many failed.
    pub fn migrate_pages(&mut self, caller: u32, pid: u32, old_nodes: u64, new_nodes: u64) -> Result<usize, Error> {
        let mut failed = 0;
        told(unsafe { sys::numatrace_migrate_pages(&mut self.session, caller, pid, old_nodes, new_nodes, &mut failed) })?;
        Ok(failed)
    }

    /// Sets the policy of a range.
    pub fn mbind(&mut self, binding: &Binding) -> Result<(), Error> {
        told(unsafe { sys::numatrace_mbind(&mut self.session, binding) })
    }

    /// Takes a node offline.
    pub fn offline(&mut self, node: u32) -> Result<(), Error> {
        told(unsafe { sys::numatrace_offline(&mut self.session, node) })
    }

    /// Brings a node online.
    pub fn online(&mut self, node: u32) -> Result<(), Error> {
        told(unsafe { sys::numatrace_online(&mut self.session, node) })
    }

    /// The free frames of a node, front first.
    pub fn free_list(&mut self, node: u32) -> Result<Vec<u16>, Error> {
        let session: *mut sys::Session = &mut self.session;
        listed(|room, length, needed, _| unsafe { sys::numatrace_free_list(session, node, room, length, needed) })
    }

    /// The entries of a process, in address order.
    pub fn pagemap(&mut self, pid: u32) -> Result<Vec<Entry>, Error> {
        let session: *mut sys::Session = &mut self.session;
        listed(|room, length, needed, _| unsafe { sys::numatrace_pagemap(session, pid, room, length, needed) })
    }

    /// The areas of a process as text.
    pub fn numa_maps(&mut self, pid: u32) -> Result<String, Error> {
        let session: *mut sys::Session = &mut self.session;
        listed(|room, length, needed, _| unsafe { sys::numatrace_numa_maps(session, pid, room, length, needed) }).map(text)
    }

    /// How many pages have moved, and how many entries have failed.
    pub fn vmstat(&mut self) -> Result<(u64, u64), Error> {
        let (mut moved, mut failed) = (0, 0);
        told(unsafe { sys::numatrace_vmstat(&mut self.session, &mut moved, &mut failed) })?;
        Ok((moved, failed))
    }
}
