//! A process of a tree that commits a transaction at all of its stores or at none, linked into a Rust program.
//!
//! ```no_run
//! # fn main() -> Result<(), rstar::Refused> {
//! let tree = "[[process]]\nid = 1\nkind = \"coordinator\"\n";
//! let mut node = rstar::Node::open(tree, 1, "1.log", rstar::How::New)?;
//! for line in node.line("begin pa")?.lines() {
//!     println!("{line}");
//! }
//! node.close()
//! # }
//! ```
//!
//! Lines and answers are those of `rstar node` (docs/LIBRARY.md). A `Node` is neither `Send` nor `Sync`: the library says of
//! no handle that another thread may have it.

use std::error::Error;
use std::ffi::c_void;
use std::fmt;
use std::io;
use std::os::unix::ffi::OsStrExt;
use std::path::Path;
use std::ptr::null_mut;

#[repr(C)]
struct Handle {
    at: *mut c_void,
    file: *mut c_void,
}

extern "C" {
    fn rstar_version() -> u32;
    fn rstar_node_open(
        tree: *const c_void, tree_size: usize, process: u32, path: *const c_void, path_size: usize, how: u32, node: *mut Handle,
    ) -> u32;
    fn rstar_node_line(
        node: *mut Handle, line: *const c_void, line_size: usize, room: *mut c_void, room_size: usize, size: *mut usize,
    ) -> u32;
    fn rstar_node_answer(node: *mut Handle, room: *mut c_void, room_size: usize, size: *mut usize) -> u32;
    fn rstar_node_close(node: *mut Handle) -> u32;
    fn rstar_audit(
        logs: *const u8, logs_size: usize, explain: u32, room: *mut u8, room_size: usize, size: *mut usize, ending: *mut u32,
    ) -> u32;
    fn rstar_log(logs: *const u8, logs_size: usize, room: *mut u8, room_size: usize, size: *mut usize, ending: *mut u32) -> u32;
    fn rstar_xid_text(bytes: *const u8, bytes_size: usize, room: *mut u8, room_size: usize, size: *mut usize) -> u32;
    fn rstar_xid_bytes(text: *const u8, text_size: usize, room: *mut u8, room_size: usize, size: *mut usize) -> u32;
    fn rstar_xid_of_case(
        root: u32, parent: u32, text: *const u8, text_size: usize, room: *mut u8, room_size: usize, size: *mut usize,
    ) -> u32;
    fn rstar_xid_case(
        bytes: *const u8, bytes_size: usize, root: *mut u32, parent: *mut u32, room: *mut u8, room_size: usize,
        size: *mut usize,
    ) -> u32;
}

/// Why there is no answer: its number in rstar.h, and the system's reason, if it gave one.
#[derive(Clone, Copy, Debug, PartialEq, Eq)]
pub struct Refused {
    pub number: u32,
    pub reason: Option<i32>,
}

impl Refused {
    fn of(number: u32) -> Refused {
        let reason = if number == 9 || number == 23 { io::Error::last_os_error().raw_os_error() } else { None };
        Refused { number, reason }
    }

    fn told(self) -> &'static str {
        match self.number {
            1 => "the tree's text cannot be read",
            2 => "its processes are no tree",
            3 => "the tree has no such process",
            4 => "the name has no bytes, or a zero byte",
            5 => "the log is in use",
            6 => "there is no log",
            7 => "there is a log",
            8 => "the log's file is damaged",
            9 => "the system refused a call",
            10 => "it is the log of another process",
            11 => "the log is damaged",
            12 => "its records are not those of a process of this kind",
            13 => "it is a log of the first format",
            14 => "it is not a file",
            15 => "the file has a second name",
            21 => "out of memory",
            23 => "the log's file failed",
            24 => "numbers are used up",
            25 => "a line `end` was answered before",
            28 => "an earlier answer waits",
            31 => "the format of an XID is negative",
            32 => "the gtrid of an XID is not 1 to 64 bytes long",
            33 => "the bqual of an XID is longer than 64 bytes",
            34 => "the bytes of an XID are cut short",
            35 => "there are bytes after an XID",
            36 => "the text does not spell an XID",
            37 => "it is no case",
            38 => "the XID names no case of a tree",
            _ => "refused",
        }
    }
}

impl fmt::Display for Refused {
    fn fmt(&self, f: &mut fmt::Formatter<'_>) -> fmt::Result {
        match self.reason {
            Some(reason) => write!(f, "{}: {}", self.told(), io::Error::from_raw_os_error(reason)),
            None => write!(f, "{}", self.told()),
        }
    }
}

impl Error for Refused {}

/// How a node is opened.
#[derive(Clone, Copy, Debug, PartialEq, Eq)]
pub enum How {
    /// Over a log that is there.
    Existing,
    /// Over a new log.
    New,
}

/// The version of the interface that this crate is for, and that of the library.
pub const VERSION: u32 = 1;

/// The version of the library, which is VERSION.
pub fn version() -> u32 {
    // SAFETY: it asks for nothing.
    unsafe { rstar_version() }
}

fn done(number: u32) -> Result<(), Refused> {
    if number == 0 { Ok(()) } else { Err(Refused::of(number)) }
}

/// An open node of a process of a tree, over the log in a file. It is closed as it is dropped; `close` tells whether
/// all was forced.
pub struct Node {
    /// In a box: the library asks that an open handle stays where it is.
    handle: Box<Handle>,
    room: Vec<u8>,
    size: usize,
}

impl Node {
    /// Opens a process of a tree, whose TOML text this is, over the log in this file. The answer is what the process did as
    /// it opened: hand the messages in it on.
    pub fn open(tree: &str, process: u32, path: impl AsRef<Path>, how: How) -> Result<Node, Refused> {
        let path = path.as_ref().as_os_str().as_bytes();
        let mut handle = Box::new(Handle { at: null_mut(), file: null_mut() });
        // SAFETY: both slices are whole, they do not overlap, and the handle is of no node.
        done(unsafe {
            rstar_node_open(
                tree.as_ptr().cast(), tree.len(), process, path.as_ptr().cast(), path.len(), (how == How::New).into(), &mut *handle,
            )
        })?;
        let mut node = Node { handle, room: vec![0; 1024], size: 0 };
        node.fetch()?;
        Ok(node)
    }

    /// Fetches the last answer, whatever its size.
    fn fetch(&mut self) -> Result<(), Refused> {
        loop {
            let mut size = 0;
            // SAFETY: the room is as long as is said, and nothing else has the handle.
            done(unsafe { rstar_node_answer(&mut *self.handle, self.room.as_mut_ptr().cast(), self.room.len(), &mut size) })?;
            self.size = size;
            if size <= self.room.len() {
                return Ok(());
            }
            self.room.resize(size, 0);
        }
    }

    /// The last answer; after `open` what the process did as it opened.
    pub fn answer(&self) -> &str {
        std::str::from_utf8(&self.room[..self.size]).unwrap_or("")
    }

    /// Answers a line, without its end. Err: there is no answer; of the numbers 21, 23 and 24 the step was made or not, and the
    /// node is to be closed and opened again.
    pub fn line(&mut self, line: &str) -> Result<&str, Refused> {
        let mut size = 0;
        self.size = 0;
        // SAFETY: line and room are as long as is said, they do not overlap, and nothing else has the handle.
        done(unsafe {
            rstar_node_line(
                &mut *self.handle, line.as_ptr().cast(), line.len(), self.room.as_mut_ptr().cast(), self.room.len(), &mut size,
            )
        })?;
        if size > self.room.len() {
            self.fetch()?;
        } else {
            self.size = size;
        }
        Ok(self.answer())
    }

    /// Forces what stands in the log, and releases node, file and lock. Err: not all was forced, and they are released.
    pub fn close(mut self) -> Result<(), Refused> {
        // SAFETY: nothing else has the handle, which is of no node from then on.
        done(unsafe { rstar_node_close(&mut *self.handle) })
    }
}

impl Drop for Node {
    fn drop(&mut self) {
        // SAFETY: nothing else has the handle. One that was closed is refused.
        unsafe { rstar_node_close(&mut *self.handle) };
    }
}

/// What a call writes, whose room may be too short at first.
fn fetched(mut call: impl FnMut(&mut [u8], &mut usize) -> u32) -> Result<Vec<u8>, Refused> {
    let mut room = vec![0; 512];
    loop {
        let mut size = 0;
        done(call(&mut room, &mut size))?;
        if size <= room.len() {
            room.truncate(size);
            return Ok(room);
        }
        room.resize(size, 0);
    }
}

fn text_of(bytes: Vec<u8>) -> String {
    String::from_utf8_lossy(&bytes).into_owned()
}

/// The report of an audit of the text that `rstar tree --logs` writes, and the exit status of `rstar audit`.
pub fn audit(logs: &str, explain: bool) -> Result<(String, u32), Refused> {
    let mut ending = 0;
    // SAFETY: logs and room are as long as is said, and do not overlap.
    let report = fetched(|room, size| unsafe {
        rstar_audit(logs.as_ptr(), logs.len(), explain.into(), room.as_mut_ptr(), room.len(), size, &mut ending)
    })?;
    Ok((text_of(report), ending))
}

/// What the logs of that text hold, and the exit status of `rstar log`.
pub fn log(logs: &str) -> Result<(String, u32), Refused> {
    let mut ending = 0;
    // SAFETY: logs and room are as long as is said, and do not overlap.
    let report = fetched(|room, size| unsafe {
        rstar_log(logs.as_ptr(), logs.len(), room.as_mut_ptr(), room.len(), size, &mut ending)
    })?;
    Ok((text_of(report), ending))
}

/// The text of the XID of these bytes.
pub fn xid_text(xid: &[u8]) -> Result<String, Refused> {
    // SAFETY: xid and room are as long as is said, and do not overlap.
    fetched(|room, size| unsafe { rstar_xid_text(xid.as_ptr(), xid.len(), room.as_mut_ptr(), room.len(), size) }).map(text_of)
}

/// The bytes of the XID of this text.
pub fn xid_bytes(text: &str) -> Result<Vec<u8>, Refused> {
    // SAFETY: text and room are as long as is said, and do not overlap.
    fetched(|room, size| unsafe { rstar_xid_bytes(text.as_ptr(), text.len(), room.as_mut_ptr(), room.len(), size) })
}

/// The bytes of the XID of a case; the root's own has no parent.
pub fn xid_of_case(root: u32, parent: Option<u32>, case: &str) -> Result<Vec<u8>, Refused> {
    // SAFETY: case and room are as long as is said, and do not overlap.
    fetched(|room, size| unsafe {
        rstar_xid_of_case(root, parent.unwrap_or(0), case.as_ptr(), case.len(), room.as_mut_ptr(), room.len(), size)
    })
}

/// The root, the parent and the case that an XID of these bytes names.
pub fn xid_case(xid: &[u8]) -> Result<(u32, Option<u32>, String), Refused> {
    let (mut root, mut parent) = (0, 0);
    // SAFETY: xid and room are as long as is said, and do not overlap.
    let case = fetched(|room, size| unsafe {
        rstar_xid_case(xid.as_ptr(), xid.len(), &mut root, &mut parent, room.as_mut_ptr(), room.len(), size)
    })?;
    Ok((root, if parent == 0 { None } else { Some(parent) }, text_of(case)))
}
