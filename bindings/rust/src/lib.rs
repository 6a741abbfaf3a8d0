//! Verdicts, lists of faults, plans and settlings of PCI dumps, by the static library of pciplan.
//!
//! Dump and probe are bytes in the form that docs/FORMATS.md tells; [`text`] makes them of configuration spaces. `roots` are
//! the root buses, each above the one before it.
//!
//! ```
//! use pciplan::{check, text, Slot};
//!
//! let (mut image, mut mask) = ([0; 256], [0; 256]);
//! image[..5].copy_from_slice(&[0x34, 0x12, 0x78, 0x56, 2]); // memory space is enabled
//! image[0x10..0x14].copy_from_slice(&0xe000_0000u32.to_le_bytes());
//! mask[0x10..0x14].copy_from_slice(&0xffff_f000u32.to_le_bytes());
//! let slot = Slot { bus: 0, device: 1, function: 0 };
//! assert_eq!(check(&text(&[(slot, image)].into()), &text(&[(slot, mask)].into()), &[0]), Ok(()));
//! ```
//!
//! No standard library is needed. With the feature `malloc`, which is on by default, the library asks the C library for
//! memory, else Rust's global allocator.
#![no_std]
extern crate alloc;

#[cfg(not(feature = "malloc"))]
mod memory;
mod raw;

use alloc::{collections::BTreeMap, format, string::String, vec, vec::Vec};
use core::sync::atomic::{AtomicBool, Ordering};

/// Pools for I/O, memory and prefetchable memory, both ends of each inclusive.
#[repr(C)]
#[derive(Clone, Copy, Debug, PartialEq, Eq)]
pub struct Pools {
    pub io_first: u64,
    pub io_last: u64,
    pub mem_first: u64,
    pub mem_last: u64,
    pub pref_first: u64,
    pub pref_last: u64,
}

/// A write of `width` little-endian bytes, 2 or 4, to the configuration register at `offset`.
#[repr(C)]
#[derive(Clone, Copy, Debug, Default, PartialEq, Eq)]
pub struct Write {
    pub bus: u8,
    pub device: u8,
    pub function: u8,
    pub offset: u8,
    pub width: u8,
    pub value: u32,
}

/// A window of a bridge in which a spare has no room, by the offset of its first register: 1Ch of I/O, 20h of memory, 24h of
/// prefetchable memory.
#[repr(C)]
#[derive(Clone, Copy, Debug, Default, PartialEq, Eq)]
pub struct Denied {
    pub bus: u8,
    pub device: u8,
    pub function: u8,
    pub offset: u8,
}

/// What is given to [`faults`] beside the texts, in words as on the command line. A word that is empty isn't said.
#[derive(Clone, Copy, Debug)]
pub struct Faults<'a> {
    /// The words by which functions are taken, as `power,reset` or `all`.
    pub model: &'a str,
    /// The list of the I/O that the host sends to its root buses, as `0-cf7,d00-ffff`.
    pub host_io: &'a str,
    /// The list of the memory that it sends.
    pub host_mem: &'a str,
    /// Whether reasons are told behind each fault, which is so by default.
    pub why: bool,
}

impl Default for Faults<'_> {
    fn default() -> Self {
        Faults { model: "", host_io: "", host_mem: "", why: true }
    }
}

/// What is asked of [`settle`], in words as on the command line. `io`, `mem` and `pref` are `none` by default.
#[derive(Clone, Copy, Debug)]
pub struct Settle<'a> {
    /// The list in which I/O is placed, as `1000-ffff` or `00:1000-7fff,40:8000-ffff`.
    pub io: &'a str,
    /// The list for memory.
    pub mem: &'a str,
    /// The list for prefetchable memory.
    pub pref: &'a str,
    /// The slots of which no register may be written, as `00:1f.0,01:00.0`.
    pub fixed: &'a str,
    /// What is wanted behind each hot-plug slot, as `io:1000,mem:200000`.
    pub spare: &'a str,
    /// The bridges that have such a slot, as `00:1c.0`; where it is empty, those of the dump whose registers say so.
    pub slots: &'a str,
    /// A text of ranges that functions answer beside their BARs and ROMs, as the file of `--also`; nothing is told where it is
    /// empty.
    pub also: &'a [u8],
    /// Whether all is placed anew, and nothing stays where it is but told ranges and what leads to them.
    pub anew: bool,
}

impl Default for Settle<'_> {
    fn default() -> Self {
        Settle { io: "none", mem: "none", pref: "none", fixed: "", spare: "", slots: "", also: b"", anew: false }
    }
}

/// Writes in the order in which they are made. After `safe_from` of them or more one may stop anywhere.
#[derive(Clone, Debug, PartialEq, Eq)]
pub struct Plan {
    pub writes: Vec<Write>,
    pub safe_from: usize,
    /// The windows of a settling whose spares have no room, the highest slot first.
    pub denied: Vec<Denied>,
}

/// Why there is no answer, or the answer is no.
#[derive(Clone, Debug, PartialEq, Eq)]
pub enum Refusal {
    /// It is a no, and the line names a fault that is there, as `no 72 NoRoom mem`. Of [`faults`] it is the list of all.
    No(String),
    /// A text or a word is none; the message is that of the program, as `dump: 5 BadLine 17`.
    Refused(String),
    /// There wasn't enough memory.
    Memory,
    /// The processor lacks instructions that the library is built of.
    Processor,
    /// The library that was linked is of this other version: major, minor and patch, eight bits each.
    Version(u32),
}

/// The place of a function in configuration space.
#[derive(Clone, Copy, Debug, PartialEq, Eq, PartialOrd, Ord)]
pub struct Slot {
    pub bus: u8,
    pub device: u8,
    pub function: u8,
}

/// So long a line holds every answer: `PCIPLAN_LINE` of the header.
const LINE: usize = 96;
/// A list of faults that is longer is asked for twice.
const LIST: usize = 4096;
/// The version whose structs and calls these are: `PCIPLAN_VERSION` of the header. Its patch doesn't matter.
const VERSION: u32 = 0x000500;
/// So many writes a function has at most.
const WRITES: usize = 16;
/// So many windows a bridge has.
const WINDOWS: usize = 3;
/// So many bytes of a dump a function has at least: its slot, 16 rows of 52 bytes, and an empty line that the last may lack.
const FUNCTION: usize = 841;

/// Judges a dump and its probe. `Ok` is a yes.
pub fn check(dump: &[u8], probe: &[u8], roots: &[u8]) -> Result<(), Refusal> {
    be_usable()?;
    let mut line = Line::default();
    // SAFETY: each pointer is to as many bytes as its length says, and none is null; `line` is this function's own.
    let status = unsafe {
        raw::pciplan_check(
            dump.as_ptr(), dump.len(), probe.as_ptr(), probe.len(), roots.as_ptr(), roots.len(),
            line.bytes.as_mut_ptr(), LINE, &mut line.used,
        )
    };
    if status == 0 { Ok(()) } else { Err(line.refusal(status)) }
}

/// Lists all faults of a dump and its probe. `Ok` is a yes, and [`Refusal::No`] has the list.
pub fn faults(dump: &[u8], probe: &[u8], roots: &[u8], asked: &Faults<'_>) -> Result<(), Refusal> {
    be_usable()?;
    let words = raw::FaultsWords {
        model: word(asked.model),
        host_io: word(asked.host_io),
        host_mem: word(asked.host_mem),
        why: asked.why.into(),
    };
    let mut list = vec![0; LIST];
    loop {
        let mut used = 0;
        // SAFETY: as in `check`; what `words` points to lives as long as `asked`, and `list` is this function's own.
        let status = unsafe {
            raw::pciplan_faults(
                dump.as_ptr(), dump.len(), probe.as_ptr(), probe.len(), roots.as_ptr(), roots.len(), &words,
                list.as_mut_ptr(), list.len(), &mut used,
            )
        };
        match status {
            0 => return Ok(()),
            4 => list.resize(used, 0),
            _ => return Err(refusal(status, &list[..used.min(list.len())])),
        }
    }
}

/// Places all anew in three pools.
pub fn plan(dump: &[u8], probe: &[u8], roots: &[u8], pools: &Pools) -> Result<Plan, Refusal> {
    written(dump.len(), |room| {
        // SAFETY: as in `check`; `writes` has as many places as its length says, and all that is written to is `room`'s.
        unsafe {
            raw::pciplan_plan(
                dump.as_ptr(), dump.len(), probe.as_ptr(), probe.len(), roots.as_ptr(), roots.len(), pools,
                room.writes.as_mut_ptr(), room.writes.len(), &mut room.count, &mut room.safe_from,
                room.line.bytes.as_mut_ptr(), LINE, &mut room.line.used,
            )
        }
    })
}

/// Leaves what works where it is, and places the rest.
pub fn settle(dump: &[u8], probe: &[u8], roots: &[u8], asked: &Settle<'_>) -> Result<Plan, Refusal> {
    let words = raw::SettleWords {
        io: word(asked.io),
        mem: word(asked.mem),
        pref: word(asked.pref),
        fixed: word(asked.fixed),
        spare: word(asked.spare),
        slots: word(asked.slots),
        also: bytes(asked.also),
        anew: asked.anew.into(),
    };
    written(dump.len(), |room| {
        // SAFETY: as in `plan`; what `words` points to lives as long as `asked`.
        unsafe {
            raw::pciplan_settle(
                dump.as_ptr(), dump.len(), probe.as_ptr(), probe.len(), roots.as_ptr(), roots.len(), &words,
                room.writes.as_mut_ptr(), room.writes.len(), &mut room.count, &mut room.safe_from,
                room.denied.as_mut_ptr(), room.denied.len(), &mut room.count_denied,
                room.line.bytes.as_mut_ptr(), LINE, &mut room.line.used,
            )
        }
    })
}

/// The text of configuration spaces.
pub fn text(images: &BTreeMap<Slot, [u8; 256]>) -> Vec<u8> {
    let mut text = String::new();
    for (slot, image) in images {
        text += &format!("{:02x}:{:02x}.{:x}\n", slot.bus, slot.device, slot.function);
        for (row, bytes) in image.chunks(16).enumerate() {
            text += &format!("{:02x}:", row * 16);
            for byte in bytes {
                text += &format!(" {byte:02x}");
            }
            text.push('\n');
        }
        text.push('\n');
    }
    text.into_bytes()
}

/// Whether this processor has the instructions that the library is built of.
pub fn supported() -> bool {
    // SAFETY: it takes nothing, and needs none of these instructions.
    unsafe { raw::pciplan_supported() == 1 }
}

/// The version of the library: major, minor and patch, eight bits each.
pub fn version() -> u32 {
    // SAFETY: it takes nothing.
    unsafe { raw::pciplan_version() }
}

/// Looks once at the library's version and at the processor.
fn be_usable() -> Result<(), Refusal> {
    static IS_USABLE: AtomicBool = AtomicBool::new(false);
    if !IS_USABLE.load(Ordering::Relaxed) {
        if version() >> 8 != VERSION >> 8 {
            return Err(Refusal::Version(version()));
        }
        if !supported() {
            return Err(Refusal::Processor);
        }
        IS_USABLE.store(true, Ordering::Relaxed);
    }
    Ok(())
}

/// A word as C has it.
fn word(word: &str) -> raw::Text {
    bytes(word.as_bytes())
}

/// Bytes as C has them.
fn bytes(bytes: &[u8]) -> raw::Text {
    raw::Text { at: bytes.as_ptr(), len: bytes.len() }
}

/// What a status other than 0 says. 4 doesn't come, as line, list and writes are long enough.
fn refusal(status: u8, said: &[u8]) -> Refusal {
    let said = || String::from_utf8_lossy(said).trim_end().into();
    match status {
        1 => Refusal::No(said()),
        2 => Refusal::Refused(said()),
        _ => Refusal::Memory,
    }
}

/// The line of an answer, of which the first `used` bytes count.
struct Line {
    bytes: [u8; LINE],
    used: usize,
}

impl Default for Line {
    fn default() -> Self {
        Line { bytes: [0; LINE], used: 0 }
    }
}

impl Line {
    fn refusal(&self, status: u8) -> Refusal {
        refusal(status, &self.bytes[..self.used])
    }
}

/// What a plan or a settling is written to.
struct Room {
    writes: Vec<Write>,
    count: usize,
    safe_from: usize,
    denied: Vec<Denied>,
    count_denied: usize,
    line: Line,
}

/// Makes room for the writes to what a dump of this length lists, and calls.
fn written(dump: usize, call: impl FnOnce(&mut Room) -> u8) -> Result<Plan, Refusal> {
    be_usable()?;
    let functions = dump / FUNCTION + 1;
    let writes = vec![Write::default(); WRITES * functions];
    let denied = vec![Denied::default(); WINDOWS * functions];
    let mut room = Room { writes, count: 0, safe_from: 0, denied, count_denied: 0, line: Line::default() };
    match call(&mut room) {
        0 => {
            room.writes.truncate(room.count);
            room.denied.truncate(room.count_denied);
            Ok(Plan { writes: room.writes, safe_from: room.safe_from, denied: room.denied })
        }
        status => Err(room.line.refusal(status)),
    }
}
