//! The calls, as the header `pciplan.h` declares them.
use crate::{Denied, Pools, Write};

#[repr(C)]
pub struct Text {
    pub at: *const u8,
    pub len: usize,
}

#[repr(C)]
pub struct FaultsWords {
    pub model: Text,
    pub host_io: Text,
    pub host_mem: Text,
    pub why: u8,
}

#[repr(C)]
pub struct SettleWords {
    pub io: Text,
    pub mem: Text,
    pub pref: Text,
    pub fixed: Text,
    pub spare: Text,
    pub slots: Text,
    pub also: Text,
    pub anew: u8,
}

extern "C" {
    pub fn pciplan_version() -> u32;
    pub fn pciplan_supported() -> u8;
    pub fn pciplan_check(
        dump: *const u8, dump_len: usize, probe: *const u8, probe_len: usize, roots: *const u8, roots_len: usize,
        line: *mut u8, line_len: usize, line_used: *mut usize,
    ) -> u8;
    pub fn pciplan_faults(
        dump: *const u8, dump_len: usize, probe: *const u8, probe_len: usize, roots: *const u8, roots_len: usize,
        words: *const FaultsWords,
        text: *mut u8, text_len: usize, text_used: *mut usize,
    ) -> u8;
    pub fn pciplan_plan(
        dump: *const u8, dump_len: usize, probe: *const u8, probe_len: usize, roots: *const u8, roots_len: usize,
        pools: *const Pools,
        writes: *mut Write, writes_len: usize, writes_used: *mut usize, safe_from: *mut usize,
        line: *mut u8, line_len: usize, line_used: *mut usize,
    ) -> u8;
    pub fn pciplan_settle(
        dump: *const u8, dump_len: usize, probe: *const u8, probe_len: usize, roots: *const u8, roots_len: usize,
        words: *const SettleWords,
        writes: *mut Write, writes_len: usize, writes_used: *mut usize, safe_from: *mut usize,
        denied: *mut Denied, denied_len: usize, denied_used: *mut usize,
        line: *mut u8, line_len: usize, line_used: *mut usize,
    ) -> u8;
}
