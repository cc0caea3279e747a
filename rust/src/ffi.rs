//! The calls of `rudekpi.h`, as C declares them.

use std::os::raw::c_void;

pub(crate) const DONE: u32 = 0;
pub(crate) const BAD_LINE: u32 = 1;
pub(crate) const LOG_FULL: u32 = 2;
pub(crate) const NO_MEMORY: u32 = 3;
pub(crate) const REFUSED: u32 = 6;
pub(crate) const DAMAGED: u32 = 7;
pub(crate) const NOT_SILENT: u32 = 8;
pub(crate) const NOT_SHOWN: u32 = 9;
pub(crate) const NOT_COUNTED: u32 = 10;

/// The rule number of a repair.
pub(crate) const REPAIR: u32 = 5;

/// Holds a session or an audit. A full slot stays at its address.
#[repr(C)]
pub(crate) struct Slot {
    pub at: *mut c_void,
    pub full: bool,
}

impl Slot {
    pub fn empty() -> Box<Slot> {
        Box::new(Slot {
            at: std::ptr::null_mut(),
            full: false,
        })
    }
}

/// What a call reports about the entry that it adds.
#[repr(C)]
#[derive(Default)]
pub(crate) struct Told {
    pub entry: u32,
    pub refusal: u32,
    pub target: u32,
    pub rows: usize,
}

#[repr(C)]
#[derive(Clone, Copy, Default)]
pub(crate) struct Row {
    pub node: u32,
    pub rule: u32,
    pub other: u32,
}

#[repr(C)]
#[derive(Clone, Copy, Default)]
pub(crate) struct RawNode {
    pub pointer: u32,
    pub flag: bool,
    pub present: bool,
}

#[repr(C)]
#[derive(Clone, Copy)]
pub(crate) struct RawItem {
    pub node: u32,
    pub wish: u32,
}

#[repr(C)]
#[derive(Clone, Copy, Default)]
pub(crate) struct RawVerdict {
    pub kind: u32,
    pub entries: u32,
    pub epochs: u32,
    pub moves: u64,
    pub line: u64,
}

/// What a node holds of itself, or of a neighbour; pointer 0 is null.
#[repr(C)]
#[derive(Clone, Copy)]
pub(crate) struct RawRecord {
    pub node: u32,
    pub pointer: u32,
    pub flag: bool,
}

/// The move of a node, or the fault of what it holds.
#[repr(C)]
#[derive(Clone, Copy, Default)]
pub(crate) struct RawLocalMove {
    pub rule: u32,
    pub target: u32,
    pub pointer: u32,
    pub flag: bool,
    pub fault: u32,
    pub at: u32,
}

extern "C" {
    pub(crate) fn rudekpi_version() -> u32;
    pub(crate) fn rudekpi_session_new(rules: u32, nodes: u32, present: u32, slot: *mut Slot) -> u32;
    pub(crate) fn rudekpi_session_resume(
        slot: *mut Slot,
        bytes: *const u8,
        length: usize,
        verdict: *mut RawVerdict,
    ) -> u32;
    pub(crate) fn rudekpi_session_feed(slot: *mut Slot, line: *const u8, length: usize, number: *mut u64) -> u32;
    pub(crate) fn rudekpi_session_length(slot: *mut Slot) -> usize;
    pub(crate) fn rudekpi_session_read(slot: *mut Slot, out: *mut u8, room: usize) -> usize;
    pub(crate) fn rudekpi_session_free(slot: *mut Slot);
    pub(crate) fn rudekpi_link(slot: *mut Slot, a: u32, b: u32, told: *mut Told) -> u32;
    pub(crate) fn rudekpi_unlink(slot: *mut Slot, a: u32, b: u32, told: *mut Told) -> u32;
    pub(crate) fn rudekpi_join(slot: *mut Slot, node: u32, told: *mut Told) -> u32;
    pub(crate) fn rudekpi_leave(slot: *mut Slot, node: u32, told: *mut Told) -> u32;
    pub(crate) fn rudekpi_point(slot: *mut Slot, node: u32, target: u32, told: *mut Told) -> u32;
    pub(crate) fn rudekpi_flag(slot: *mut Slot, node: u32, value: bool, told: *mut Told) -> u32;
    pub(crate) fn rudekpi_step(slot: *mut Slot, items: *const RawItem, length: usize, told: *mut Told) -> u32;
    pub(crate) fn rudekpi_show(slot: *mut Slot, node: u32, told: *mut Told) -> u32;
    pub(crate) fn rudekpi_enabled(slot: *mut Slot, told: *mut Told) -> u32;
    pub(crate) fn rudekpi_pairs(slot: *mut Slot, told: *mut Told) -> u32;
    pub(crate) fn rudekpi_status(slot: *mut Slot, counts: *mut crate::Counts, told: *mut Told) -> u32;
    pub(crate) fn rudekpi_rows(slot: *mut Slot, out: *mut Row, room: usize) -> usize;
    pub(crate) fn rudekpi_drive(slot: *mut Slot, seed: u64, count: u32, told: *mut Told) -> u32;
    pub(crate) fn rudekpi_scramble(slot: *mut Slot, seed: u64, count: u32, told: *mut Told) -> u32;
    pub(crate) fn rudekpi_checkpoint(slot: *mut Slot, told: *mut Told) -> u32;
    pub(crate) fn rudekpi_transcript(slot: *mut Slot, keeps: bool) -> u32;
    pub(crate) fn rudekpi_session_renumber(slot: *mut Slot, ended: *mut usize) -> u32;
    pub(crate) fn rudekpi_registers(slot: *mut Slot, node: u32, registers: *mut RawNode) -> u32;
    pub(crate) fn rudekpi_neighbours(slot: *mut Slot, node: u32, out: *mut u32, room: usize, count: *mut usize) -> u32;
    pub(crate) fn rudekpi_nodes(slot: *mut Slot, out: *mut u32, room: usize, count: *mut usize) -> u32;
    pub(crate) fn rudekpi_restless(slot: *mut Slot, out: *mut u32, room: usize, count: *mut usize) -> u32;
    pub(crate) fn rudekpi_edges(slot: *mut Slot, out: *mut Row, room: usize, count: *mut usize) -> u32;
    pub(crate) fn rudekpi_partner(slot: *mut Slot, node: u32, partner: *mut u32) -> u32;
    pub(crate) fn rudekpi_moves_left(slot: *mut Slot, moves: *mut u32) -> u32;
    pub(crate) fn rudekpi_count_rounds(slot: *mut Slot) -> u32;
    pub(crate) fn rudekpi_rounds(slot: *mut Slot, rounds: *mut u32) -> u32;
    pub(crate) fn rudekpi_rounds_left(slot: *mut Slot, left: *mut u32) -> u32;
    pub(crate) fn rudekpi_is_at_rest(slot: *mut Slot, node: u32, rests: *mut bool) -> u32;
    pub(crate) fn rudekpi_cost_of_link(slot: *mut Slot, a: u32, b: u32, cost: *mut u32) -> u32;
    pub(crate) fn rudekpi_cost_of_unlink(slot: *mut Slot, a: u32, b: u32, cost: *mut u32) -> u32;
    pub(crate) fn rudekpi_cost_of_join(slot: *mut Slot, node: u32, cost: *mut u32) -> u32;
    pub(crate) fn rudekpi_cost_of_leave(slot: *mut Slot, node: u32, cost: *mut u32) -> u32;
    pub(crate) fn rudekpi_cost_of_point(slot: *mut Slot, node: u32, target: u32, cost: *mut u32) -> u32;
    pub(crate) fn rudekpi_cost_of_flag(slot: *mut Slot, node: u32, value: bool, cost: *mut u32) -> u32;
    pub(crate) fn rudekpi_silent_cost_of_link(slot: *mut Slot, a: u32, b: u32, cost: *mut u32) -> u32;
    pub(crate) fn rudekpi_silent_cost_of_unlink(slot: *mut Slot, a: u32, b: u32, cost: *mut u32) -> u32;
    pub(crate) fn rudekpi_silent_cost_of_join(slot: *mut Slot, node: u32, cost: *mut u32) -> u32;
    pub(crate) fn rudekpi_silent_cost_of_leave(slot: *mut Slot, node: u32, cost: *mut u32) -> u32;
    pub(crate) fn rudekpi_silent_cost_of_point(slot: *mut Slot, node: u32, target: u32, cost: *mut u32) -> u32;
    pub(crate) fn rudekpi_silent_cost_of_flag(slot: *mut Slot, node: u32, value: bool, cost: *mut u32) -> u32;
    pub(crate) fn rudekpi_reach_of_link(
        slot: *mut Slot,
        a: u32,
        b: u32,
        out: *mut u32,
        room: usize,
        count: *mut usize,
    ) -> u32;
    pub(crate) fn rudekpi_reach_of_unlink(
        slot: *mut Slot,
        a: u32,
        b: u32,
        out: *mut u32,
        room: usize,
        count: *mut usize,
    ) -> u32;
    pub(crate) fn rudekpi_reach_of_leave(
        slot: *mut Slot,
        node: u32,
        out: *mut u32,
        room: usize,
        count: *mut usize,
    ) -> u32;
    pub(crate) fn rudekpi_reach_of_point(
        slot: *mut Slot,
        node: u32,
        target: u32,
        out: *mut u32,
        room: usize,
        count: *mut usize,
    ) -> u32;
    pub(crate) fn rudekpi_reach_of_flag(
        slot: *mut Slot,
        node: u32,
        value: bool,
        out: *mut u32,
        room: usize,
        count: *mut usize,
    ) -> u32;
    pub(crate) fn rudekpi_local_rule(
        rules: u32,
        own: *const RawRecord,
        neighbours: *const RawRecord,
        length: usize,
        told: *mut RawLocalMove,
    ) -> u32;
    pub(crate) fn rudekpi_may_move(
        rules: u32,
        own: *const RawRecord,
        neighbours: *const RawRecord,
        length: usize,
        rule: u32,
        target: u32,
        may: *mut bool,
    ) -> u32;
    pub(crate) fn rudekpi_audit(bytes: *const u8, length: usize, verdict: *mut RawVerdict);
    pub(crate) fn rudekpi_audit_new(slot: *mut Slot) -> u32;
    pub(crate) fn rudekpi_audit_feed(slot: *mut Slot, bytes: *const u8, length: usize) -> u32;
    pub(crate) fn rudekpi_audit_finish(slot: *mut Slot, verdict: *mut RawVerdict) -> u32;
    pub(crate) fn rudekpi_audit_free(slot: *mut Slot);
}
