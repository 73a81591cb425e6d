//! The calls of include/sccc.h, linked from libsccc.a. A slice is handed over
//! as a pointer and a number of elements; the pointer of an empty one is null,
//! as C callers have it.

use std::ptr::{null, null_mut};

/// What `sccc_format` gives.
#[repr(C)]
#[derive(Clone, Copy, Debug, PartialEq, Eq)]
pub struct FormatInfo {
    pub number: u64,
    pub m: u64,
    pub k: u64,
    pub i: u64,
    pub w: u64,
    pub n: u64,
    /// 1 where the interleaver has rows that stand in for published ones.
    pub provisional: u64,
    pub k1: u64,
    pub k2: u64,
    pub soft: u64,
}

/// What `sccc_step` gives.
#[repr(C)]
#[derive(Clone, Copy, Debug, PartialEq, Eq)]
pub struct Stepped {
    pub number: u64,
    pub systematic: u64,
    pub parity: u64,
    pub state: u64,
}

/// What `sccc_run` gives.
#[repr(C)]
#[derive(Clone, Copy, Debug, PartialEq, Eq)]
pub struct RunAnswer {
    pub number: u64,
    pub state: u64,
}

/// What `sccc_interleave` gives.
#[repr(C)]
#[derive(Clone, Copy, Debug, PartialEq, Eq)]
pub struct Interleaved {
    pub number: u64,
    pub position: u64,
}

/// Of each segment of a trellis' input: the state in which its run from zero
/// ends, and its true starting state.
#[repr(C)]
#[derive(Clone, Copy, Debug, Default, PartialEq, Eq)]
pub struct SegmentStates {
    pub ended: [u8; 16],
    pub started: [u8; 16],
}

/// What `sccc_encode_segments` gives.
#[repr(C)]
#[derive(Clone, Copy, Debug, PartialEq, Eq)]
pub struct SegmentsAnswer {
    pub number: u64,
    pub outer: SegmentStates,
    pub inner: SegmentStates,
}

/// What `sccc_encode_shared` gives; held is the size that the memory holds, 0 for
/// none.
#[repr(C)]
#[derive(Clone, Copy, Debug, PartialEq, Eq)]
pub struct SharedAnswer {
    pub number: u64,
    pub held: u64,
}

/// What `sccc_section` gives: where the section stands in the caller's labels.
#[repr(C)]
#[derive(Clone, Copy, Debug, PartialEq, Eq)]
pub struct SectionRange {
    pub number: u64,
    pub start: u64,
    pub length: u64,
}

/// What `sccc_compare` gives; same is 1 or 0.
#[repr(C)]
#[derive(Clone, Copy, Debug, PartialEq, Eq)]
pub struct Comparison {
    pub number: u64,
    pub same: u64,
    pub count: u64,
    pub first: u64,
}

/// A slicer: what goes from call to call beside its memory.
#[repr(C)]
#[derive(Clone, Copy, Debug, PartialEq, Eq)]
pub struct Slicer {
    pub format: u64,
    pub frame_length: u64,
    pub waiting: u64,
}

/// What `sccc_slicer_push` and `sccc_slicer_change` give.
#[repr(C)]
#[derive(Clone, Copy, Debug, PartialEq, Eq)]
pub struct SlicerAnswer {
    pub number: u64,
    pub slicer: Slicer,
}

/// What `sccc_slicer_block` gives; wait is 1 or 0.
#[repr(C)]
#[derive(Clone, Copy, Debug, PartialEq, Eq)]
pub struct BlockAnswer {
    pub number: u64,
    pub wait: u64,
    pub slicer: Slicer,
}

/// What `sccc_slicer_look` gives.
#[repr(C)]
#[derive(Clone, Copy, Debug, PartialEq, Eq)]
pub struct LookAnswer {
    pub number: u64,
    pub blocks: u64,
    pub bits: u64,
}

/// Stands for the code number of what is unscrambled.
pub const UNSCRAMBLED: u64 = u64::MAX;

/// What `sccc_job` gives; an old line has pilots 0 and is unscrambled.
#[repr(C)]
#[derive(Clone, Copy, Debug, PartialEq, Eq)]
pub struct JobAnswer {
    pub number: u64,
    pub format: u64,
    pub pattern: u64,
    pub pilots: u64,
    pub code: u64,
}

/// What `sccc_job_lengthen` and `sccc_job_shorten` give.
#[repr(C)]
#[derive(Clone, Copy, Debug, PartialEq, Eq)]
pub struct LineAnswer {
    pub number: u64,
    pub length: u64,
}

/// What `sccc_point` gives.
#[repr(C)]
#[derive(Clone, Copy, Debug, PartialEq)]
pub struct PointAnswer {
    pub number: u64,
    pub i: f64,
    pub q: f64,
}

/// What `sccc_judge` gives; none is 1 where nothing differs, and first is then 0.
#[repr(C)]
#[derive(Clone, Copy, Debug, PartialEq, Eq)]
pub struct Judgement {
    pub number: u64,
    pub agreeing: u64,
    pub differing: u64,
    pub lost: u64,
    pub none: u64,
    pub first: u64,
}

extern "C" {
    fn sccc_format(format: u64) -> FormatInfo;
    fn sccc_step(state: u64, bit: u64) -> Stepped;
    fn sccc_run(
        state: u64,
        bits: *const u8,
        bits_len: usize,
        out: *mut u8,
        out_len: usize,
    ) -> RunAnswer;
    fn sccc_interleave(format: u64, position: u64) -> Interleaved;
    fn sccc_encode(
        format: u64,
        block: *const u8,
        block_len: usize,
        work: *mut u8,
        work_len: usize,
        out: *mut u8,
        out_len: usize,
    ) -> u8;
    fn sccc_encode_segments(
        format: u64,
        block: *const u8,
        block_len: usize,
        work: *mut u8,
        work_len: usize,
        out: *mut u8,
        out_len: usize,
        outer_cuts: *const u16,
        outer_len: usize,
        inner_cuts: *const u16,
        inner_len: usize,
    ) -> SegmentsAnswer;
    fn sccc_encode_shared(
        format: u64,
        block: *const u8,
        block_len: usize,
        work: *mut u8,
        work_len: usize,
        out: *mut u8,
        out_len: usize,
        memory: *mut u16,
        memory_len: usize,
        held: u64,
    ) -> SharedAnswer;
    fn sccc_labels(
        format: u64,
        codeword: *const u8,
        codeword_len: usize,
        out: *mut u8,
        out_len: usize,
    ) -> u8;
    fn sccc_frame(
        format: u64,
        pilots: u64,
        labels: *const u8,
        labels_len: usize,
        out: *mut u16,
        out_len: usize,
    ) -> u8;
    fn sccc_section(labels: *const u8, labels_len: usize, place: u64) -> SectionRange;
    fn sccc_compare(
        format: u64,
        a: *const u8,
        a_len: usize,
        b: *const u8,
        b_len: usize,
    ) -> Comparison;
    fn sccc_slicer_new(format: u64) -> Slicer;
    fn sccc_slicer_push(
        slicer: Slicer,
        frame: *const u8,
        frame_len: usize,
        waiting: *mut u8,
        waiting_len: usize,
    ) -> SlicerAnswer;
    fn sccc_slicer_block(
        slicer: Slicer,
        waiting: *mut u8,
        waiting_len: usize,
        out: *mut u8,
        out_len: usize,
    ) -> BlockAnswer;
    fn sccc_slicer_change(slicer: Slicer, format: u64) -> SlicerAnswer;
    fn sccc_slicer_look(slicer: Slicer, format: u64) -> LookAnswer;
    fn sccc_job(line: *const u8, line_len: usize) -> JobAnswer;
    fn sccc_job_lengthen(
        line: *const u8,
        line_len: usize,
        out: *mut u8,
        out_len: usize,
    ) -> LineAnswer;
    fn sccc_job_shorten(
        line: *const u8,
        line_len: usize,
        out: *mut u8,
        out_len: usize,
    ) -> LineAnswer;
    fn sccc_point(format: u64, slot: u64, code: u64, place: u64) -> PointAnswer;
    fn sccc_points(
        format: u64,
        slots: *const u16,
        slots_len: usize,
        code: u64,
        place: u64,
        out: *mut f64,
        out_len: usize,
    ) -> u8;
    fn sccc_judge(
        format: u64,
        labels: *const u8,
        labels_len: usize,
        capture: *const u8,
        capture_len: usize,
    ) -> Judgement;
}

fn pointer<T>(list: &[T]) -> *const T {
    if list.is_empty() {
        null()
    } else {
        list.as_ptr()
    }
}

fn pointer_mut<T>(list: &mut [T]) -> *mut T {
    if list.is_empty() {
        null_mut()
    } else {
        list.as_mut_ptr()
    }
}

pub fn format(format: u64) -> FormatInfo {
    // SAFETY: it takes numbers alone.
    unsafe { sccc_format(format) }
}

pub fn step(state: u64, bit: u64) -> Stepped {
    // SAFETY: it takes numbers alone.
    unsafe { sccc_step(state, bit) }
}

pub fn run(state: u64, bits: &[u8], out: &mut [u8]) -> RunAnswer {
    // SAFETY: as in encode.
    unsafe {
        sccc_run(
            state,
            pointer(bits),
            bits.len(),
            pointer_mut(out),
            out.len(),
        )
    }
}

pub fn interleave(format: u64, position: u64) -> Interleaved {
    // SAFETY: it takes numbers alone.
    unsafe { sccc_interleave(format, position) }
}

pub fn encode(format: u64, block: &[u8], work: &mut [u8], out: &mut [u8]) -> u8 {
    // SAFETY: each pointer goes with its slice's length; the slices do not overlap.
    unsafe {
        sccc_encode(
            format,
            pointer(block),
            block.len(),
            pointer_mut(work),
            work.len(),
            pointer_mut(out),
            out.len(),
        )
    }
}

pub fn encode_segments(
    format: u64,
    block: &[u8],
    work: &mut [u8],
    out: &mut [u8],
    outer_cuts: &[u16],
    inner_cuts: &[u16],
) -> SegmentsAnswer {
    // SAFETY: as in encode.
    unsafe {
        sccc_encode_segments(
            format,
            pointer(block),
            block.len(),
            pointer_mut(work),
            work.len(),
            pointer_mut(out),
            out.len(),
            pointer(outer_cuts),
            outer_cuts.len(),
            pointer(inner_cuts),
            inner_cuts.len(),
        )
    }
}

pub fn encode_shared(
    format: u64,
    block: &[u8],
    work: &mut [u8],
    out: &mut [u8],
    memory: &mut [u16],
    held: u64,
) -> SharedAnswer {
    // SAFETY: as in encode.
    unsafe {
        sccc_encode_shared(
            format,
            pointer(block),
            block.len(),
            pointer_mut(work),
            work.len(),
            pointer_mut(out),
            out.len(),
            pointer_mut(memory),
            memory.len(),
            held,
        )
    }
}

pub fn labels(format: u64, codeword: &[u8], out: &mut [u8]) -> u8 {
    // SAFETY: as in encode.
    unsafe {
        sccc_labels(
            format,
            pointer(codeword),
            codeword.len(),
            pointer_mut(out),
            out.len(),
        )
    }
}

pub fn frame(format: u64, pilots: u64, labels: &[u8], out: &mut [u16]) -> u8 {
    // SAFETY: as in encode.
    unsafe {
        sccc_frame(
            format,
            pilots,
            pointer(labels),
            labels.len(),
            pointer_mut(out),
            out.len(),
        )
    }
}

pub fn section(labels: &[u8], place: u64) -> SectionRange {
    // SAFETY: as in encode.
    unsafe { sccc_section(pointer(labels), labels.len(), place) }
}

pub fn compare(format: u64, a: &[u8], b: &[u8]) -> Comparison {
    // SAFETY: as in encode.
    unsafe { sccc_compare(format, pointer(a), a.len(), pointer(b), b.len()) }
}

pub fn slicer_new(format: u64) -> Slicer {
    // SAFETY: it takes numbers alone.
    unsafe { sccc_slicer_new(format) }
}

pub fn slicer_push(slicer: Slicer, frame: &[u8], waiting: &mut [u8]) -> SlicerAnswer {
    // SAFETY: as in encode.
    unsafe {
        sccc_slicer_push(
            slicer,
            pointer(frame),
            frame.len(),
            pointer_mut(waiting),
            waiting.len(),
        )
    }
}

pub fn slicer_block(slicer: Slicer, waiting: &mut [u8], out: &mut [u8]) -> BlockAnswer {
    // SAFETY: as in encode.
    unsafe {
        sccc_slicer_block(
            slicer,
            pointer_mut(waiting),
            waiting.len(),
            pointer_mut(out),
            out.len(),
        )
    }
}

pub fn slicer_change(slicer: Slicer, format: u64) -> SlicerAnswer {
    // SAFETY: it takes numbers alone.
    unsafe { sccc_slicer_change(slicer, format) }
}

pub fn slicer_look(slicer: Slicer, format: u64) -> LookAnswer {
    // SAFETY: it takes numbers alone.
    unsafe { sccc_slicer_look(slicer, format) }
}

pub fn job(line: &[u8]) -> JobAnswer {
    // SAFETY: as in encode.
    unsafe { sccc_job(pointer(line), line.len()) }
}

pub fn job_lengthen(line: &[u8], out: &mut [u8]) -> LineAnswer {
    // SAFETY: as in encode.
    unsafe { sccc_job_lengthen(pointer(line), line.len(), pointer_mut(out), out.len()) }
}

pub fn job_shorten(line: &[u8], out: &mut [u8]) -> LineAnswer {
    // SAFETY: as in encode.
    unsafe { sccc_job_shorten(pointer(line), line.len(), pointer_mut(out), out.len()) }
}

pub fn point(format: u64, slot: u64, code: u64, place: u64) -> PointAnswer {
    // SAFETY: it takes numbers alone.
    unsafe { sccc_point(format, slot, code, place) }
}

/// The output is handed over by the bits of its numbers, which tell any two apart.
pub fn points(format: u64, slots: &[u16], code: u64, place: u64, out: &mut [u64]) -> u8 {
    // SAFETY: as in encode; every u64 is the bits of an f64, which has its size and
    // needs no more alignment.
    unsafe {
        sccc_points(
            format,
            pointer(slots),
            slots.len(),
            code,
            place,
            pointer_mut(out).cast(),
            out.len(),
        )
    }
}

pub fn judge(format: u64, labels: &[u8], capture: &[u8]) -> Judgement {
    // SAFETY: as in encode.
    unsafe {
        sccc_judge(
            format,
            pointer(labels),
            labels.len(),
            pointer(capture),
            capture.len(),
        )
    }
}
