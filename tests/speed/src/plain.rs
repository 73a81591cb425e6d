//! A plain encoder to time the library against: the same calls with the same
//! checks, all tables made beforehand, ordinary loops. A judgement alone has no
//! checks, and is in C.

use crate::bch::PlainBch;
use crate::points::PlainPoints;
use crate::search::{Capture, PlainSearch};
use crate::slicer::PlainSlicer;
use interface::{BlockAnswer, Comparison, Judgement, RunAnswer, Slicer, SlicerAnswer};
use oracle::annex_c::AnnexC;
use oracle::framing::{
    FRAME_LABELS, FRAME_SLOTS, PILOT, PILOT_FRAME_SLOTS, SUBSECTION_DATA, SUBSECTION_PILOTS,
};
use oracle::tables::{Format, SECTION};
use oracle::{encoder, framing};

/// What is worked out once for a format.
struct Tables {
    format: Format,
    /// The interleaved position of each position in the upper register.
    pi: Vec<u32>,
    /// Where the bits stand that the upper register keeps, in order.
    upper: Vec<u32>,
    /// Whether the lower register keeps a bit.
    lower: Vec<bool>,
    /// The frame's slots before the labels, pilots off and on.
    headers: [Vec<u16>; 2],
}

impl Tables {
    fn new(format: &Format, annex_c: &AnnexC) -> Tables {
        let interleaver = annex_c.of_size(format.I);
        let pi: Vec<u32> = (interleaver.permutation().iter())
            .map(|position| position.0 as u32)
            .collect();
        let upper_kept = encoder::upper_kept(format, interleaver);
        let upper = (pi.iter().zip(upper_kept))
            .filter(|(_, kept)| *kept)
            .map(|(position, _)| *position)
            .collect();
        Tables {
            format: *format,
            pi,
            upper,
            lower: encoder::lower_kept(format)[..format.I].to_vec(),
            headers: [0, 1].map(|pilots| framing::frame(format, pilots, &[])),
        }
    }
}

/// The tables of some formats, each at its format's number, and those of the BCH
/// code, of the slicer, of the points and of the search among them.
pub struct Plain {
    tables: Vec<Option<Tables>>,
    bch: PlainBch,
    slicer: PlainSlicer,
    points: PlainPoints,
    search: PlainSearch,
}

impl Plain {
    pub fn new(annex_c: &AnnexC, formats: &[Format]) -> Plain {
        let mut tables = Vec::new();
        for f in formats {
            let at = f.number as usize;
            tables.resize_with(tables.len().max(at + 1), || None);
            tables[at] = Some(Tables::new(f, annex_c));
        }
        Plain {
            tables,
            bch: PlainBch::new(),
            slicer: PlainSlicer::new(),
            points: PlainPoints::new(),
            search: PlainSearch::new(),
        }
    }

    fn tables(&self, format: u64) -> Option<&Tables> {
        self.tables.get(usize::try_from(format).ok()?)?.as_ref()
    }

    pub fn encode(&self, format: u64, block: &[u8], work: &mut [u8], out: &mut [u8]) -> u8 {
        let Some(t) = self.tables(format) else {
            return 1;
        };
        let f = &t.format;
        if block.len() != f.K {
            return 2;
        }
        if !all_at_most(block, 1) {
            return 3;
        }
        if work.len() < f.I {
            return 4;
        }
        if out.len() < f.N {
            return 5;
        }
        let work = &mut work[..f.I];
        let (soft, hard) = block.split_at(f.K1);
        let (trellis_part, bch_part) = out[..f.N].split_at_mut(f.N1());
        outer(soft, work);
        let (upper, lower) = trellis_part.split_at_mut(f.S);
        inner(t, work, upper, lower);
        self.bch.encode(hard, bch_part);
        0
    }

    pub fn labels(&self, format: u64, codeword: &[u8], out: &mut [u8]) -> u8 {
        let Some(t) = self.tables(format) else {
            return 1;
        };
        if codeword.len() != t.format.N {
            return 2;
        }
        if !all_at_most(codeword, 1) {
            return 3;
        }
        if out.len() < SECTION {
            return 5;
        }
        let out = &mut out[..SECTION];
        out.fill(0);
        for column in codeword.chunks_exact(SECTION) {
            for (label, bit) in out.iter_mut().zip(column) {
                *label = 2 * *label + bit;
            }
        }
        0
    }

    pub fn frame(&self, format: u64, pilots: u64, labels: &[u8], out: &mut [u16]) -> u8 {
        let Some(t) = self.tables(format) else {
            return 1;
        };
        let (header, length) = match pilots {
            0 => (&t.headers[0], FRAME_SLOTS),
            1 => (&t.headers[1], PILOT_FRAME_SLOTS),
            _ => return 14,
        };
        if labels.len() != FRAME_LABELS {
            return 2;
        }
        if !all_at_most(labels, top_label(&t.format)) {
            return 3;
        }
        if out.len() < length {
            return 5;
        }
        let (front, slots) = out[..length].split_at_mut(header.len());
        front.copy_from_slice(header);
        if pilots == 0 {
            put_labels(labels, slots);
        } else {
            put_labels_and_pilots(labels, slots);
        }
        0
    }

    pub fn compare(&self, format: u64, a: &[u8], b: &[u8]) -> Comparison {
        let Some(t) = self.tables(format) else {
            return comparison(1, 0, 0, 0);
        };
        if a.len() != SECTION || b.len() != SECTION {
            return comparison(2, 0, 0, 0);
        }
        let top = top_label(&t.format);
        if !all_at_most(a, top) || !all_at_most(b, top) {
            return comparison(3, 0, 0, 0);
        }
        let count: u32 = a.iter().zip(b).map(|(a, b)| (a ^ b).count_ones()).sum();
        if count == 0 {
            return comparison(0, 1, 0, 0);
        }
        let first = a.iter().zip(b).position(|(a, b)| a != b);
        comparison(0, 0, u64::from(count), first.unwrap_or(0) as u64)
    }

    pub fn push(&self, slicer: Slicer, frame: &[u8], waiting: &mut [u8]) -> SlicerAnswer {
        match self.tables(slicer.format) {
            Some(t) => self.slicer.push(t.format.K, slicer, frame, waiting),
            None => SlicerAnswer { number: 1, slicer },
        }
    }

    pub fn block(&self, slicer: Slicer, waiting: &mut [u8], out: &mut [u8]) -> BlockAnswer {
        match self.tables(slicer.format) {
            Some(t) => self.slicer.block(t.format.K, slicer, waiting, out),
            None => BlockAnswer {
                number: 1,
                wait: 0,
                slicer,
            },
        }
    }

    pub fn points(&self, format: u64, slots: &[u16], code: u64, place: u64, out: &mut [u64]) -> u8 {
        self.points.points(format, slots, code, place, out)
    }

    pub fn judge(&self, labels: &[u8], capture: &Capture) -> Judgement {
        self.search.judge(labels, capture)
    }
}

fn comparison(number: u64, same: u64, count: u64, first: u64) -> Comparison {
    Comparison {
        number,
        same,
        count,
        first,
    }
}

fn put_labels(labels: &[u8], slots: &mut [u16]) {
    for (slot, label) in slots.iter_mut().zip(labels) {
        *slot = u16::from(*label);
    }
}

/// Each sub-section's labels, and its pilots behind them.
fn put_labels_and_pilots(labels: &[u8], slots: &mut [u16]) {
    let subsections = slots.chunks_exact_mut(SUBSECTION_DATA + SUBSECTION_PILOTS);
    for (labels, slots) in labels.chunks_exact(SUBSECTION_DATA).zip(subsections) {
        let (data, pilots) = slots.split_at_mut(SUBSECTION_DATA);
        put_labels(labels, data);
        pilots.fill(PILOT);
    }
}

fn top_label(format: &Format) -> u8 {
    u8::MAX >> (8 - format.m)
}

/// Looks at every element, whatever the first ones are: this way the compiler
/// takes many at once.
pub fn all_at_most<T: Copy + Default + Ord>(list: &[T], top: T) -> bool {
    list.iter().fold(T::default(), |most, &x| most.max(x)) <= top
}

/// A trellis run.
pub fn run(state: u64, bits: &[u8], out: &mut [u8]) -> RunAnswer {
    let refused = |number| RunAnswer { number, state: 0 };
    if state > 3 || !all_at_most(bits, 1) {
        return refused(3);
    }
    if out.len() < 2 * bits.len() {
        return refused(5);
    }
    let (mut x0, mut x1) = (state as u8 / 2, state as u8 % 2);
    for (u, written) in bits.iter().zip(out.chunks_exact_mut(2)) {
        written[0] = *u;
        written[1] = u ^ x1;
        (x0, x1) = (x1, x0 ^ x1 ^ u);
    }
    RunAnswer {
        number: 0,
        state: u64::from(2 * x0 + x1),
    }
}

/// The outer encoder: systematic, parity, systematic for each pair of bits.
fn outer(block: &[u8], work: &mut [u8]) {
    let (mut x0, mut x1) = (0, 0);
    let end = block.len() / 2 * 3;
    for (bits, kept) in block.chunks_exact(2).zip(work.chunks_exact_mut(3)) {
        let (u, v) = (bits[0], bits[1]);
        let y = x0 ^ x1 ^ u;
        kept[0] = u;
        kept[1] = u ^ x1;
        kept[2] = v;
        (x0, x1) = (y, x1 ^ y ^ v);
    }
    let [s0, p0, s1, _] = terminate(x0, x1);
    work[end..].copy_from_slice(&[s0, p0, s1]);
}

/// The inner encoder: the kept systematic bits to upper, the kept parity bits
/// to lower.
fn inner(t: &Tables, work: &[u8], upper: &mut [u8], lower: &mut [u8]) {
    for (bit, position) in upper.iter_mut().zip(&t.upper) {
        *bit = work[*position as usize];
    }
    let (mut x0, mut x1) = (0, 0);
    let mut n = 0;
    for (position, kept) in t.pi.iter().zip(&t.lower) {
        let u = work[*position as usize];
        if *kept {
            lower[n] = u ^ x1;
            n += 1;
        }
        (x0, x1) = (x1, x0 ^ x1 ^ u);
    }
    let [s0, p0, s1, p1] = terminate(x0, x1);
    upper[t.upper.len()..].copy_from_slice(&[s0, s1]);
    lower[n..].copy_from_slice(&[p0, p1]);
}

/// The two terminating steps: systematic and parity of the first, then of the
/// second. Each step's bit makes the new x1 0.
fn terminate(x0: u8, x1: u8) -> [u8; 4] {
    [x0 ^ x1, x0, x1, x1]
}
