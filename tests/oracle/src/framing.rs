//! Section 5, and 5.3.3 of document 004: frame marker, frame descriptor, pilots,
//! frame and codeword section.

use crate::tables::{Format, SECTION};

/// 5.1: bits of the frame marker.
pub const MARKER: usize = 256;

/// 5.2.1: bits of the frame descriptor.
pub const DESCRIPTOR: usize = 64;

/// Section 5: codeword sections of a frame.
pub const SECTIONS: usize = 16;

/// Labels of a frame.
pub const FRAME_LABELS: usize = SECTIONS * SECTION;

/// Slots of a frame without pilots.
pub const FRAME_SLOTS: usize = MARKER + DESCRIPTOR + FRAME_LABELS;

/// Table 5-2 as printed.
pub const TABLE_5_2: &str = "\
Codeword Section Length 8100 symbols
Number of Codeword Section per frame 16 Sections
Number of sub-sections 15 sub-sections
Number of Data Symbols per sub-section 540 Symbols
Number pilots per subsection 16 Symbols
Total Number of pilots per section 240 Symbols
Total Section length including pilot symbols 8340 Symbols";

/// Table 5-2: sub-sections of a codeword section, and the data symbols and the
/// pilots of each.
pub const SUBSECTIONS: usize = 15;
pub const SUBSECTION_DATA: usize = 540;
pub const SUBSECTION_PILOTS: usize = 16;

/// Pilots of a codeword section, and its slots with them.
pub const SECTION_PILOTS: usize = SUBSECTIONS * SUBSECTION_PILOTS;
pub const PILOT_SECTION: usize = SECTION + SECTION_PILOTS;

/// Slots of a frame with pilots.
pub const PILOT_FRAME_SLOTS: usize = MARKER + DESCRIPTOR + SECTIONS * PILOT_SECTION;

/// Document 01: a header bit is 256 for 0 and 257 for 1.
const HEADER_SLOT: u16 = 256;

/// Document 02, L9: a pilot is 258.
pub const PILOT: u16 = 258;

/// 5.1: the first 40 bits of the frame marker as printed.
pub const PRINTED_MARKER: &str = "1111101101000100000111110001110110111101";

/// Equation 5-1: the exponents of g1 and g2 below the eighth.
pub const G1: [usize; 4] = [6, 5, 4, 0];
pub const G2: [usize; 6] = [6, 5, 4, 3, 1, 0];

/// The register contents at the start, the first output bit first. Figure 5-2,
/// which shows them, is missing from the copy of the standard; of all pairs
/// only this one gives the 40 printed bits (see the self-check).
const START_1: [u8; 8] = [0, 1, 1, 0, 1, 0, 0, 1];
const START_2: [u8; 8] = [1, 0, 0, 1, 0, 0, 1, 0];

/// A digit string as bits.
pub fn digits(text: &str) -> Vec<u8> {
    text.bytes().map(|digit| digit - b'0').collect()
}

/// The output of an eight-bit shift register: what it holds at the start goes
/// out first, and the sum of the tapped cells is shifted in.
pub fn shift_register(taps: &[usize], start: [u8; 8], length: usize) -> Vec<u8> {
    let mut cells = start;
    let mut sequence = Vec::new();
    for _ in 0..length {
        let feedback = taps.iter().map(|&tap| cells[tap]).sum::<u8>() % 2;
        sequence.push(cells[0]);
        cells.rotate_left(1);
        cells[7] = feedback;
    }
    sequence
}

/// The sum of two bit sequences.
pub fn sum(a: &[u8], b: &[u8]) -> Vec<u8> {
    a.iter().zip(b).map(|(a, b)| (a + b) % 2).collect()
}

/// 5.1: the frame marker, the sum of the two registers' sequences.
pub fn marker() -> Vec<u8> {
    sum(
        &shift_register(&G1, START_1, MARKER),
        &shift_register(&G2, START_2, MARKER),
    )
}

/// Document 004, 5.3.3: the rows of the (32,7) code's generator matrix as printed,
/// but for the sixth: the copy has nine digits there, 0x000FFF0FF, and figure 5-4
/// the row.
pub const ROWS: [u32; 7] = [
    0x90AC_2DDD,
    0x5555_5555,
    0x3333_3333,
    0x0F0F_0F0F,
    0x00FF_00FF,
    0x0000_FFFF,
    0xFFFF_FFFF,
];

/// Document 004, 5.3.3: ACM format, then b0 to b5, as printed for 28 to 37.
pub const PRINTED_B: &str = "\
28 0 1 1 1 0 0
29 0 1 1 1 0 1
30 0 1 1 1 1 0
31 0 1 1 1 1 1
32 1 0 0 0 0 0
33 1 0 0 0 0 1
34 1 0 0 0 1 0
35 1 0 0 0 1 1
36 1 0 0 1 0 0
37 1 0 0 1 0 1";

/// Figure 5-4: the generator matrix of the (32,6) code, for formats 1 to 27.
pub const G: [&str; 6] = [
    "01010101010101010101010101010101",
    "00110011001100110011001100110011",
    "00001111000011110000111100001111",
    "00000000111111110000000011111111",
    "00000000000000001111111111111111",
    "11111111111111111111111111111111",
];

/// 5.2.1: the scrambling sequence as the copy of the standard prints it, one
/// digit short.
pub const PRINTED_SCRAMBLING: &str =
    "011100011001110110000011110010010101001101000010001011011111010";

/// 5.2.1: the scrambling sequence whole, that of DVB-S2 (reference B2).
pub const SCRAMBLING: u64 = 0x719D_83C9_5342_2DFA;

/// The 64 bits of a number, the most significant first.
pub fn bits_64(number: u64) -> Vec<u8> {
    digits(&format!("{number:064b}"))
}

/// A row of the matrix as bits.
pub fn row_bits(row: u32) -> Vec<u8> {
    digits(&format!("{row:032b}"))
}

/// The sum of the rows whose bit is 1.
fn coded(b: &[u8], rows: &[Vec<u8>]) -> Vec<u8> {
    assert_eq!(b.len(), rows.len());
    let mut y = vec![0; DESCRIPTOR / 2];
    for (bit, row) in b.iter().zip(rows) {
        if *bit == 1 {
            y = sum(&y, row);
        }
    }
    y
}

/// b7 is 0, so each coded bit is repeated as it is; then all are scrambled.
fn repeated_and_scrambled(y: &[u8]) -> Vec<u8> {
    let repeated: Vec<u8> = y.iter().flat_map(|&bit| [bit, bit]).collect();
    sum(&repeated, &bits_64(SCRAMBLING))
}

/// Document 004, table 5-4: b0 to b6, of which six are the format's number and
/// the last is 1 for pilots on and 0 for off.
pub fn information_bits(format: &Format, pilots: u8) -> Vec<u8> {
    digits(&format!("{:06b}{pilots}", format.number))
}

/// Document 004, 5.3.3: the frame descriptor of a format.
pub fn descriptor(format: &Format, pilots: u8) -> Vec<u8> {
    let b = information_bits(format, pilots);
    repeated_and_scrambled(&coded(&b, &ROWS.map(row_bits)))
}

/// 5.2.1: the frame descriptor of a format from 1 to 27, with a bit less for its
/// number and a row less.
pub fn descriptor_of_six_rows(format: &Format, pilots: u8) -> Vec<u8> {
    let b = digits(&format!("{:05b}{pilots}", format.number));
    repeated_and_scrambled(&coded(&b, &G.map(digits)))
}

/// Slots of a frame, pilots off (0) or on (1); there is no other choice.
pub fn frame_slots(pilots: u64) -> Option<usize> {
    match pilots {
        0 => Some(FRAME_SLOTS),
        1 => Some(PILOT_FRAME_SLOTS),
        _ => None,
    }
}

/// Figure 5-1: header bits, then sixteen codeword sections, in slots of 16 bits.
pub fn frame(format: &Format, pilots: u8, labels: &[u8]) -> Vec<u16> {
    let header = [marker(), descriptor(format, pilots)].concat();
    let header_slots = header.iter().map(|&bit| HEADER_SLOT + u16::from(bit));
    let sections = labels.chunks(SECTION);
    let section_slots = sections.flat_map(|section| section_slots(pilots, section));
    header_slots.chain(section_slots).collect()
}

/// 5.3: a codeword section's labels, pilots off, or its sub-sections. Figure 5-5,
/// which shows where a sub-section has its pilots, is missing from the copy of the
/// standard; document 02, L9, says that they follow the labels.
fn section_slots(pilots: u8, section: &[u8]) -> Vec<u16> {
    let data: Vec<u16> = section.iter().map(|&label| label.into()).collect();
    if pilots == 0 {
        return data;
    }
    (data.chunks(SUBSECTION_DATA))
        .flat_map(|data| [data, &[PILOT; SUBSECTION_PILOTS]].concat())
        .collect()
}

/// The codeword section at a place from 0 to 15 (document 01: a part).
pub fn section(labels: &[u8], place: usize) -> &[u8] {
    labels
        .chunks(SECTION)
        .nth(place)
        .expect("a place inside the frame")
}

#[cfg(test)]
mod tests {
    use super::*;
    use crate::digest::seeded_frame;
    use crate::tables;

    #[test]
    fn section_15_starts_at_121500() {
        let labels: Vec<u8> = (0..FRAME_LABELS).map(|i| (i % 251) as u8).collect();
        assert_eq!(section(&labels, 15), &labels[121_500..]);
        assert_eq!(section(&labels, 15).len(), SECTION);
    }

    #[test]
    fn frame_has_129920_slots() {
        let format = tables::format(27).unwrap();
        let slots = frame(&format, 0, &vec![63; FRAME_LABELS]);
        assert_eq!(slots.len(), 129_920);
        assert_eq!(slots[..6], [257, 257, 257, 257, 257, 256]);
        assert!(slots[..320].iter().all(|&slot| slot == 256 || slot == 257));
        assert!(slots[320..].iter().all(|&slot| slot == 63));
    }

    #[test]
    fn frame_with_pilots_has_133760_slots() {
        assert_eq!(SUBSECTIONS * SUBSECTION_DATA, 8100);
        assert_eq!([SECTION_PILOTS, PILOT_SECTION], [240, 8340]);
        assert_eq!([0, 1].map(frame_slots), [Some(129_920), Some(133_760)]);
        for choice in [2, 256, 1 << 32, u64::MAX] {
            assert_eq!(frame_slots(choice), None);
        }
        let format = tables::format(27).unwrap();
        let slots = frame(&format, 1, &vec![63; FRAME_LABELS]);
        assert_eq!(slots.len(), 133_760);
        assert_eq!(slots.iter().filter(|&&slot| slot == 258).count(), 3840);
    }

    /// A frame's labels, from a seed.
    fn some_labels(format: &Format) -> Vec<u8> {
        let bytes = seeded_frame(format.number, FRAME_LABELS);
        bytes.iter().map(|byte| byte >> (8 - format.m)).collect()
    }

    /// The places as a receiver has them, counted through the whole frame.
    #[test]
    fn sixteen_pilots_follow_every_540_labels() {
        let is_pilot = |s: usize| s >= 320 && (s - 320) % 556 >= 540;
        let place = |i: usize| 320 + i / 540 * 556 + i % 540;
        for format in tables::formats() {
            let number = format.number;
            let labels = some_labels(format);
            let [off, on] = [0, 1].map(|pilots| frame(format, pilots, &labels));
            assert!(
                (0..133_760).all(|s| (on[s] == 258) == is_pilot(s)),
                "{number}"
            );
            assert!(
                (0..129_600).all(|i| on[place(i)] == labels[i].into()),
                "{number}"
            );
            assert!(
                (0..129_600).all(|i| off[320 + i] == labels[i].into()),
                "{number}"
            );
            assert!(!off.contains(&258), "{number}");
        }
    }

    /// The descriptor's slots are 256 and 257, so two that differ add up to 513.
    #[test]
    fn without_its_pilots_it_is_the_frame_without_pilots_but_for_the_descriptor() {
        for format in tables::formats() {
            let labels = some_labels(format);
            let [off, mut on] = [0, 1].map(|pilots| frame(format, pilots, &labels));
            on.retain(|&slot| slot != 258);
            assert_eq!(on.len(), off.len());
            assert_eq!(on[..256], off[..256]);
            assert!(
                (256..320).all(|s| on[s] + off[s] == 513),
                "{}",
                format.number
            );
            assert_eq!(on[320..], off[320..]);
        }
    }

    #[test]
    fn formats_1_to_27_keep_the_descriptor_of_six_rows() {
        for format in &tables::formats()[..27] {
            for pilots in [0, 1] {
                let six = descriptor_of_six_rows(format, pilots);
                assert_eq!(descriptor(format, pilots), six, "{}", format.number);
            }
        }
    }

    /// Format 32 alone has b0 and nothing else: the first row twice, scrambled.
    #[test]
    fn format_32_is_the_first_row() {
        let format = tables::format(32).unwrap();
        let unscrambled = sum(&descriptor(&format, 0), &bits_64(SCRAMBLING));
        let row = digits("10010000101011000010110111011101");
        let twice: Vec<u8> = row.iter().flat_map(|&bit| [bit, bit]).collect();
        assert_eq!(unscrambled, twice);
    }

    #[test]
    fn a_label_slot_holds_up_to_255() {
        let format = tables::format(37).unwrap();
        let slots = frame(&format, 0, &vec![255; FRAME_LABELS]);
        assert!(slots[..320].iter().all(|&slot| slot == 256 || slot == 257));
        assert!(slots[320..].iter().all(|&slot| slot == 255));
    }
}
