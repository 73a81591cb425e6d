//! What document 004 prints and says, against the oracle and against itself.

use super::{descriptors as words, smallest_distance, Report, OLD_FORMATS};
use crate::annex_c::AnnexC;
use crate::digest::seeded_block;
use crate::galois::{self, Element};
use crate::tables::{self, Format, SECTION};
use crate::{bch, encoder, framing};

/// One format's rows of tables 3-1, 4-1 and 5-3.
struct Rows {
    blocks: [usize; 4],
    encoder: [usize; 8],
    symbols: [usize; 12],
}

fn rows() -> Vec<Rows> {
    let others = tables::table_4_1().into_iter().zip(tables::table_5_3());
    (tables::table_3_1().into_iter().zip(others))
        .map(|(blocks, (encoder, symbols))| Rows {
            blocks,
            encoder,
            symbols,
        })
        .collect()
}

/// Tables 3-1, 4-1 and 5-3 against each other, against table 4-3 and against the
/// equations of 4.3, 4.4 and 5.1.
pub fn tables(report: &mut Report) {
    let rows = rows();
    let all = |holds: fn(&Rows) -> bool| rows.iter().all(holds);
    report.check(
        "document 004: table 3-1 has the formats 28 to 37",
        (rows.iter().map(|row| row.blocks[0])).eq(28..=37),
    );
    report.check(
        "document 004: tables 3-1, 4-1 and 5-3 agree in the format, K1, K2, K, I and N1",
        all(agree),
    );
    report.check(
        "document 004, table 5-3: m = soft + hard, N1 = 8100 soft, N2 = 8100 hard, K2 = 8048 hard, N = N1 + N2",
        all(adds_up),
    );
    report.check(
        "document 004, table 5-3: each printed efficiency is K / 8100 to two decimals",
        all(efficient),
    );
    let old = |number| tables::format(number).expect("a format of table 4-3");
    report.check(
        "document 004, table 4-1: the formats 28 to 32, and 33 to 37, have the numbers of table 4-3's 13 to 17",
        (rows.iter().zip((13..=17).cycle().map(old)))
            .all(|(row, f)| row.encoder[1..] == [f.S_sur, f.K, f.I, f.S, f.P, f.N, f.Delta]),
    );
}

/// Where two of the tables have a column in common.
fn agree(row: &Rows) -> bool {
    let [format, K1, K2, K] = row.blocks;
    let [encoder_format, _, encoder_K1, I, _, _, N1, _] = row.encoder;
    row.symbols[0] == format
        && encoder_format == format
        && encoder_K1 == K1
        && row.symbols[3..6] == [K1, I, N1]
        && row.symbols[7] == K2
        && row.symbols[9] == K
}

fn adds_up(row: &Rows) -> bool {
    let [_, m, soft, _, _, N1, hard, K2, N2, _, N, _] = row.symbols;
    m == soft + hard
        && N1 == SECTION * soft
        && N2 == SECTION * hard
        && K2 == bch::PIECE * hard
        && N == N1 + N2
}

/// A half added to K / 8100 in hundredths, then the whole part.
fn efficient(row: &Rows) -> bool {
    let [.., K, _, efficiency] = row.symbols;
    efficiency == (2 * 100 * K + SECTION) / (2 * SECTION)
}

/// 4.3.1: the printed generator polynomial against its other form in print, and
/// against the field that it comes from.
pub fn generator(report: &mut Report) {
    let binary = framing::digits(&bch::PRINTED_BINARY.replace(' ', ""));
    report.check(
        "document 004, 4.3.1: the generator's binary digits are those of the hexadecimal number, 53 in all",
        binary == bch::printed_digits() && binary.len() == bch::CHECK_BITS + 1,
    );
    let g = bch::generator();
    report.check(
        "document 004, 4.3.1: g divides x^n + 1 for n = 8191 and for no smaller n",
        galois::order(&g) == bch::FULL,
    );
    let minimal = [1, 3, 5, 7].map(galois::minimal_polynomial);
    report.check(
        "document 004, 4.3.1: alpha, alpha^3, alpha^5 and alpha^7, alpha a root of x^13 + x^4 + x^3 + x + 1, have minimal polynomials of zeros and ones",
        minimal.iter().flatten().all(|&coefficient| coefficient <= 1),
    );
    let product = (minimal.iter()).fold(vec![1], |all, one| galois::polynomial_product(&all, one));
    let elements = |bits: &[u8]| -> Vec<Element> { bits.iter().map(|&bit| bit.into()).collect() };
    report.check(
        "document 004, 4.3.1: g, its first digit the coefficient of x^0, is the product of these four",
        elements(&g) == product,
    );
    report.check(
        "document 004, 4.3.1: with its digits the other way round it is not",
        elements(&bch::printed_digits()) != product,
    );
}

/// 4.3: the codewords of seeded pieces, and where the 91 zeros stand.
pub fn bch_codewords(report: &mut Report) {
    let pieces: Vec<Vec<u8>> = (1..=5).map(|seed| seeded_block(seed, bch::PIECE)).collect();
    let codewords: Vec<Vec<u8>> = pieces.iter().map(|piece| bch::codeword(piece)).collect();
    report.check(
        "document 004, 4.3: the codewords of five seeded pieces have 8100 bits, and g divides them",
        (codewords.iter()).all(|c| c.len() == SECTION && divided(c)),
    );
    // A code whose words have eight roots in a row has a distance of nine at least.
    let roots: Vec<Element> = (1..=8).map(galois::power).collect();
    report.check(
        "document 004, 4.3: alpha, alpha^2, .., alpha^8 are roots of them, so that 4 errors can be corrected",
        (codewords.iter()).all(|c| roots.iter().all(|&root| galois::value(c, root) == 0)),
    );
    let check_bits = |piece: &[u8]| bch::check_bits(&bch::filled(piece));
    let unfilled = |piece: &[u8]| {
        let moved = [piece, &[0; bch::CHECK_BITS]].concat();
        bch::remainder(&moved, &bch::generator())
    };
    report.check(
        "document 02, L8: 91 zeros before a piece change none of its check bits",
        (pieces.iter()).all(|piece| check_bits(piece) == unfilled(piece)),
    );
    let behind = |piece: &[u8]| bch::check_bits(&[piece, &[0; bch::ZEROS]].concat());
    report.check(
        "document 02, L8: zeros behind a piece, as in document 004's figure 4-3, would give other check bits",
        (pieces.iter()).all(|piece| check_bits(piece) != behind(piece)),
    );
}

/// Whether the generator polynomial divides a codeword.
fn divided(codeword: &[u8]) -> bool {
    let rest = bch::remainder(codeword, &bch::generator());
    rest.iter().all(|&bit| bit == 0)
}

/// 4.1.1, and document 02, L8: what a seeded block's codeword has from the
/// trellises, and what from the BCH code.
pub fn codewords(report: &mut Report, annex_c: &AnnexC) {
    let encode =
        |f: &Format, block: &[u8]| encoder::encode(f, annex_c.of_size(f.I), block).codeword;
    let seeded = |f: &Format| seeded_block(1000 + f.number, f.K);
    let what =
        "document 02, L8: a codeword begins with that of the format of 13 to 17 whose K is K1";
    report.each_new_format(what, |f| {
        let mut olds = (13..=17).filter_map(tables::format);
        let old = olds.find(|old| old.K == f.K1).expect("table 4-1 is there");
        let block = seeded(f);
        encode(f, &block).starts_with(&encode(&old, &block[..f.K1]))
    });
    let what = "document 02, L8: behind it stand the pieces, each with check bits after it that make g divide both";
    report.each_new_format(what, |f| {
        let block = seeded(f);
        let bch_part = encode(f, &block).split_off(f.N1());
        let coded = bch_part.chunks(SECTION);
        let pieces = block[f.K1..].chunks(bch::PIECE);
        [coded.len(), pieces.len()] == [f.m - f.soft; 2]
            && (coded.zip(pieces)).all(|(c, piece)| c.starts_with(piece) && divided(c))
    });
}

/// 5.3.3: against 5.2.1 of the standard, and against what it prints and says.
pub fn descriptors(report: &mut Report) {
    let rows = framing::ROWS.map(framing::row_bits);
    report.check(
        "document 004, 5.3.3: all rows of the matrix but the first are figure 5-4's",
        rows[1..] == framing::G.map(framing::digits),
    );
    let six = |f: &Format, pilots| {
        framing::descriptor(f, pilots) == framing::descriptor_of_six_rows(f, pilots)
    };
    report.formats(
        "document 004, 5.3.3: the frame descriptor is still that of 5.2.1, pilots off and on",
        &tables::formats()[..OLD_FORMATS],
        |f| six(f, 0) && six(f, 1),
    );
    let what = "document 004, 5.3.3: b0 to b5 are the printed ones";
    report.each_new_format(what, |f| {
        let b = framing::information_bits(f, 0);
        let b: Vec<String> = b[..6].iter().map(u8::to_string).collect();
        let line = format!("{} {}", f.number, b.join(" "));
        framing::PRINTED_B.lines().any(|printed| printed == line)
    });
    // 5.3.3 says 32. No code of 2^7 words whose bits are all sent twice has that.
    report.check(
        "document 004, 5.3.3: two frame descriptors of the 37 formats differ in 24 bits at least, and some in just 24",
        smallest_distance(&words(tables::formats())) == 24,
    );
}

#[cfg(test)]
mod tests {
    use super::*;

    #[test]
    fn what_the_paper_prints() {
        let mut report = Report::default();
        tables(&mut report);
        generator(&mut report);
        bch_codewords(&mut report);
        descriptors(&mut report);
        assert!(!report.failed, "{}", report.text);
    }
}
