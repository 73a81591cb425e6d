//! Tables 4-2 and 4-3 of the standard, and tables 3-1, 4-1 and 5-3 of its
//! extension (document 004), as printed, and the numbers read from them.

use std::sync::OnceLock;

/// Modulation symbols of one codeword section, for every format (4.1).
pub const SECTION: usize = 8100;

/// Degree of parallelism of the interleavers: I = M x W (annex C).
pub const M: usize = 120;

/// Table 4-2 in the text of Corrigendum 1: index, S_sur, rate, puncturing
/// position, and the same four again for the right half of the page.
const TABLE_4_2: &str = "\
1 299 0.6689 76 51 249 0.8032 72
2 298 0.6711 1 52 248 0.8065 15
3 297 0.6734 145 53 247 0.8097 297
4 296 0.6757 214 54 246 0.8130 211
5 295 0.6780 256 55 245 0.8163 138
6 294 0.6803 37 56 244 0.8197 102
7 293 0.6826 109 57 243 0.8230 174
8 292 0.6849 181 58 242 0.8264 39
9 291 0.6873 277 59 241 0.8299 250
10 290 0.6897 235 60 240 0.8333 57
11 289 0.6920 55 61 239 0.8368 120
12 288 0.6944 127 62 238 0.8403 156
13 287 0.6969 163 63 237 0.8439 84
14 286 0.6993 19 64 236 0.8475 229
15 285 0.7018 199 65 235 0.8511 193
16 284 0.7042 91 66 234 0.8547 283
17 283 0.7067 289 67 233 0.8584 262
18 282 0.7092 244 68 232 0.8621 25
19 281 0.7117 64 69 231 0.8658 238
20 280 0.7143 268 70 230 0.8696 60
21 279 0.7168 223 71 229 0.8734 201
22 278 0.7194 136 72 228 0.8772 294
23 277 0.7220 172 73 227 0.8811 132
24 276 0.7246 28 74 226 0.8850 96
25 275 0.7273 100 75 225 0.8889 159
26 274 0.7299 190 76 224 0.8929 34
27 273 0.7326 10 77 223 0.8969 265
28 272 0.7353 46 78 222 0.9009 114
29 271 0.7380 118 79 221 0.9050 177
30 270 0.7407 154 80 220 0.9091 225
31 269 0.7435 81 81 219 0.9132 79
32 268 0.7463 207 82 218 0.9174 12
33 267 0.7491 259 83 217 0.9217 151
34 266 0.7519 292 84 216 0.9259 51
35 265 0.7547 232 85 215 0.9302 274
36 264 0.7576 67 86 214 0.9346 204
37 263 0.7605 280 87 213 0.9390 105
38 262 0.7634 247 88 212 0.9434 4
39 261 0.7663 147 89 211 0.9479 241
40 260 0.7692 30 90 210 0.9524 169
41 259 0.7722 111 91 209 0.9569 69
42 258 0.7752 183 92 208 0.9615 124
43 257 0.7782 6 93 207 0.9662 22
44 256 0.7813 48 94 206 0.9709 216
45 255 0.7843 93 95 205 0.9756 285
46 254 0.7874 165 96 204 0.9804 141
47 253 0.7905 129 97 203 0.9852 252
48 252 0.7937 219 98 202 0.9901 187
49 251 0.7968 195 99 201 0.9950 206
50 250 0.8000 270 100 200 1.0000 36";

/// Table 4-3: ACM format, m, S_sur, K, I, S, P, N, Delta.
const TABLE_4_3: &str = "\
1 2 300 5758 8640 8642 7558 16200 1084
2 2 300 6958 10440 10442 5758 16200 4684
3 2 274 8398 12600 11510 4690 16200 7912
4 2 251 9838 14760 12351 3849 16200 10913
5 2 234 11278 16920 13200 3000 16200 13922
6 2 218 13198 19800 14390 1810 16200 17992
7 3 292 11278 16920 16470 7830 24300 9092
8 3 240 13198 19800 15842 8458 24300 11344
9 3 250 14878 22320 18602 5698 24300 16624
10 3 234 17038 25560 19939 4361 24300 21201
11 3 221 19198 28800 21218 3082 24300 25720
12 3 214 21358 32040 22857 1443 24300 30599
13 4 255 19198 28800 24482 7918 32400 20884
14 4 241 21358 32040 25741 6659 32400 25383
15 4 230 23518 35280 27051 5349 32400 29933
16 4 220 25918 38880 28515 3885 32400 34997
17 4 211 28318 42480 29880 2520 32400 39962
18 5 245 25918 38880 31755 8745 40500 30137
19 5 234 28318 42480 33137 7363 40500 35119
20 5 224 30958 46440 34677 5823 40500 40619
21 5 217 33358 50040 36197 4303 40500 45739
22 5 210 35998 54000 37802 2698 40500 51304
23 6 236 33358 50040 39366 9234 48600 40808
24 6 228 35998 54000 41042 7558 48600 46444
25 6 220 38638 57960 42507 6093 48600 51869
26 6 214 41038 61560 43915 4685 48600 56877
27 6 208 43678 65520 45429 3171 48600 62351";

/// Document 004, table 3-1: ACM format, K1, K2, K.
const TABLE_3_1: &str = "\
28 19,198 24,144 43,342
29 21,358 24,144 45,502
30 23,518 24,144 47,662
31 25,918 24,144 50,062
32 28,318 24,144 52,462
33 19,198 32,192 51,390
34 21,358 32,192 53,550
35 23,518 32,192 55,710
36 25,918 32,192 58,110
37 28,318 32,192 60,510";

/// Document 004, table 4-1: ACM format, S_sur, K1, I, S, P, N1, Delta.
const TABLE_4_1: &str = "\
28 255 19198 28800 24482 7918 32400 20884
29 241 21358 32040 25741 6659 32400 25383
30 230 23518 35280 27051 5349 32400 29933
31 220 25918 38880 28515 3885 32400 34997
32 211 28318 42480 29880 2520 32400 39962
33 255 19198 28800 24482 7918 32400 20884
34 241 21358 32040 25741 6659 32400 25383
35 230 23518 35280 27051 5349 32400 29933
36 220 25918 38880 28515 3885 32400 34997
37 211 28318 42480 29880 2520 32400 39962";

/// Document 004, table 5-3: ACM format, m, soft bits, K1, I, N1, hard bits, K2,
/// N2, K, N, efficiency in bits for each symbol. Its numbers have a space within
/// them, so two stand between columns.
const TABLE_5_3: &str = "\
28  7  4  19 198  28 800  32 400  3  24 144  24 300  43 342  56 700  5.35
29  7  4  21 358  32 040  32 400  3  24 144  24 300  45 502  56 700  5.62
30  7  4  23 518  35 280  32 400  3  24 144  24 300  47 662  56 700  5.88
31  7  4  25 918  38 880  32 400  3  24 144  24 300  50 062  56 700  6.18
32  7  4  28 318  42 480  32 400  3  24 144  24 300  52 462  56 700  6.48
33  8  4  19 198  28 800  32 400  4  32 192  32 400  51 390  64 800  6.34
34  8  4  21 358  32 040  32 400  4  32 192  32 400  53 550  64 800  6.61
35  8  4  23 518  35 280  32 400  4  32 192  32 400  55 710  64 800  6.88
36  8  4  25 918  38 880  32 400  4  32 192  32 400  58 110  64 800  7.17
37  8  4  28 318  42 480  32 400  4  32 192  32 400  60 510  64 800  7.47";

/// One entry of table 4-2.
#[derive(Clone, Copy, Debug, PartialEq, Eq)]
pub struct PuncturingEntry {
    pub index: usize,
    pub S_sur: usize,
    /// The printed rate in ten-thousandths.
    pub rate: usize,
    pub position: usize,
}

/// One ACM format: a row of table 4-3 or of document 004's tables, with the soft
/// share of document 02, L7.
#[derive(Clone, Copy, Debug, PartialEq, Eq)]
pub struct Format {
    pub number: u64,
    /// Bits of one label.
    pub m: usize,
    /// Bits of the upper register that survive in each 300.
    pub S_sur: usize,
    /// Bits of an information block.
    pub K: usize,
    /// Length of the interleaver.
    pub I: usize,
    /// Transmitted bits of the upper register, the two terminating ones included.
    pub S: usize,
    /// Transmitted bits of the lower register, the two terminating ones included.
    pub P: usize,
    /// Bits of a codeword.
    pub N: usize,
    /// Parity bits deleted by rate matching.
    pub Delta: usize,
    /// Bits of a block that go through the trellises, its first.
    pub K1: usize,
    /// Bits of a block that the BCH code takes.
    pub K2: usize,
    /// Bits of one label that come from the trellises.
    pub soft: usize,
}

impl Format {
    /// Annex C: W = I / 120.
    pub fn W(&self) -> usize {
        self.I / M
    }

    /// Document 004, 4.4: bits of a codeword's trellis part, which fills the first
    /// columns.
    pub fn N1(&self) -> usize {
        SECTION * self.soft
    }
}

/// A printed number by its digits alone: without the comma or the space of its
/// thousands, and without its decimal point.
fn number(field: &str) -> usize {
    let digits = field.replace([',', ' ', '.'], "");
    digits.parse().expect("a decimal number in a printed table")
}

/// The numbers of a printed table, row by row.
fn rows<const COLUMNS: usize>(text: &str, between: &str) -> Vec<[usize; COLUMNS]> {
    let row = |line: &str| -> Vec<usize> { line.split(between).map(number).collect() };
    text.lines()
        .map(|line| row(line).try_into().expect("a number in each column"))
        .collect()
}

fn entry(fields: &[&str]) -> PuncturingEntry {
    PuncturingEntry {
        index: number(fields[0]),
        S_sur: number(fields[1]),
        rate: number(fields[2]),
        position: number(fields[3]),
    }
}

/// Table 4-2 in the order of its index, 1 to 100.
pub fn table_4_2() -> &'static [PuncturingEntry] {
    static TABLE: OnceLock<Vec<PuncturingEntry>> = OnceLock::new();
    TABLE.get_or_init(|| {
        let lines: Vec<Vec<&str>> = TABLE_4_2
            .lines()
            .map(|line| line.split_whitespace().collect())
            .collect();
        let left = lines.iter().map(|fields| entry(&fields[..4]));
        let right = lines.iter().map(|fields| entry(&fields[4..]));
        left.chain(right).collect()
    })
}

/// Table 4-3: the ACM formats 1 to 27.
fn table_4_3() -> Vec<Format> {
    let format = |[number, m, S_sur, K, I, S, P, N, Delta]: [usize; 9]| Format {
        number: number as u64,
        m,
        S_sur,
        K,
        I,
        S,
        P,
        N,
        Delta,
        // Document 02, L7: in formats 1 to 27 they are K, 0 and m.
        K1: K,
        K2: 0,
        soft: m,
    };
    rows(TABLE_4_3, " ").into_iter().map(format).collect()
}

/// Document 004, table 3-1.
pub fn table_3_1() -> Vec<[usize; 4]> {
    rows(TABLE_3_1, " ")
}

/// Document 004, table 4-1.
pub fn table_4_1() -> Vec<[usize; 8]> {
    rows(TABLE_4_1, " ")
}

/// Document 004, table 5-3; the efficiency in hundredths.
pub fn table_5_3() -> Vec<[usize; 12]> {
    rows(TABLE_5_3, "  ")
}

/// Document 004: the ACM formats 28 to 37. K, K1 and K2 are table 3-1's, as
/// document 02, L8, has it; that the tables agree where they say the same is seen
/// by the self-check.
fn extension() -> Vec<Format> {
    let tables = table_3_1().into_iter().zip(table_4_1()).zip(table_5_3());
    tables
        .map(|((blocks, encoder), symbols)| {
            let [number, K1, K2, K] = blocks;
            let [_, S_sur, _, I, S, P, _, Delta] = encoder;
            let [_, m, soft, _, _, _, _, _, _, _, N, _] = symbols;
            Format {
                number: number as u64,
                m,
                S_sur,
                K,
                I,
                S,
                P,
                N,
                Delta,
                K1,
                K2,
                soft,
            }
        })
        .collect()
}

/// The 37 ACM formats in order.
pub fn formats() -> &'static [Format] {
    static TABLE: OnceLock<Vec<Format>> = OnceLock::new();
    TABLE.get_or_init(|| [table_4_3(), extension()].concat())
}

/// The ACM format with this number, if there is one.
pub fn format(number: u64) -> Option<Format> {
    formats().iter().copied().find(|f| f.number == number)
}

/// Document 01's listing of the formats.
pub fn listing() -> String {
    let mut text = String::from("format,m,K,I,W,N\n");
    for f in formats() {
        let line = format!("{},{},{},{},{},{}\n", f.number, f.m, f.K, f.I, f.W(), f.N);
        text.push_str(&line);
    }
    text
}

#[cfg(test)]
mod tests {
    use super::*;

    /// Document 01 prints the first 27 lines. The ten others are document 02's, L8:
    /// K and N of document 004, with the I and W that belong to K1.
    const LISTING: &str = "\
format,m,K,I,W,N
1,2,5758,8640,72,16200
2,2,6958,10440,87,16200
3,2,8398,12600,105,16200
4,2,9838,14760,123,16200
5,2,11278,16920,141,16200
6,2,13198,19800,165,16200
7,3,11278,16920,141,24300
8,3,13198,19800,165,24300
9,3,14878,22320,186,24300
10,3,17038,25560,213,24300
11,3,19198,28800,240,24300
12,3,21358,32040,267,24300
13,4,19198,28800,240,32400
14,4,21358,32040,267,32400
15,4,23518,35280,294,32400
16,4,25918,38880,324,32400
17,4,28318,42480,354,32400
18,5,25918,38880,324,40500
19,5,28318,42480,354,40500
20,5,30958,46440,387,40500
21,5,33358,50040,417,40500
22,5,35998,54000,450,40500
23,6,33358,50040,417,48600
24,6,35998,54000,450,48600
25,6,38638,57960,483,48600
26,6,41038,61560,513,48600
27,6,43678,65520,546,48600
28,7,43342,28800,240,56700
29,7,45502,32040,267,56700
30,7,47662,35280,294,56700
31,7,50062,38880,324,56700
32,7,52462,42480,354,56700
33,8,51390,28800,240,64800
34,8,53550,32040,267,64800
35,8,55710,35280,294,64800
36,8,58110,38880,324,64800
37,8,60510,42480,354,64800
";

    #[test]
    fn listing_is_the_documents() {
        assert_eq!(listing(), LISTING);
    }

    #[test]
    fn only_1_to_37_are_formats() {
        assert!(format(0).is_none());
        assert!((1..=37).all(|number| format(number).is_some()));
        assert!(format(38).is_none());
        assert!(format(257).is_none());
    }

    #[test]
    fn a_number_is_its_digits() {
        assert_eq!(number("43,342"), 43342);
        assert_eq!(number("43 342"), 43342);
        assert_eq!(number("5.35"), 535);
        assert_eq!(rows("1 2,3\n4 5", " "), [[1, 23], [4, 5]]);
        assert_eq!(rows("1 2  3\n4  5", "  "), [[12, 3], [4, 5]]);
    }
}
