//! The bench's job line in its two forms (document 01; document 02, L11), and the
//! moves from one form to the other.

use crate::checks::{self, PASSED};

/// Digits of a field at most, and of the code number.
const DIGITS: usize = 3;
const CODE_DIGITS: usize = 6;

/// What stands for the code number of an unscrambled job.
const UNSCRAMBLED: &str = "-";

/// Annex E: the scrambling codes are numbered 0 to 2^18 - 2.
pub const LAST_CODE: u64 = (1 << 18) - 2;

/// A line: the numbers that it is the text of.
#[derive(Clone, Copy, Debug, PartialEq, Eq)]
pub struct Line {
    pub format: u64,
    pub pattern: u64,
    /// What a line of the longer form has more.
    pub added: Option<Added>,
}

/// Pilots, and the code number; none if unscrambled.
#[derive(Clone, Copy, Debug, PartialEq, Eq)]
pub struct Added {
    pub pilots: u64,
    pub code: Option<u64>,
}

/// What an old line moves to the longer form with; only a line with it goes back.
pub const OF_OLD: Added = Added {
    pilots: 0,
    code: None,
};

/// What a line asks for.
#[derive(Clone, Copy, Debug, PartialEq, Eq)]
pub struct Job {
    pub format: u64,
    pub pattern: u64,
    pub pilots: u64,
    pub code: Option<u64>,
}

impl Line {
    /// The line that an input is, if it is one.
    pub fn read(input: &[u8]) -> Option<Line> {
        let line = std::str::from_utf8(input).ok()?.strip_suffix('\n')?;
        let fields: Vec<&str> = line.split(',').collect();
        let (format, pattern, added) = match fields[..] {
            [format, pattern] => (format, pattern, None),
            [format, pattern, pilots, code] => {
                let pilots = number(pilots, DIGITS)?;
                let code = code_number(code)?;
                (format, pattern, Some(Added { pilots, code }))
            }
            _ => return None,
        };
        Some(Line {
            format: number(format, DIGITS)?,
            pattern: number(pattern, DIGITS)?,
            added,
        })
    }

    /// The text of its numbers.
    pub fn text(&self) -> Vec<u8> {
        let mut fields = vec![self.format.to_string(), self.pattern.to_string()];
        if let Some(Added { pilots, code }) = self.added {
            let code = code.map_or(UNSCRAMBLED.into(), |code| code.to_string());
            fields.extend([pilots.to_string(), code]);
        }
        format!("{}\n", fields.join(",")).into_bytes()
    }

    /// The job. An old line asks for what the line that it moves to asks for.
    pub fn job(&self) -> Job {
        let Added { pilots, code } = self.added.unwrap_or(OF_OLD);
        Job {
            format: self.format,
            pattern: self.pattern,
            pilots,
            code,
        }
    }

    /// An old line in the longer form.
    pub fn lengthened(&self) -> Line {
        Line {
            added: Some(OF_OLD),
            ..*self
        }
    }

    /// A line that goes back, in the old form.
    pub fn shortened(&self) -> Line {
        Line {
            added: None,
            ..*self
        }
    }
}

/// 1 to so many decimal digits without a leading zero; 0 itself is allowed.
fn number(field: &str, most: usize) -> Option<u64> {
    let digits = field.bytes().all(|byte| byte.is_ascii_digit());
    let leading_zero = field.len() > 1 && field.starts_with('0');
    if digits && (1..=most).contains(&field.len()) && !leading_zero {
        field.parse().ok()
    } else {
        None
    }
}

/// A code number, or none if the field says that there is none.
fn code_number(field: &str) -> Option<Option<u64>> {
    match field {
        UNSCRAMBLED => Some(None),
        _ => number(field, CODE_DIGITS).map(Some),
    }
}

/// What reading a line gives; no job in a refusal.
#[derive(Debug, PartialEq, Eq)]
pub struct Read {
    pub number: u64,
    pub job: Option<Job>,
}

/// The job of a line of either form.
pub fn job(input: &[u8]) -> Read {
    let number = checks::job(input);
    let line = Line::read(input).filter(|_| number == PASSED);
    Read {
        number,
        job: line.map(|line| line.job()),
    }
}

/// What a move gives: the line that is written, nothing in a refusal.
#[derive(Debug, PartialEq, Eq)]
pub struct Moved {
    pub number: u64,
    pub text: Vec<u8>,
}

/// An old line moved to the longer form.
pub fn lengthen(input: &[u8], out_len: usize) -> Moved {
    moved(checks::lengthen(input, out_len), input, Line::lengthened)
}

/// A line of the longer form moved back.
pub fn shorten(input: &[u8], out_len: usize) -> Moved {
    moved(checks::shorten(input, out_len), input, Line::shortened)
}

fn moved(number: u64, input: &[u8], other: fn(&Line) -> Line) -> Moved {
    let line = Line::read(input).filter(|_| number == PASSED);
    Moved {
        number,
        text: line.map_or(vec![], |line| other(&line).text()),
    }
}

#[cfg(test)]
mod tests {
    use super::*;
    use crate::checks::{CODE, JOB_LINE, NO_WAY_BACK, OUTPUT};
    use crate::tables;

    fn old(format: u64, pattern: u64) -> Line {
        Line {
            format,
            pattern,
            added: None,
        }
    }

    fn longer(format: u64, pattern: u64, pilots: u64, code: Option<u64>) -> Line {
        Line {
            added: Some(Added { pilots, code }),
            ..old(format, pattern)
        }
    }

    #[test]
    fn the_last_code_is_document_02s() {
        assert_eq!(LAST_CODE, 262_142);
    }

    #[test]
    fn lines_of_both_forms_are_read() {
        for (text, line) in [
            ("13,0\n", old(13, 0)),
            ("0,0\n", old(0, 0)),
            ("999,999\n", old(999, 999)),
            ("13,0,0,-\n", longer(13, 0, 0, None)),
            ("13,0,1,0\n", longer(13, 0, 1, Some(0))),
            ("37,2,0,262142\n", longer(37, 2, 0, Some(262_142))),
            ("0,0,0,0\n", longer(0, 0, 0, Some(0))),
            ("999,999,999,999999\n", longer(999, 999, 999, Some(999_999))),
        ] {
            assert_eq!(Line::read(text.as_bytes()), Some(line), "{text:?}");
            assert_eq!(line.text(), text.as_bytes());
        }
    }

    #[test]
    fn every_text_of_numbers_is_their_line() {
        let codes = (0..6).flat_map(|n| [10u64.pow(n), 10u64.pow(n + 1) - 1]);
        let codes: Vec<Option<u64>> = [None, Some(0)].into_iter().chain(codes.map(Some)).collect();
        for a in 0..1000 {
            let b = a * 7 % 1000;
            let of_codes = codes.iter().map(|&code| longer(a, b, (a + b) % 1000, code));
            for line in [old(a, b)].into_iter().chain(of_codes) {
                assert_eq!(Line::read(&line.text()), Some(line));
            }
        }
    }

    #[test]
    fn no_other_text_is_a_line() {
        for text in [
            "",
            "\n",
            "13\n",
            "13,0",
            "13,0\n\n",
            "13,0\r\n",
            "13, 0\n",
            "13,\n",
            ",0\n",
            "+1,0\n",
            "13,-\n",
            "07,0\n",
            "13,00\n",
            "1000,0\n",
            "13,1000\n",
            "13,0,0\n",
            "\"13\",0\n",
            "13,0,0,-",
            "13,0,0,-\n\n",
            "13,0,0,-\r\n",
            "13,0,0,-\n13,0\n",
            "13,0,0,\n",
            "13,0,,-\n",
            "13,0,-\n",
            "13,0,-,-\n",
            "13,-,0,-\n",
            "-,0,0,-\n",
            "13,0,0,--\n",
            "13,0,0,-0\n",
            "13,0,0,0-\n",
            "13,0,0,-,\n",
            "13,0,0,-,0\n",
            "13,0,0, -\n",
            "13,0,00,-\n",
            "13,0,01,-\n",
            "13,0,0,00\n",
            "13,0,0,01\n",
            "013,0,0,-\n",
            "13,0,1000,-\n",
            "13,0,0,1000000\n",
            "13,0,0,000000\n",
            "999,999,999,9999999\n",
        ] {
            assert_eq!(Line::read(text.as_bytes()), None, "{text:?}");
        }
        assert_eq!(Line::read(b"13,\xff\n"), None);
        assert_eq!(Line::read(b"13,0,0,\xff\n"), None);
        assert_eq!(Line::read(b"\xd9\xa3,0\n"), None);
    }

    #[test]
    fn the_longest_lines_have_8_and_19_bytes() {
        assert_eq!(old(999, 999).text().len(), 8);
        assert_eq!(longer(999, 999, 999, Some(999_999)).text().len(), 19);
    }

    #[test]
    fn an_old_line_is_unscrambled_and_has_no_pilots() {
        let unscrambled = Job {
            format: 13,
            pattern: 2,
            pilots: 0,
            code: None,
        };
        for text in [&b"13,2\n"[..], b"13,2,0,-\n"] {
            let given = job(text);
            assert_eq!((given.number, given.job), (PASSED, Some(unscrambled)));
        }
        let scrambled = Job {
            pilots: 1,
            code: Some(LAST_CODE),
            ..unscrambled
        };
        assert_eq!(job(b"13,2,1,262142\n").job, Some(scrambled));
        let refused = Read {
            number: CODE,
            job: None,
        };
        assert_eq!(job(b"13,2,1,262143\n"), refused);
    }

    /// Byte for byte.
    #[test]
    fn there_and_back_is_the_old_line() {
        for f in tables::formats() {
            for pattern in 0..3 {
                let text = format!("{},{pattern}\n", f.number);
                let there = lengthen(text.as_bytes(), 19);
                assert_eq!(there.number, PASSED);
                let due = format!("{},{pattern},0,-\n", f.number);
                assert_eq!(there.text, due.as_bytes());
                let back = shorten(&there.text, 8);
                assert_eq!((back.number, back.text), (PASSED, text.into_bytes()));
            }
        }
    }

    #[test]
    fn a_refused_move_writes_nothing() {
        for (moved, number) in [
            (lengthen(b"13,0,0,-\n", 19), JOB_LINE),
            (lengthen(b"13,0\n", 8), OUTPUT),
            (shorten(b"13,0\n", 8), JOB_LINE),
            (shorten(b"13,0,1,-\n", 8), NO_WAY_BACK),
            (shorten(b"13,0,0,-\n", 4), OUTPUT),
        ] {
            let text = vec![];
            assert_eq!(moved, Moved { number, text });
        }
    }
}
