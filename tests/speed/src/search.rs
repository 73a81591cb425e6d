//! The plain judgement, a search in C, and what both sides of it read.

use interface::Judgement;
use oracle::digest::{noisy, seeded_frame};
use oracle::judge::{self, Sample};
use oracle::waveform::{constellation, Point};

extern "C" {
    fn plain_judge(
        points: *const [f64; 2],
        labels: *const u8,
        pairs: *const [f64; 2],
        length: usize,
    ) -> Judgement;
}

pub struct PlainSearch {
    points: Vec<[f64; 2]>,
}

impl PlainSearch {
    pub fn new() -> PlainSearch {
        PlainSearch {
            points: constellation().iter().map(coordinates).collect(),
        }
    }

    /// The judgement of the capture's pairs: no text is read and no check made.
    pub fn judge(&self, labels: &[u8], capture: &Capture) -> Judgement {
        let pairs = &capture.pairs;
        assert_eq!(labels.len(), pairs.len());
        // SAFETY: there are 256 points, and as many labels as pairs; an array of two
        // has them in order, as the struct in C.
        unsafe {
            plain_judge(
                self.points.as_ptr(),
                labels.as_ptr(),
                pairs.as_ptr(),
                pairs.len(),
            )
        }
    }
}

fn coordinates(point: &Point) -> [f64; 2] {
    [point.I, point.Q]
}

/// A capture as its text, which the library reads, and as its pairs.
pub struct Capture {
    pub text: Vec<u8>,
    pairs: Vec<[f64; 2]>,
}

impl Capture {
    /// The points of labels with noise; none is lost.
    pub fn of(labels: &[u8]) -> Capture {
        let noise = seeded_frame(5, 2 * labels.len());
        let points = labels
            .iter()
            .map(|&label| constellation()[usize::from(label)]);
        let points: Vec<Point> = (points.zip(noise.chunks(2)))
            .map(|(point, octets)| noisy(point, octets))
            .collect();
        let samples: Vec<Sample> = points.iter().map(|&point| Sample::Pair(point)).collect();
        Capture {
            text: judge::text(&samples),
            pairs: points.iter().map(coordinates).collect(),
        }
    }
}

#[cfg(test)]
mod tests {
    use super::*;
    use oracle::tables::SECTION;

    /// With the labels that were sent, and with others.
    #[test]
    fn the_judgement_is_the_oracles() {
        let labels = seeded_frame(1, SECTION);
        let capture = Capture::of(&labels);
        for given in [&labels, &seeded_frame(2, SECTION), &vec![0; SECTION]] {
            let due = judge::judge(33, given, &capture.text);
            let found = PlainSearch::new().judge(given, &capture);
            let counts = [found.agreeing, found.differing, found.lost];
            assert_eq!(
                (found.number, counts),
                (0, [due.agreeing, due.differing, 0])
            );
            assert_eq!(Some(found.first), due.first);
            assert_eq!(found.none, 0);
        }
    }

    #[test]
    fn nothing_differs_of_the_labels_that_are_read() {
        let capture = Capture::of(&seeded_frame(1, SECTION));
        let read = |&[i, q]: &[f64; 2]| judge::nearest(Point { I: i, Q: q });
        let labels: Vec<u8> = capture.pairs.iter().map(read).collect();
        let found = PlainSearch::new().judge(&labels, &capture);
        assert_eq!([found.agreeing, found.none, found.first], [8100, 1, 0]);
    }
}
