//! The calls that are timed, on both sides, and their arguments.

use crate::plain::{self, Plain};
use crate::search::Capture;
use interface::{
    BlockAnswer, Comparison, Judgement, RunAnswer, SegmentsAnswer, SharedAnswer, Slicer,
    SlicerAnswer, UNSCRAMBLED,
};
use oracle::digest::{seeded_block, seeded_frame};
use oracle::framing::{FRAME_LABELS, PILOT_FRAME_SLOTS, SECTIONS};
use oracle::segments::{equal_cuts, MOST_CUTS};
use oracle::shared::NONE_HELD;
use oracle::slicer::MEMORY;
use oracle::tables::{Format, SECTION};
use oracle::transfer::{marked_bits, MOST_OCTETS};
use oracle::waveform;

/// The calls of one side.
pub trait Side {
    fn run(&self, state: u64, bits: &[u8], out: &mut [u8]) -> RunAnswer;
    fn encode(&self, format: u64, block: &[u8], work: &mut [u8], out: &mut [u8]) -> u8;
    fn labels(&self, format: u64, codeword: &[u8], out: &mut [u8]) -> u8;
    fn frame(&self, format: u64, pilots: u64, labels: &[u8], out: &mut [u16]) -> u8;
    fn compare(&self, format: u64, a: &[u8], b: &[u8]) -> Comparison;
    fn push(&self, slicer: Slicer, frame: &[u8], waiting: &mut [u8]) -> SlicerAnswer;
    fn block(&self, slicer: Slicer, waiting: &mut [u8], out: &mut [u8]) -> BlockAnswer;
    fn points(&self, format: u64, slots: &[u16], code: u64, place: u64, out: &mut [u64]) -> u8;
    fn judge(&self, format: u64, labels: &[u8], capture: &Capture) -> Judgement;
}

pub struct Library;

impl Side for Library {
    fn run(&self, state: u64, bits: &[u8], out: &mut [u8]) -> RunAnswer {
        interface::run(state, bits, out)
    }

    fn encode(&self, format: u64, block: &[u8], work: &mut [u8], out: &mut [u8]) -> u8 {
        interface::encode(format, block, work, out)
    }

    fn labels(&self, format: u64, codeword: &[u8], out: &mut [u8]) -> u8 {
        interface::labels(format, codeword, out)
    }

    fn frame(&self, format: u64, pilots: u64, labels: &[u8], out: &mut [u16]) -> u8 {
        interface::frame(format, pilots, labels, out)
    }

    fn compare(&self, format: u64, a: &[u8], b: &[u8]) -> Comparison {
        interface::compare(format, a, b)
    }

    fn push(&self, slicer: Slicer, frame: &[u8], waiting: &mut [u8]) -> SlicerAnswer {
        interface::slicer_push(slicer, frame, waiting)
    }

    fn block(&self, slicer: Slicer, waiting: &mut [u8], out: &mut [u8]) -> BlockAnswer {
        interface::slicer_block(slicer, waiting, out)
    }

    fn points(&self, format: u64, slots: &[u16], code: u64, place: u64, out: &mut [u64]) -> u8 {
        interface::points(format, slots, code, place, out)
    }

    fn judge(&self, format: u64, labels: &[u8], capture: &Capture) -> Judgement {
        interface::judge(format, labels, &capture.text)
    }
}

impl Side for Plain {
    fn run(&self, state: u64, bits: &[u8], out: &mut [u8]) -> RunAnswer {
        plain::run(state, bits, out)
    }

    fn encode(&self, format: u64, block: &[u8], work: &mut [u8], out: &mut [u8]) -> u8 {
        self.encode(format, block, work, out)
    }

    fn labels(&self, format: u64, codeword: &[u8], out: &mut [u8]) -> u8 {
        self.labels(format, codeword, out)
    }

    fn frame(&self, format: u64, pilots: u64, labels: &[u8], out: &mut [u16]) -> u8 {
        self.frame(format, pilots, labels, out)
    }

    fn compare(&self, format: u64, a: &[u8], b: &[u8]) -> Comparison {
        self.compare(format, a, b)
    }

    fn push(&self, slicer: Slicer, frame: &[u8], waiting: &mut [u8]) -> SlicerAnswer {
        self.push(slicer, frame, waiting)
    }

    fn block(&self, slicer: Slicer, waiting: &mut [u8], out: &mut [u8]) -> BlockAnswer {
        self.block(slicer, waiting, out)
    }

    fn points(&self, format: u64, slots: &[u16], code: u64, place: u64, out: &mut [u64]) -> u8 {
        self.points(format, slots, code, place, out)
    }

    fn judge(&self, _: u64, labels: &[u8], capture: &Capture) -> Judgement {
        self.judge(labels, capture)
    }
}

/// Octets of the usual frame, and of the longest.
const USUAL: usize = 1115;
const LONGEST: usize = MOST_OCTETS;

/// The code number that points are turned by.
const CODE: u64 = 200_000;

#[derive(Clone, Copy, Debug, PartialEq, Eq)]
pub enum Call {
    /// Over a block, from 11.
    Run,
    Encode,
    Labels,
    Frame,
    /// The same with pilots.
    FramePilots,
    /// Of two equal lists.
    CompareSame,
    /// Of two lists that differ at the last place.
    CompareDiffer,
    /// Of a frame, where one bit more would make a block.
    PushUsual,
    PushLongest,
    /// Of what waits after such a push.
    BlockUsual,
    BlockLongest,
    /// Of a frame's labels without pilots, unscrambled.
    Points,
    /// The same with a code number.
    PointsTurned,
    /// Of a capture that has a pair for each label: the text on one side, the pairs
    /// alone on the other.
    Judge,
}

impl Call {
    pub const ALL: [Call; 14] = [
        Call::Run,
        Call::Encode,
        Call::Labels,
        Call::Frame,
        Call::FramePilots,
        Call::CompareSame,
        Call::CompareDiffer,
        Call::PushUsual,
        Call::PushLongest,
        Call::BlockUsual,
        Call::BlockLongest,
        Call::Points,
        Call::PointsTurned,
        Call::Judge,
    ];

    pub fn name(self) -> &'static str {
        match self {
            Call::Run => "run",
            Call::Encode => "encode",
            Call::Labels => "labels",
            Call::Frame => "frame",
            Call::FramePilots => "frame-pilots",
            Call::CompareSame => "compare-same",
            Call::CompareDiffer => "compare-differ",
            Call::PushUsual => "push-1115",
            Call::PushLongest => "push-65536",
            Call::BlockUsual => "block-1115",
            Call::BlockLongest => "block-65536",
            Call::Points => "points",
            Call::PointsTurned => "points-turned",
            Call::Judge => "judge",
        }
    }

    pub fn named(name: &str) -> Option<Call> {
        Call::ALL.into_iter().find(|call| call.name() == name)
    }

    /// Whether the format has it.
    pub fn is_of(self, format: &Format) -> bool {
        match self {
            Call::Points | Call::PointsTurned | Call::Judge => {
                waveform::FORMATS.contains(&format.number)
            }
            _ => true,
        }
    }

    /// The ratio of times that the library is to stay below, if one was set.
    pub fn aim(self) -> Option<f64> {
        match self {
            Call::Labels => Some(3.0),
            Call::Frame | Call::FramePilots => Some(2.0),
            Call::Run
            | Call::Encode
            | Call::CompareSame
            | Call::CompareDiffer
            | Call::PushUsual
            | Call::PushLongest
            | Call::BlockUsual
            | Call::BlockLongest
            | Call::Judge => Some(1.5),
            Call::Points | Call::PointsTurned => None,
        }
    }

    /// What its time is divided by, and how many of them a call takes.
    pub fn unit(self, format: &Format) -> (&'static str, usize) {
        match self {
            Call::Run | Call::Encode | Call::Labels | Call::BlockUsual | Call::BlockLongest => {
                ("information bit", format.K)
            }
            Call::PushUsual => ("stream bit", marked_bits(USUAL)),
            Call::PushLongest => ("stream bit", marked_bits(LONGEST)),
            Call::Frame | Call::FramePilots => ("label", FRAME_LABELS),
            Call::CompareSame | Call::CompareDiffer => ("label", SECTION),
            Call::Points | Call::PointsTurned => ("symbol", FRAME_LABELS),
            Call::Judge => ("sample", SECTION),
        }
    }
}

/// What the calls of a format read.
pub struct Arguments {
    pub format: Format,
    block: Vec<u8>,
    /// As many cuts as there may be, evenly spaced.
    outer_cuts: Vec<u16>,
    inner_cuts: Vec<u16>,
    codeword: Vec<u8>,
    labels: Vec<u8>,
    equal_labels: Vec<u8>,
    changed_labels: Vec<u8>,
    frame_labels: Vec<u8>,
    /// The frame's labels as its slots.
    slots: Vec<u16>,
    usual_frame: Vec<u8>,
    longest_frame: Vec<u8>,
    /// What was sent for the labels.
    capture: Capture,
}

impl Arguments {
    pub fn new(plain: &Plain, format: &Format) -> Arguments {
        let number = format.number;
        let block = seeded_block(1000 + number, format.K);
        let mut buffers = Buffers::new(format);
        plain.encode(number, &block, &mut buffers.work, &mut buffers.codeword);
        plain.labels(number, &buffers.codeword, &mut buffers.labels);
        let mut changed_labels = buffers.labels.clone();
        changed_labels[SECTION - 1] ^= 1;
        let frame_labels = buffers.labels.repeat(SECTIONS);
        Arguments {
            format: *format,
            block,
            outer_cuts: equal_cuts(format.K1, MOST_CUTS + 1),
            inner_cuts: equal_cuts(format.I, MOST_CUTS + 1),
            codeword: buffers.codeword,
            slots: frame_labels.iter().map(|&label| label.into()).collect(),
            frame_labels,
            capture: Capture::of(&buffers.labels),
            equal_labels: buffers.labels.clone(),
            labels: buffers.labels,
            changed_labels,
            usual_frame: seeded_frame(1, USUAL),
            longest_frame: seeded_frame(2, LONGEST),
        }
    }

    /// A slicer for which all bits but one of a block wait, and so many more.
    fn slicer(&self, more: usize) -> Slicer {
        Slicer {
            format: self.format.number,
            frame_length: 0,
            waiting: (self.format.K - 1 + more) as u64,
        }
    }
}

/// What the calls of a format write.
#[derive(PartialEq, Eq)]
pub struct Buffers {
    run: Vec<u8>,
    work: Vec<u8>,
    codeword: Vec<u8>,
    labels: Vec<u8>,
    frame: Vec<u16>,
    waiting: Vec<u8>,
    block: Vec<u8>,
    /// The bits of coordinates.
    points: Vec<u64>,
}

/// What buffers are filled with before a call. A label of eight bits may be
/// either, but not both.
const FILLINGS: [u8; 2] = [u8::MAX, 2];

impl Buffers {
    pub fn new(format: &Format) -> Buffers {
        Buffers::filled(format, FILLINGS[0])
    }

    /// Filled with a value, but what waits with bits.
    fn filled(format: &Format, value: u8) -> Buffers {
        Buffers {
            run: vec![value; 2 * format.K],
            work: vec![value; format.I],
            codeword: vec![value; format.N],
            labels: vec![value; SECTION],
            frame: vec![u16::MAX; PILOT_FRAME_SLOTS],
            waiting: seeded_block(3, MEMORY),
            block: vec![value; format.K],
            points: vec![u64::MAX; 2 * FRAME_LABELS],
        }
    }

    /// Filled twice alike, for two sides, with one value and then with another: a
    /// side that leaves out what the other writes differs from it once at least.
    fn pairs(format: &Format) -> [[Buffers; 2]; 2] {
        FILLINGS.map(|value| [(); 2].map(|()| Buffers::filled(format, value)))
    }
}

/// What a call answers.
#[derive(PartialEq, Eq)]
pub enum Answer {
    Run(RunAnswer),
    Number(u8),
    Comparison(Comparison),
    Slicer(SlicerAnswer),
    Block(BlockAnswer),
    Judgement(Judgement),
}

impl Answer {
    fn number(&self) -> u64 {
        match self {
            Answer::Run(answer) => answer.number,
            Answer::Number(number) => u64::from(*number),
            Answer::Comparison(answer) => answer.number,
            Answer::Slicer(answer) => answer.number,
            Answer::Block(answer) => answer.number,
            Answer::Judgement(answer) => answer.number,
        }
    }
}

/// One call of one side.
pub fn make(call: Call, side: &impl Side, a: &Arguments, b: &mut Buffers) -> Answer {
    let format = a.format.number;
    let compare = |other| Answer::Comparison(side.compare(format, &a.labels, other));
    let frame = |pilots, out| Answer::Number(side.frame(format, pilots, &a.frame_labels, out));
    let push = |frame, waiting| Answer::Slicer(side.push(a.slicer(0), frame, waiting));
    let block = |octets, waiting, out| {
        Answer::Block(side.block(a.slicer(marked_bits(octets)), waiting, out))
    };
    let points = |code, out| Answer::Number(side.points(format, &a.slots, code, 0, out));
    match call {
        Call::Run => Answer::Run(side.run(3, &a.block, &mut b.run)),
        Call::Encode => Answer::Number(side.encode(format, &a.block, &mut b.work, &mut b.codeword)),
        Call::Labels => Answer::Number(side.labels(format, &a.codeword, &mut b.labels)),
        Call::Frame => frame(0, &mut b.frame),
        Call::FramePilots => frame(1, &mut b.frame),
        Call::CompareSame => compare(&a.equal_labels),
        Call::CompareDiffer => compare(&a.changed_labels),
        Call::PushUsual => push(&a.usual_frame, &mut b.waiting),
        Call::PushLongest => push(&a.longest_frame, &mut b.waiting),
        Call::BlockUsual => block(USUAL, &mut b.waiting, &mut b.block),
        Call::BlockLongest => block(LONGEST, &mut b.waiting, &mut b.block),
        Call::Points => points(UNSCRAMBLED, &mut b.points),
        Call::PointsTurned => points(CODE, &mut b.points),
        Call::Judge => Answer::Judgement(side.judge(format, &a.labels, &a.capture)),
    }
}

/// The library's encoder by segments.
pub fn make_segments(a: &Arguments, b: &mut Buffers) -> SegmentsAnswer {
    interface::encode_segments(
        a.format.number,
        &a.block,
        &mut b.work,
        &mut b.codeword,
        &a.outer_cuts,
        &a.inner_cuts,
    )
}

/// Whether it passes and writes what encode does.
pub fn segments_agree(a: &Arguments) -> bool {
    Buffers::pairs(&a.format).into_iter().all(|mut buffers| {
        let number = make_segments(a, &mut buffers[0]).number;
        make(Call::Encode, &Library, a, &mut buffers[1]);
        number == 0 && buffers[0] == buffers[1]
    })
}

/// The library's encoder with shared memory and its mark.
pub fn make_shared(a: &Arguments, b: &mut Buffers, memory: &mut [u16], held: u64) -> SharedAnswer {
    interface::encode_shared(
        a.format.number,
        &a.block,
        &mut b.work,
        &mut b.codeword,
        memory,
        held,
    )
}

/// A memory that holds the format's size.
pub fn built(a: &Arguments) -> Vec<u16> {
    let mut memory = vec![u16::MAX; a.format.I];
    make_shared(a, &mut Buffers::new(&a.format), &mut memory, NONE_HELD);
    memory
}

/// Whether it passes and writes what encode does, where the memory has to be built
/// and then where it holds the size.
pub fn shared_agrees(a: &Arguments) -> bool {
    let mut memory = vec![u16::MAX; a.format.I];
    let size = a.format.I as u64;
    let marks = [NONE_HELD, size].into_iter();
    marks
        .zip(Buffers::pairs(&a.format))
        .all(|(held, mut buffers)| {
            let answer = make_shared(a, &mut buffers[0], &mut memory, held);
            make(Call::Encode, &Library, a, &mut buffers[1]);
            (answer.number, answer.held) == (0, size) && buffers[0] == buffers[1]
        })
}

/// Whether a call passes and has the same results on both sides.
pub fn agree(call: Call, plain: &Plain, a: &Arguments) -> bool {
    Buffers::pairs(&a.format).into_iter().all(|mut buffers| {
        let answers = [
            make(call, &Library, a, &mut buffers[0]),
            make(call, plain, a, &mut buffers[1]),
        ];
        answers[0] == answers[1] && answers[0].number() == 0 && buffers[0] == buffers[1]
    })
}
