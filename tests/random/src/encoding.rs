//! The calls that encode: as a whole, and by segments.

use crate::calls::{compared, equal, met, Compared};
use crate::draw::{self, Plan};
use crate::generator::Generator;
use crate::lent::Lent;
use crate::tally::Met;
use crate::tally::Outcome::RefusedFor;
use interface::{SegmentStates, SegmentsAnswer};
use oracle::annex_c::AnnexC;
use oracle::checks::{
    self, CUT_COUNT, CUT_PLACE, ELEMENT, FORMAT, LENGTH, OUTPUT, PASSED, WORKSPACE,
};
use oracle::tables::Format;
use oracle::trellis::{self, State};
use oracle::{encoder, segments};

/// What is lent to a call that encodes, and the format for which it was drawn.
pub struct Encoding {
    pub f: Format,
    pub format: u64,
    pub block: Lent<u8>,
    pub work: Lent<u8>,
    pub out: Lent<u8>,
}

impl Encoding {
    /// For any format.
    pub fn new(generator: &mut Generator, plan: &Plan) -> Encoding {
        let f = draw::format(generator);
        Encoding::of(generator, plan, f)
    }

    /// For one format.
    pub fn of(generator: &mut Generator, plan: &Plan, f: Format) -> Encoding {
        let fails = plan.fails(generator, FORMAT);
        let format = draw::format_number(generator, &f, fails);
        let fails = plan.fails(generator, LENGTH);
        let length = draw::exact_length(generator, &f, |f| f.K, fails);
        let mut block = draw::list(generator, length, 1);
        if plan.fails(generator, ELEMENT) {
            draw::spoil(generator, &mut block, 1);
        }
        let fails = plan.fails(generator, WORKSPACE);
        let work_length = draw::room(generator, f.I, fails);
        let fails = plan.fails(generator, OUTPUT);
        let out_length = draw::room(generator, f.N, fails);
        Encoding {
            f,
            format,
            block: Lent::new(generator, &block),
            work: Lent::filled(generator, work_length),
            out: Lent::filled(generator, out_length),
        }
    }

    /// Block, workspace and output.
    pub fn lengths(&self) -> [usize; 3] {
        [&self.block, &self.work, &self.out].map(|lent| lent.list().len())
    }

    pub fn arguments(&self) -> String {
        let format = self.format;
        let [block, work, out] = self.lengths();
        format!("format {format}, block of {block}, workspace of {work}, output of {out}")
    }

    /// Whether the call has left what it is to leave, its number being this.
    fn holds(&self, annex_c: &AnnexC, number: u64) -> Result<(), String> {
        let (workspace, codeword) = if number == PASSED {
            let interleaver = annex_c.of_size(self.f.I);
            let encoded = encoder::encode(&self.f, interleaver, self.block.list());
            (encoded.workspace, encoded.codeword)
        } else {
            (vec![], vec![])
        };
        self.left(&workspace, &codeword)
    }

    /// Whether the call has left these at the fronts of workspace and output, and
    /// all else as it was.
    pub fn left(&self, workspace: &[u8], codeword: &[u8]) -> Result<(), String> {
        self.block.unchanged("the block")?;
        self.work.holds("the workspace", workspace)?;
        self.out.holds("the output", codeword)
    }
}

pub fn encode_call(generator: &mut Generator, annex_c: &AnnexC) -> Compared {
    let plan = Plan::new(generator, &[FORMAT, LENGTH, ELEMENT, WORKSPACE, OUTPUT]);
    let mut e = Encoding::new(generator, &plan);
    let [_, work_length, out_length] = e.lengths();

    let number = checks::encode(e.format, e.block.list(), work_length, out_length);
    let found = interface::encode(
        e.format,
        e.block.list(),
        e.work.list_mut(),
        e.out.list_mut(),
    );
    compared(
        e.arguments(),
        met(number, &e.f),
        [equal(u64::from(found), number), e.holds(annex_c, number)],
    )
}

pub fn segments_call(generator: &mut Generator, annex_c: &AnnexC) -> Compared {
    let plan = Plan::new(
        generator,
        &[
            FORMAT, LENGTH, ELEMENT, WORKSPACE, OUTPUT, CUT_COUNT, CUT_PLACE,
        ],
    );
    let mut e = Encoding::new(generator, &plan);
    let [_, work_length, out_length] = e.lengths();
    let fails = plan.fails(generator, CUT_COUNT);
    let many = draw::either(generator, fails);
    let fails = plan.fails(generator, CUT_PLACE);
    let misplaced = draw::either(generator, fails);
    let outer = draw::cuts(generator, e.f.K1, many[0], misplaced[0]);
    let inner = draw::cuts(generator, e.f.I, many[1], misplaced[1]);
    let lent = [outer, inner].map(|list| Lent::words(generator, &list));
    let cuts = [lent[0].list(), lent[1].list()];

    let number = checks::encode_segments(e.format, e.block.list(), work_length, out_length, cuts);
    let mut expected = SegmentsAnswer {
        number,
        outer: SegmentStates::default(),
        inner: SegmentStates::default(),
    };
    if number == PASSED {
        let [soft, read] = segments::inputs(&e.f, annex_c.of_size(e.f.I), e.block.list());
        expected.outer = segment_states(&soft, cuts[0]);
        expected.inner = segment_states(&read, cuts[1]);
    }
    let found = interface::encode_segments(
        e.format,
        e.block.list(),
        e.work.list_mut(),
        e.out.list_mut(),
        cuts[0],
        cuts[1],
    );
    compared(
        format!("{}, cuts {cuts:?}", e.arguments()),
        met_segments(number, &e.f, cuts),
        [
            equal(found, expected),
            e.holds(annex_c, number),
            lent[0].unchanged("the list of outer cuts"),
            lent[1].unchanged("the list of inner cuts"),
        ],
    )
}

/// The states of segments as the library gives them: 0 past the last.
fn segment_states(input: &[u8], cuts: &[u16]) -> SegmentStates {
    let states = segments::states(input, cuts);
    let numbers = |list: &[State]| {
        let number = |x: &State| trellis::state_number(*x) as u8;
        std::array::from_fn(|j| list.get(j).map_or(0, number))
    };
    SegmentStates {
        ended: numbers(&states.ended),
        started: numbers(&states.started),
    }
}

/// What is met, with the list of cuts that is refused.
fn met_segments(number: u64, f: &Format, [outer, inner]: [&[u16]; 2]) -> Met {
    let mut met = met(number, f);
    let good = match number {
        CUT_COUNT => [outer, inner].map(checks::few_cuts),
        CUT_PLACE => {
            [(outer, f.K1), (inner, f.I)].map(|(list, end)| checks::cuts_inside(list, end))
        }
        _ => return met,
    };
    met.outcome = RefusedFor(number, list_name(good));
    met
}

/// Which of the two lists of cuts is not good.
fn list_name(good: [bool; 2]) -> &'static str {
    match good {
        [false, true] => "outer",
        [true, false] => "inner",
        _ => "both",
    }
}
