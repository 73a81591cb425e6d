//! The oracle's commands. Without `--annex-c PATH` annex C is read from
//! data/annex-c.csv, as seen from the repository's root.

#![allow(non_snake_case)]

use oracle::annex_c::{self, AnnexC};
use oracle::digest::{
    captured_block, changed_blocks, digest, frame_blocks, pattern_block, stream_blocks,
    test_capture, test_lists, vector_blocks, waiting_at_change,
};
use oracle::encoder::{encode, labels};
use oracle::shared::Memory;
use oracle::slicer::{self, Slicer};
use oracle::tables::{self, Format};
use oracle::{
    annex_d, checks, framing, job_line, judge, puncturing_search, segments, self_check, three,
    trellis, waveform, wrong_rows,
};
use std::io::Write;
use std::path::PathBuf;
use std::process::ExitCode;

const DEFAULT_ANNEX_C: &str = "data/annex-c.csv";

const USAGE: &str = "usage: oracle [--annex-c PATH] COMMAND
  self-check           the oracle against outside numbers, one line each
  formats              the ACM formats, as document 01 lists them
  vectors              digests of six encoded blocks for each format
  frames               digests of one frame for each format, pilots off and on
  streams              the same of a stream of transfer frames, seven formats,
                       pilots off
  changes              the same after a frame of format 13
  looks                what a look says at that change
  runs                 where a run over a block is halfway, and its digest
  segments             a block by twelve encoders: its segments' states
  shared               five calls of two channels through one memory: what it
                       then holds, and digests
  lines                what three job lines ask for, and what comes of them
                       moved to either form
  points               the points of eight symbols in a row, by two code
                       numbers and unscrambled
  three                digests of the frame of the list that is the exclusive or
                       of three lists of transfer frames, seven formats, pilots
                       off and on
  judgements           what is found in a capture of a codeword, formats 33 to 37
  ones FORMAT PATTERN  ones in the codeword of pattern 0, 1 or 2
  annex-d              the spread of each interleaver
  wrong-rows           how often annex D's rule misses a wrong row of annex C
  puncturing-search    4.4.2's search, for each order of the kept outer bits";

/// The formats of the listings that do not have all: one for each modulation.
const OF_EACH_MODULATION: [u64; 7] = [1, 7, 13, 18, 27, 28, 37];

/// Section 6's n_enc for encoders of 250 MHz.
const ENCODERS: usize = 12;

/// Two channels' calls: formats 13 and 28 have one size, format 27 another.
const CHANNELS: [(char, u64); 5] = [('A', 13), ('B', 28), ('A', 13), ('B', 27), ('A', 13)];

/// An old job line, the longer one that says the same, and one that does not go
/// back.
const LINES: [&str; 3] = ["13,0", "13,0,0,-", "37,2,1,262142"];

/// Symbols in a row: format, code number and the first symbol's place. The second
/// row has the place where the turns' heavier bits begin anew, and the third the
/// last one.
const SYMBOLS: [(u64, Option<u64>, u64); 3] = [
    (33, Some(0), 0),
    (37, Some(262_142), 131_068),
    (35, None, 133_752),
];

/// Their labels.
const LABELS: [u64; 8] = [0, 37, 74, 111, 148, 185, 222, 255];

fn main() -> ExitCode {
    let arguments: Vec<String> = std::env::args().skip(1).collect();
    match command(&arguments) {
        Ok((text, exit)) => match std::io::stdout().write_all(text.as_bytes()) {
            Ok(()) => exit,
            Err(_) => ExitCode::FAILURE,
        },
        Err(message) => {
            eprintln!("{message}");
            ExitCode::from(2)
        }
    }
}

/// What a command prints, and its exit code.
fn command(arguments: &[String]) -> Result<(String, ExitCode), String> {
    let words: Vec<&str> = arguments.iter().map(String::as_str).collect();
    let (path, words) = match words.as_slice() {
        ["--annex-c", path, rest @ ..] => (*path, rest),
        all => (DEFAULT_ANNEX_C, all),
    };
    let annex_c = || annex_c::read(&PathBuf::from(path));
    let text = match words {
        ["self-check"] => {
            let report = self_check::self_check(&annex_c()?);
            return Ok((report.text, ExitCode::from(u8::from(report.failed))));
        }
        ["formats"] => tables::listing(),
        ["vectors"] => vectors(&annex_c()?),
        ["frames"] => frames(&annex_c()?, tables::formats(), &[0, 1], frame_blocks),
        ["streams"] => frames(&annex_c()?, &of_each_modulation(), &[0], stream_blocks),
        ["changes"] => frames(&annex_c()?, &of_each_modulation(), &[0], changed_blocks),
        ["looks"] => looks(),
        ["runs"] => runs(),
        ["segments"] => parallel(&annex_c()?),
        ["shared"] => shared(&annex_c()?),
        ["lines"] => lines(),
        ["points"] => points(),
        ["three"] => of_three(&annex_c()?),
        ["judgements"] => judgements(&annex_c()?),
        ["ones", format, pattern] => ones(&annex_c()?, format, pattern)?,
        ["annex-d"] => annex_d::listing(&annex_c()?),
        ["wrong-rows"] => wrong_rows::listing(&annex_c()?),
        ["puncturing-search"] => puncturing_search::listing(),
        _ => return Err(USAGE.into()),
    };
    Ok((text, ExitCode::SUCCESS))
}

/// One format for each modulation.
fn of_each_modulation() -> Vec<Format> {
    let format = |number| tables::format(number).expect("a format");
    OF_EACH_MODULATION.map(format).to_vec()
}

/// Digests of workspace, codeword and labels, six blocks for each format.
fn vectors(annex_c: &AnnexC) -> String {
    let mut text = String::from("format,block,work,codeword,labels\n");
    for f in tables::formats() {
        for (name, block) in vector_blocks(f) {
            let encoded = encode(f, annex_c.of_size(f.I), &block);
            text.push_str(&format!(
                "{},{name},{},{},{}\n",
                f.number,
                digest(&encoded.workspace),
                digest(&encoded.codeword),
                digest(&labels(f, &encoded.codeword)),
            ));
        }
    }
    text
}

/// Digests of marker, descriptor, labels and slots of one frame for each of some
/// formats, from its sixteen blocks, with each of some pilot choices.
fn frames(
    annex_c: &AnnexC,
    formats: &[Format],
    choices: &[u8],
    blocks: fn(&Format) -> Vec<Vec<u8>>,
) -> String {
    let mut text = String::from("format,pilots,marker,descriptor,labels,frame\n");
    for f in formats {
        let all_labels: Vec<u8> = (blocks(f).iter())
            .flat_map(|block| labels(f, &encode(f, annex_c.of_size(f.I), block).codeword))
            .collect();
        for &pilots in choices {
            text.push_str(&format!(
                "{},{pilots},{},{},{},{}\n",
                f.number,
                digest(&framing::marker()),
                digest(&framing::descriptor(f, pilots)),
                digest(&all_labels),
                digest(&framing::frame(f, pilots, &all_labels)),
            ));
        }
    }
    text
}

/// The blocks that the bits which wait at the change yield, and the bits that
/// stay.
fn looks() -> String {
    let mut text = String::from("format,blocks,bits\n");
    let slicer = Slicer {
        waiting: waiting_at_change(),
        ..Slicer::new(13)
    };
    for number in OF_EACH_MODULATION {
        let ahead = slicer::look(slicer, number);
        text.push_str(&format!("{number},{},{}\n", ahead.blocks, ahead.bits));
    }
    text
}

/// A run from 00 over the first block of a format's frame: half its bits, the
/// state after those, and the digest of the whole.
fn runs() -> String {
    let mut text = String::from("format,bits,state,run\n");
    for f in of_each_modulation() {
        let block = &frame_blocks(&f)[0];
        let half = f.K / 2;
        text.push_str(&format!(
            "{},{half},{},{}\n",
            f.number,
            trellis::state_number(trellis::states(trellis::ZERO, block)[half]),
            digest(&trellis::run(trellis::ZERO, block).written()),
        ));
    }
    text
}

/// The first block of a format's frame by encoders in parallel: where each
/// segment begins, and its states, of the outer trellis and of the inner.
fn parallel(annex_c: &AnnexC) -> String {
    let mut text = String::from(
        "format,segment,outer,outer_ended,outer_started,inner,inner_ended,inner_started\n",
    );
    for f in of_each_modulation() {
        let inputs = segments::inputs(&f, annex_c.of_size(f.I), &frame_blocks(&f)[0]);
        let columns = inputs.map(|u| {
            let cuts = segments::equal_cuts(u.len(), ENCODERS);
            (
                segments::bounds(u.len(), &cuts),
                segments::states(&u, &cuts),
            )
        });
        for j in 0..ENCODERS {
            text.push_str(&format!("{},{j}", f.number));
            for (bounds, states) in &columns {
                let [ended, started] =
                    [states.ended[j], states.started[j]].map(trellis::state_number);
                text.push_str(&format!(",{},{ended},{started}", bounds[j][0]));
            }
            text.push('\n');
        }
    }
    text
}

/// Two channels' calls, each with memory and mark as the last one left them: the
/// size then held, and digests of the codeword and of the entries held.
fn shared(annex_c: &AnnexC) -> String {
    let mut text = String::from("call,channel,format,held,codeword,entries\n");
    let mut memory = Memory::fresh();
    for (call, (channel, number)) in CHANNELS.into_iter().enumerate() {
        let f = tables::format(number).expect("a format");
        let given = memory.encode(annex_c, &f, &frame_blocks(&f)[call]);
        text.push_str(&format!(
            "{call},{channel},{number},{},{},{}\n",
            memory.held,
            digest(&given.codeword),
            digest(&memory.entries[..memory.held as usize]),
        ));
    }
    text
}

/// What job lines ask for, and what comes of them moved to either form.
fn lines() -> String {
    let mut text = String::from("line,format,pattern,pilots,code,lengthened,shortened\n");
    for line in LINES {
        let input = format!("{line}\n").into_bytes();
        let job = job_line::job(&input).job.expect("a job");
        let code = job.code.map_or("-".into(), |code| code.to_string());
        let [longer, old] = [job_line::lengthen, job_line::shorten].map(|into| {
            let moved = into(&input, usize::MAX);
            match moved.number {
                checks::PASSED => String::from_utf8_lossy(&moved.text).trim_end().into(),
                number => format!("refused,{number}"),
            }
        });
        text.push_str(&format!(
            "\"{line}\",{},{},{},{code},\"{longer}\",\"{old}\"\n",
            job.format, job.pattern, job.pilots,
        ));
    }
    text
}

/// The points of symbols in a row, in decimals and by their bits.
fn points() -> String {
    let mut text = String::from("format,code,place,label,i,q,i_bits,q_bits\n");
    for (format, code, first) in SYMBOLS {
        let name = code.map_or("-".into(), |code| code.to_string());
        for (place, label) in (first..).zip(LABELS) {
            let given = waveform::point(format, label, code, place);
            let point = given.point.expect("a point");
            let [I, Q] = point.bits();
            text.push_str(&format!(
                "{format},{name},{place},{label},{:.4},{:.4},{I:016X},{Q:016X}\n",
                point.I, point.Q,
            ));
        }
    }
    text
}

/// Digests of the frame of the list that is the exclusive or of three test lists,
/// with either pilot choice.
fn of_three(annex_c: &AnnexC) -> String {
    let mut text = String::from("format,pilots,frame\n");
    for f in of_each_modulation() {
        let list = three::exclusive_or_of_lists(&test_lists(&f));
        let labels = three::labels(annex_c, &f, &list);
        for pilots in [0, 1] {
            let frame = framing::frame(&f, pilots, &labels);
            text.push_str(&format!("{},{pilots},{}\n", f.number, digest(&frame)));
        }
    }
    text
}

/// The judgement of a capture of a codeword, for each format that has points.
fn judgements(annex_c: &AnnexC) -> String {
    let mut text = String::from("format,samples,agreeing,differing,lost,first\n");
    for number in waveform::FORMATS {
        let f = tables::format(number).expect("a format");
        let codeword = encode(&f, annex_c.of_size(f.I), &captured_block(&f)).codeword;
        let labels = labels(&f, &codeword);
        let samples = test_capture(&f, &labels);
        let found = judge::judge(number, &labels, &judge::text(&samples));
        let first = found.first.map_or("none".into(), |place| place.to_string());
        text.push_str(&format!(
            "{number},{},{},{},{},{first}\n",
            samples.len(),
            found.agreeing,
            found.differing,
            found.lost,
        ));
    }
    text
}

/// The number of ones in the codeword of a pattern's block.
fn ones(annex_c: &AnnexC, format: &str, pattern: &str) -> Result<String, String> {
    let number = format.parse().map_err(|_| "the format is not a number")?;
    let f = tables::format(number).ok_or("the format is not 1 to 37")?;
    let pattern = pattern.parse().map_err(|_| "the pattern is not a number")?;
    let block = pattern_block(pattern, f.K).ok_or("the pattern is not 0, 1 or 2")?;
    let codeword = encode(&f, annex_c.of_size(f.I), &block).codeword;
    let count = codeword.iter().filter(|&&bit| bit == 1).count();
    Ok(format!("{count}\n"))
}
