//! Times the library's calls beside a plain encoder's, its judgement beside a plain
//! search in C, its encoders by segments and with shared memory beside its own
//! encode, its encode with BCH pieces beside that without, and its call for a point
//! alone.
//!
//! `speed` prints six tables, `speed calls`, `speed segments`, `speed shared`,
//! `speed bch`, `speed formats` and `speed point` one of them.
//! `speed --callgrind-call CALL FORMAT N` makes N calls of one kind, for a tool
//! that counts instructions, and prints how many information bits they took.

mod bch;
mod calls;
mod measure;
mod plain;
mod points;
mod search;
mod slicer;
mod symbols;

use calls::{Arguments, Buffers, Call, Library, Side};
use measure::side_by_side;
use oracle::annex_c::{self, AnnexC};
use oracle::shared::NONE_HELD;
use oracle::tables::{self, Format};
use plain::Plain;
use std::hint::black_box;
use std::process::ExitCode;
use std::time::Duration;
use symbols::Symbol;

const ANNEX_C: &str = include_str!("../../../data/annex-c.csv");

const USAGE: &str = "usage: speed [calls | segments | shared | bch | formats | point |
              --callgrind-call CALL FORMAT N]
  CALL is library- or plain-, and then run, encode, labels, frame, frame-pilots, compare-same,
  compare-differ, push-1115, push-65536, block-1115, block-65536, or with formats 33 to 37 points,
  points-turned or judge; or it is library-shared-held or library-shared-new";

/// The formats of the first table: the shortest block, one between, the longest
/// that goes through the trellises alone, and the longest with BCH pieces.
const FORMATS: [u64; 4] = [1, 13, 27, 37];

/// A format with BCH pieces, and the one whose K is its K1: they have the trellis
/// part in common.
const WITH_BCH: u64 = 37;
const WITHOUT_BCH: u64 = 17;

/// A format with points; all that have them have the same.
const WITH_POINTS: u64 = 37;

/// How long one pair of calls is timed, and in the table of all formats.
const BUDGET: Duration = Duration::from_millis(1000);
const BUDGET_EACH: Duration = Duration::from_millis(400);

/// The ratio of times, by segments and plain, that the library is to stay below.
const SEGMENTS_AIM: f64 = 2.5;

/// The parts of encode's time that the library is to stay below with shared memory:
/// a call that finds its size held, and the building of it.
const HELD_AIM: f64 = 1.0;
const BUILDING_AIM: f64 = 0.5;

/// The nanoseconds for each bit of K2 that the library is to stay below.
const BCH_AIM: f64 = 1.0;

fn main() -> ExitCode {
    let arguments: Vec<String> = std::env::args().skip(1).collect();
    match command(&arguments) {
        Ok(()) => ExitCode::SUCCESS,
        Err(message) => {
            eprintln!("{message}");
            ExitCode::FAILURE
        }
    }
}

fn command(arguments: &[String]) -> Result<(), String> {
    let annex_c = annex_c::parse(ANNEX_C)?;
    let plain = || Plain::new(&annex_c, tables::formats());
    let words: Vec<&str> = arguments.iter().map(String::as_str).collect();
    match words.as_slice() {
        [] => calls_table(&plain())
            .and_then(|()| segments_table(&plain()))
            .and_then(|()| shared_table(&plain()))
            .and_then(|()| bch_table(&plain()))
            .and_then(|()| formats_table(&plain()))
            .and_then(|()| point_table()),
        ["calls"] => calls_table(&plain()),
        ["segments"] => segments_table(&plain()),
        ["shared"] => shared_table(&plain()),
        ["bch"] => bch_table(&plain()),
        ["formats"] => formats_table(&plain()),
        ["point"] => point_table(),
        ["--callgrind-call", call, format, n] => repeat(&annex_c, call, format, n),
        _ => Err(USAGE.into()),
    }
}

/// The shortest time of a call in nanoseconds, the library's and the plain
/// encoder's, once their results are seen to agree.
fn times(call: Call, f: &Format, plain: &Plain, budget: Duration) -> Result<[f64; 2], String> {
    let a = Arguments::new(plain, f);
    if !calls::agree(call, plain, &a) {
        return Err(format!("{} of format {} differs", call.name(), f.number));
    }
    let mut ours = Buffers::new(f);
    let mut theirs = Buffers::new(f);
    Ok(side_by_side(
        budget,
        || {
            black_box(calls::make(call, &Library, black_box(&a), &mut ours));
        },
        || {
            black_box(calls::make(call, plain, black_box(&a), &mut theirs));
        },
    ))
}

/// Each call at those of four formats that have it.
fn calls_table(plain: &Plain) -> Result<(), String> {
    println!("call            format   library     plain  ratio  aim  in ns per");
    for call in Call::ALL {
        let formats = FORMATS.iter().filter_map(|&number| tables::format(number));
        for f in formats.filter(|f| call.is_of(f)) {
            let (unit, units) = call.unit(&f);
            let aim = call.aim().map_or("-".into(), |aim| aim.to_string());
            let times = times(call, &f, plain, BUDGET)?;
            let [library, plain] = times.map(|time| time / units as f64);
            println!(
                "{:15} {:6} {library:9.3} {plain:9.3} {:6.2} {aim:>4}  {unit}",
                call.name(),
                f.number,
                library / plain,
            );
        }
    }
    Ok(())
}

/// An encode call to be timed.
fn encode(side: &impl Side, a: &Arguments, b: &mut Buffers) {
    black_box(calls::make(Call::Encode, side, black_box(a), b));
}

/// The same with shared memory.
fn encode_shared(a: &Arguments, b: &mut Buffers, memory: &mut [u16], held: u64) {
    black_box(calls::make_shared(black_box(a), b, memory, held));
}

/// The shortest time of encoding a block in nanoseconds, by segments and as
/// encode does, once their results are seen to agree.
fn segments_times(f: &Format, plain: &Plain) -> Result<[f64; 2], String> {
    let a = Arguments::new(plain, f);
    if !calls::segments_agree(&a) {
        return Err(format!("encode-segments of format {} differs", f.number));
    }
    let mut cut = Buffers::new(f);
    let mut whole = Buffers::new(f);
    Ok(side_by_side(
        BUDGET,
        || {
            black_box(calls::make_segments(black_box(&a), &mut cut));
        },
        || encode(&Library, &a, &mut whole),
    ))
}

/// Encoding by sixteen segments of each trellis beside the library's own
/// encode, at four formats.
fn segments_table(plain: &Plain) -> Result<(), String> {
    println!("\ncall            format  segments    encode  ratio  aim  in ns per");
    for f in FORMATS.iter().filter_map(|&number| tables::format(number)) {
        let (unit, units) = Call::Encode.unit(&f);
        let times = segments_times(&f, plain)?;
        let [segments, encode] = times.map(|time| time / units as f64);
        println!(
            "encode-segments {:6} {segments:9.3} {encode:9.3} {:6.2} {SEGMENTS_AIM:4}  {unit}",
            f.number,
            segments / encode,
        );
    }
    Ok(())
}

/// The shortest times of encoding a block in nanoseconds, once the results are
/// seen to agree: with memory that holds the size beside encode, and with memory
/// that has to be built beside that again.
fn shared_times(f: &Format, plain: &Plain) -> Result<[[f64; 2]; 2], String> {
    let a = Arguments::new(plain, f);
    if !calls::shared_agrees(&a) {
        return Err(format!("encode-shared of format {} differs", f.number));
    }
    let [mut first, mut second] = [(); 2].map(|()| Buffers::new(f));
    let [mut held, mut new] = [(); 2].map(|()| calls::built(&a));
    let size = f.I as u64;
    let beside_encode = side_by_side(
        BUDGET,
        || encode_shared(&a, &mut first, &mut held, size),
        || encode(&Library, &a, &mut second),
    );
    let beside_held = side_by_side(
        BUDGET,
        || encode_shared(&a, &mut first, &mut new, NONE_HELD),
        || encode_shared(&a, &mut second, &mut held, size),
    );
    Ok([beside_encode, beside_held])
}

/// Encoding with shared memory beside the library's own encode, at four formats:
/// where the memory holds the size, and what building it adds. A call that builds
/// does not look at the entries, so this is what building takes less that look.
fn shared_table(plain: &Plain) -> Result<(), String> {
    println!("\ncall            format    shared    encode  ratio  aim  in ns per");
    for f in FORMATS.iter().filter_map(|&number| tables::format(number)) {
        let (unit, units) = Call::Encode.unit(&f);
        let times = shared_times(&f, plain)?;
        let [[held, encode], [new, again]] = times.map(|pair| pair.map(|time| time / units as f64));
        for (name, shared, aim) in [
            ("shared-held", held, HELD_AIM),
            ("shared-building", new - again, BUILDING_AIM),
        ] {
            println!(
                "{name:15} {:6} {shared:9.3} {encode:9.3} {:6.2} {aim:4}  {unit}",
                f.number,
                shared / encode,
            );
        }
    }
    Ok(())
}

/// What the BCH pieces cost: encode at a format that has them beside encode at one
/// that does the same without, and the difference for each bit of K2.
fn bch_table(plain: &Plain) -> Result<(), String> {
    println!("\nBCH      format {WITH_BCH} format {WITHOUT_BCH}   per bit of K2  in ns; the aim is {BCH_AIM}");
    let formats = [WITH_BCH, WITHOUT_BCH].map(|number| tables::format(number).expect("a format"));
    let arguments = formats.map(|f| Arguments::new(plain, &f));
    let agree = |a: &Arguments| calls::agree(Call::Encode, plain, a);
    if !arguments.iter().all(agree) {
        return Err("encode with or without BCH pieces differs".into());
    }
    let sides = [
        ("library", encode_times(&Library, &arguments)),
        ("plain", encode_times(plain, &arguments)),
    ];
    for (name, [with, without]) in sides {
        let share = (with - without) / formats[0].K2 as f64;
        println!("{name:7} {with:10.0} {without:9.0} {share:15.3}");
    }
    Ok(())
}

/// The shortest time of one side's encode in nanoseconds, of two formats in turns.
fn encode_times(side: &impl Side, arguments: &[Arguments; 2]) -> [f64; 2] {
    let [first, second] = arguments;
    let mut buffers = [first, second].map(|a| Buffers::new(&a.format));
    let [first_buffers, second_buffers] = &mut buffers;
    side_by_side(
        BUDGET,
        || encode(side, first, first_buffers),
        || encode(side, second, second_buffers),
    )
}

/// The encode call at every format: does its time grow as a straight line in K?
/// BCH pieces cost less than the trellises, so this is asked of formats 1 to 27.
fn formats_table(plain: &Plain) -> Result<(), String> {
    println!("\nencode          K   library   per bit     plain   per bit  ratio  in ns");
    let mut sizes = Vec::new();
    let mut all_times = Vec::new();
    for f in tables::formats() {
        let times = times(Call::Encode, f, plain, BUDGET_EACH)?;
        let [library, plain] = times;
        let size = f.K as f64;
        println!(
            "format {:2}  {:6} {library:9.0} {:9.3} {plain:9.0} {:9.3} {:6.2}",
            f.number,
            f.K,
            library / size,
            plain / size,
            library / plain,
        );
        if f.K2 == 0 {
            sizes.push(size);
            all_times.push(times);
        }
    }
    for (side, name) in ["library", "plain"].iter().enumerate() {
        let times: Vec<f64> = all_times.iter().map(|times| times[side]).collect();
        let line = measure::line(&sizes, &times);
        println!(
            "{name}, formats 1 to {}: on average {:.3} ns per information bit, a format at most {:.1} % off; correlation of time and K {:.5}",
            sizes.len(),
            line.mean_rate,
            100.0 * line.deviation,
            line.correlation
        );
    }
    Ok(())
}

/// The call for a point, which is for single symbols, so none of the plain encoder's
/// stands beside it.
fn point_table() -> Result<(), String> {
    println!("\ncall            format   library  in microseconds per");
    let symbols = Symbol::drawn(WITH_POINTS);
    if !symbols.iter().all(Symbol::agrees) {
        return Err(format!("point of format {WITH_POINTS} differs"));
    }
    let time = measure::alone(BUDGET, || {
        for symbol in &symbols {
            black_box(black_box(symbol).point());
        }
    });
    println!(
        "point           {WITH_POINTS:6} {:9.3}  call with a code number",
        time / symbols.len() as f64 / 1000.0,
    );
    Ok(())
}

/// One kind of call, n times, with nothing worked out for other formats.
fn repeat(annex_c: &AnnexC, call: &str, format: &str, n: &str) -> Result<(), String> {
    let (side, name) = call.split_once('-').ok_or(USAGE)?;
    let format = format.parse().ok().and_then(tables::format).ok_or(USAGE)?;
    let n: usize = n.parse().map_err(|_| USAGE)?;
    let plain = Plain::new(annex_c, &[format]);
    let a = Arguments::new(&plain, &format);
    let mut buffers = Buffers::new(&format);
    let mut memory = calls::built(&a);
    let call = Call::named(name).filter(|call| call.is_of(&format));
    let held = match name {
        "shared-held" => Some(format.I as u64),
        "shared-new" => Some(NONE_HELD),
        _ => None,
    };
    for _ in 0..n {
        match (side, call, held) {
            ("library", Some(call), _) => {
                black_box(calls::make(call, &Library, black_box(&a), &mut buffers));
            }
            ("plain", Some(call), _) => {
                black_box(calls::make(call, &plain, black_box(&a), &mut buffers));
            }
            ("library", _, Some(held)) => encode_shared(&a, &mut buffers, &mut memory, held),
            _ => return Err(USAGE.into()),
        }
    }
    println!("{}", n * format.K);
    Ok(())
}
