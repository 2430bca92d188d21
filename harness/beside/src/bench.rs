//! `beside bench`: one pass, ours beside the reference, in nanoseconds an instruction.
//!
//! Ours is the whole call over a unit: the layout's check, the work, the result, the zeroing of what was lent.
//! The reference starts from a module already built, and copying that module for each run is not timed. The desk run
//! comes last, in `desk_bench`.

use crate::chart::{self, Curve, Panel};
use crate::desk_bench;
use crate::options::Options;
use generate::{Shape, EXTREMES, SHAPES};
use lampruda::Workspace;
use std::fs;
use std::hint::black_box;
use std::time::{Duration, Instant};
use unit::{Answer, Section, Unit};
use unpatched::Prepared;

const LENGTHS: [usize; 5] = [20, 200, 2_000, 9_700, 65_536];

/// A sample runs so many instructions at least, so that the clock counts for little.
const SAMPLE: usize = 262_144;

/// Samples are taken for so long, between the least and the most of them.
const PATIENCE: Duration = Duration::from_millis(600);
const SAMPLES: std::ops::RangeInclusive<usize> = 3..=15;

pub fn run(mut options: Options) -> Result<(), String> {
    let seed = options.number("seed", 1)?;
    let longest = options.number("longest", 65_536)? as usize;
    let svg = options.text("svg");
    let unit = options.text("unit");
    let desk = options.text("desk").is_some();
    options.done()?;
    if desk {
        return desk_bench::run(seed);
    }
    println!("one pass, nanoseconds an instruction, the least of {SAMPLES:?} samples; seed {seed}");
    println!("{:<18}{:>13}{:>10}{:>11}{:>8}", "shape", "instructions", "ours", "reference", "times");
    if let Some(file) = unit {
        let bytes = fs::read(&file).map_err(|error| format!("{file}: {error}"))?;
        let refused = matches!(reference::pass(&bytes), Answer::Refused { .. });
        if refused {
            return Err(format!("{file}: refused"));
        }
        row("the given unit", &bytes);
        return Ok(());
    }
    let panels: Vec<Panel> = SHAPES.iter().map(|shape| panel(shape, seed, longest)).collect();
    // Not in the chart: one of them would flatten the others.
    for shape in EXTREMES {
        for n in LENGTHS.into_iter().filter(|&n| n <= longest) {
            row(shape.name, &shape.unit(seed, n));
        }
    }
    if let Some(file) = svg {
        let title = "One pass: nanoseconds an instruction";
        let text = chart::svg(title, "instructions", &panels);
        fs::write(&file, text).map_err(|error| format!("{file}: {error}"))?;
    }
    desk_bench::run(seed)
}

/// Times one shape at all lengths.
fn panel(shape: &Shape, seed: u64, longest: usize) -> Panel {
    let mut ours = Curve { name: "ours", points: Vec::new() };
    let mut theirs = Curve { name: "reference", points: Vec::new() };
    for n in LENGTHS.into_iter().filter(|&n| n <= longest) {
        let [our_time, their_time] = row(shape.name, &shape.unit(seed, n));
        ours.points.push((n as f64, our_time));
        theirs.points.push((n as f64, their_time));
    }
    Panel { name: shape.name, curves: [ours, theirs] }
}

/// Times one unit that is not refused, and prints its row.
fn row(name: &str, unit: &[u8]) -> [f64; 2] {
    let unit = Unit::check(unit).expect("what is not refused is a unit");
    let n = unit.header().count(Section::Code) as usize;
    let [ours, theirs] = time(&unit, n.max(1));
    println!("{name:<18}{n:>13}{ours:>10.1}{theirs:>11.1}{:>8.1}", theirs / ours);
    [ours, theirs]
}

/// Nanoseconds an instruction of a unit of n, ours and the reference's, sampled in turn.
fn time(unit: &Unit, n: usize) -> [f64; 2] {
    let runs = SAMPLE.div_ceil(n);
    let units = vec![unit.bytes().to_vec(); runs];
    let prepared = Prepared::new(unit);
    let mut workspace = Workspace::default();
    workspace.pass(unit.bytes());
    let mut samples = [Vec::new(), Vec::new()];
    let start = Instant::now();
    while samples[0].len() < *SAMPLES.start()
        || (samples[0].len() < *SAMPLES.end() && start.elapsed() < PATIENCE)
    {
        let begun = Instant::now();
        for unit in &units {
            black_box(workspace.pass(black_box(unit)));
        }
        samples[0].push(begun.elapsed());
        let mut copies = vec![prepared.clone(); runs];
        let begun = Instant::now();
        for copy in &mut copies {
            black_box(copy.optimize_function()).expect("the unit is not refused");
        }
        samples[1].push(begun.elapsed());
    }
    // The least, since whatever else the machine does only adds.
    samples.map(|samples| {
        let least = samples.into_iter().min().expect("there are samples");
        least.as_nanos() as f64 / (runs * n) as f64
    })
}
