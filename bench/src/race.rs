//! Races: three programs run by turns on the same input, their outputs compared, their best times shown and kept.

use std::fs::{create_dir_all, OpenOptions};
use std::io::{Result, Write};
use std::path::Path;
use std::time::Instant;

/// Input, output, spare; the result's length, or nothing when refused.
pub type Program<I> = fn(&I, &mut [u8], &mut [u8]) -> Option<usize>;
pub type Programs<I> = [Program<I>; 3];

pub const NAMES: [&str; 3] = ["ours", "tuned", "obvious"];

/// What a time is divided by, and how it is then shown.
#[derive(Clone, Copy)]
pub enum Unit {
    Block,
    Row,
    Rate,
}

impl Unit {
    /// In the singular and the plural.
    fn names(self) -> [&'static str; 2] {
        match self {
            Unit::Block => ["block", "blocks"],
            Unit::Row => ["row", "rows"],
            Unit::Rate => ["rate", "rates"],
        }
    }

    fn shown(self) -> (&'static str, f64) {
        match self {
            Unit::Block => ("us", 1e6),
            Unit::Row | Unit::Rate => ("ns", 1e9),
        }
    }
}

pub struct Race<'a, I: ?Sized> {
    /// The group, and the workload in it.
    pub group: &'a str,
    pub workload: &'a str,
    pub programs: Programs<I>,
    pub input: &'a I,
    pub unit: Unit,
    pub units: usize,
    /// The lengths of output and spare.
    pub room: usize,
    pub spare: usize,
    /// How often each program runs; none oftener than ours.
    pub turns: [usize; 3],
}

/// Our tally of what a race prices, timed by the same turns; its spare is as long as its output.
pub struct Beside<I: ?Sized> {
    pub tally: Program<I>,
    pub room: usize,
}

/// The name of that tally in the results, where the programs have theirs.
const TALLY: &str = "tally";

/// The lines of the results' file, one for each program of each race.
pub struct Results {
    run: usize,
    lines: Vec<String>,
}

impl Results {
    pub fn new(run: usize) -> Self {
        let lines = Vec::new();
        Results { run, lines }
    }

    fn keep<I: ?Sized>(&mut self, race: &Race<I>, rows: u32, program: &str, turns: usize, best: f64) {
        self.lines.push(format!(
            "{},{},\"{}\",{},{},{},{},{},{:.9}",
            self.run,
            race.group,
            race.workload,
            race.unit.names()[0],
            race.units,
            rows,
            program,
            turns,
            best
        ));
    }

    /// Adds the lines to a file, which starts with the names of the columns.
    pub fn append(&self, path: &Path) -> Result<()> {
        if let Some(folder) = path.parent() {
            create_dir_all(folder)?;
        }
        let mut file = OpenOptions::new().create(true).append(true).open(path)?;
        if file.metadata()?.len() == 0 {
            writeln!(
                file,
                "run,race,workload,unit,units,result_rows,program,turns,best_seconds"
            )?;
        }
        writeln!(file, "{}", self.lines.join("\n"))
    }
}

pub fn stop(what: &str) -> ! {
    eprintln!("bench: {}", what);
    std::process::exit(1)
}

/// One run; the clearing of both buffers is timed too, alike for every program.
fn timed<I: ?Sized>(program: Program<I>, input: &I, out: &mut [u8], spare: &mut [u8]) -> (f64, Option<usize>) {
    let start = Instant::now();
    out.fill(0);
    spare.fill(0);
    let length = program(input, out, spare);
    (start.elapsed().as_secs_f64(), length)
}

/// Best seconds of each program, run by turns; the whole output must be the same each time.
pub fn run<I: ?Sized>(race: &Race<I>, results: &mut Results) -> [f64; 3] {
    let best = run_turns(race, || {}, results);
    println!("{}", shown(race, &best));
    best
}

/// The same, with our tally of the same input in each turn.
pub fn run_beside<I: ?Sized>(race: &Race<I>, beside: &Beside<I>, results: &mut Results) -> [f64; 3] {
    let (mut out, mut spare) = (vec![0; beside.room], vec![0; beside.room]);
    let (mut tally, mut rows) = (f64::MAX, 0);
    let turn = || {
        let (seconds, length) = timed(beside.tally, race.input, &mut out, &mut spare);
        if length.is_none() {
            stop(&format!("the tally of {} was refused", race.workload));
        }
        tally = tally.min(seconds);
        rows = result_rows(&out);
    };
    let best = run_turns(race, turn, results);
    results.keep(race, rows, TALLY, race.turns[0], tally);
    println!("{} {:>10.3}", shown(race, &best), best[0] / tally);
    best
}

fn run_turns<I: ?Sized>(race: &Race<I>, mut beside: impl FnMut(), results: &mut Results) -> [f64; 3] {
    let (mut out, mut spare) = (vec![0; race.room], vec![0; race.spare]);
    let mut best = [f64::MAX; 3];
    let mut expected: Option<(usize, Vec<u8>)> = None;
    for turn in 0..race.turns[0] {
        beside();
        for which in (0..3).filter(|which| turn < race.turns[*which]) {
            let (seconds, length) = timed(race.programs[which], race.input, &mut out, &mut spare);
            let length = length.unwrap_or_else(|| stop(&format!("{} refused {}", NAMES[which], race.workload)));
            best[which] = best[which].min(seconds);
            let (told, bytes) = expected.get_or_insert_with(|| (length, out.clone()));
            if *told != length || *bytes != out {
                stop(&format!("{} differs on {}", NAMES[which], race.workload));
            }
        }
    }
    for (which, program) in NAMES.iter().enumerate() {
        results.keep(race, result_rows(&out), program, race.turns[which], best[which]);
    }
    best
}

/// A tally has its number of rows behind mark and version; a bill has none.
fn result_rows(out: &[u8]) -> u32 {
    match out {
        [b'T', b'L', b'Y', _, _, a, b, c, d, ..] => u32::from_be_bytes([*a, *b, *c, *d]),
        _ => 0,
    }
}

fn shown<I: ?Sized>(race: &Race<I>, best: &[f64; 3]) -> String {
    let (_, scale) = race.unit.shown();
    let [ours, tuned, obvious] = best.map(|seconds| seconds * scale / race.units as f64);
    format!(
        "{:<35} {:>8} {:>10.2} {:>10.2} {:>10.2} {:>12.3} {:>10.3}",
        race.workload,
        race.units,
        ours,
        tuned,
        obvious,
        ours / obvious,
        ours / tuned
    )
}

/// The head of a table; its times are for one unit.
pub fn heading(title: &str, unit: Unit) {
    println!("{}", headed(title, unit));
}

/// The same where our tally is run beside.
pub fn heading_beside(title: &str, unit: Unit) {
    println!("{} {:>10}", headed(title, unit), "ours/tally");
}

fn headed(title: &str, unit: Unit) -> String {
    let [one, many] = unit.names();
    let (second, _) = unit.shown();
    format!(
        "\n{}, {} a {}\n{:<35} {:>8} {:>10} {:>10} {:>10} {:>12} {:>10}",
        title, second, one, "", many, NAMES[0], NAMES[1], NAMES[2], "ours/obvious", "ours/tuned"
    )
}

/// How much longer the large input takes than its size alone would make it.
pub fn show_growth(unit: Unit, small: (usize, [f64; 3]), large: (usize, [f64; 3])) {
    let times = large.0 / small.0;
    let many = unit.names()[1];
    println!(
        "growth: time of {} {} over {} times the time of {}",
        large.0, many, times, small.0
    );
    for (which, name) in NAMES.iter().enumerate() {
        println!(
            "    {:<8} {:.3}",
            name,
            large.1[which] / (times as f64 * small.1[which])
        );
    }
}
