//! Times the proved unit against the reference in one run: medians over many rounds, the two taking
//! turns on the same inputs, each table copied fresh outside the timed part.
//!
//! bench [--quick]

use harness::border;
use harness::generator::Generator;
use harness::reference::{self, pair_sheet, serve_sector, Answers, Report, ReportBytes, Site, SlotBytes, Track, NONE};
use harness::scenes::{Scene, Sheet};
use harness::wide;
use std::hint::black_box;
use std::time::{Duration, Instant};

const INPUTS: usize = 12;

/// A table of `slots` with `due` tracks due in sector 5, most of the others held and waiting.
fn table_of(g: &mut Generator, slots: usize, due: Vec<Track>) -> Vec<SlotBytes> {
    let mut table: Vec<SlotBytes> = due.iter().map(Track::pack).collect();
    while table.len() < slots {
        let wait = g.between(1, 46) as u8;
        let track = Track { wait, azimuth: ((5 + wait as u16) % 32) * 2_048 + g.below(2_048) as u16, ..some_track(g) };
        table.push(if g.percent(10) { [0; 16] } else { track.pack() });
    }
    g.shuffle(&mut table);
    table
}

/// An established track anywhere in sector 5.
fn some_track(g: &mut Generator) -> Track {
    Track {
        range: g.between(2_000, 66_000) as u32,
        azimuth: 5 * 2_048 + g.below(2_048) as u16,
        range_speed: g.between(-400, 400) as i16,
        azimuth_speed: g.between(-100, 100) as i16,
        updates: g.between(1, 60) as u8,
        misses: 0,
        confidence: g.between(2, 7) as u8,
        quality: g.between(1, 3) as u8,
        wait: 0,
    }
}

fn report_at(g: &mut Generator, range: i64, azimuth: i64, speed: i64) -> ReportBytes {
    Report {
        range: range.clamp(0, 66_560) as u32,
        azimuth: azimuth.clamp(5 * 2_048, 6 * 2_048 - 1) as u16,
        confidence: g.between(2, 7) as u8,
        quality: g.between(1, 3) as u8,
        degraded: g.one_in(20) as u8,
        high: speed.rem_euclid(180) as u8,
        low: speed.rem_euclid(140) as u8,
    }
    .pack()
}

fn scene(g: &mut Generator, sigma: u8, slots: usize, due: Vec<Track>, batch: Vec<ReportBytes>) -> Scene {
    let table = table_of(g, slots, due);
    let rooms = [batch.len(), batch.len(), batch.len(), batch.len(), table.len()];
    Scene { table, sector: 5, site: Site { range_sigma: sigma, azimuth_sigma: sigma }, batch, rooms }
}

/// Tracks over the whole sector, nine in ten seen, the remaining reports clutter.
fn radar_scene(g: &mut Generator, slots: usize, due: usize, reports: usize) -> Scene {
    let tracks: Vec<Track> = (0..due).map(|_| some_track(g)).collect();
    let mut batch = Vec::new();
    for track in &tracks {
        if batch.len() < reports && g.percent(90) {
            let (range, azimuth) = (track.range as i64 + g.between(-40, 40), track.azimuth as i64 + g.between(-40, 40));
            batch.push(report_at(g, range, azimuth, track.range_speed as i64));
        }
    }
    while batch.len() < reports {
        let (range, azimuth, speed) = (g.between(0, 66_560), 5 * 2_048 + g.between(0, 2_047), g.between(-300, 300));
        batch.push(report_at(g, range, azimuth, speed));
    }
    g.shuffle(&mut batch);
    scene(g, 16, slots, tracks, batch)
}

/// Every pair admissible: all stand within a few sigmas of 255.
fn dense_scene(g: &mut Generator, slots: usize, due: usize, reports: usize) -> Scene {
    let near = |g: &mut Generator| (30_000 + g.between(-600, 600), 5 * 2_048 + 1_000 + g.between(-600, 600));
    let tracks: Vec<Track> = (0..due)
        .map(|_| {
            let (range, azimuth) = near(g);
            Track { range: range as u32, azimuth: azimuth as u16, updates: g.between(2, 20) as u8, ..some_track(g) }
        })
        .collect();
    let batch = (0..reports)
        .map(|_| {
            let (range, azimuth) = near(g);
            let speed = g.between(-400, 400);
            report_at(g, range, azimuth, speed)
        })
        .collect();
    scene(g, 255, slots, tracks, batch)
}

/// Room for every answer, lent again and again.
struct Desk {
    table: Vec<SlotBytes>,
    fates: Vec<u8>,
    slots: Vec<u16>,
    shown: Vec<u8>,
    discounts: Vec<u32>,
    prices: Vec<u32>,
}

impl Desk {
    fn new() -> Desk {
        Desk {
            table: Vec::with_capacity(2_000),
            fates: vec![0; 100],
            slots: vec![0; 100],
            shown: vec![0; 100],
            discounts: vec![0; 100],
            prices: vec![0; 2_000],
        }
    }

    fn lay(&mut self, scene: &Scene) {
        self.table.clear();
        self.table.extend_from_slice(&scene.table);
    }

    /// A call of the unit or of the reference on a fresh copy of the scene.
    fn serve(&mut self, scene: &Scene, contender: usize) -> (Duration, u32) {
        self.lay(scene);
        let mut sector = scene.sector;
        let mut counts = [0; 7];
        let table = self.table.as_mut_slice();
        let answers = Answers {
            fates: &mut self.fates,
            slots: &mut self.slots,
            shown: &mut self.shown,
            discounts: &mut self.discounts,
            prices: &mut self.prices,
        };
        let batch = black_box(scene.batch.as_slice());
        let start = Instant::now();
        if contender == UNIT {
            assert_eq!(border::serve_sector(table, &mut sector, scene.site, batch, answers, &mut counts), 0);
        } else {
            counts = serve_sector(table, &mut sector, scene.site, batch, answers).expect("served").list();
        }
        let time = start.elapsed();
        black_box(&self.table);
        (time, counts[6])
    }
}

/// Whose call is timed.
const UNIT: usize = 0;
const REFERENCE: usize = 1;
const WIDE: usize = 2;

/// Nanoseconds a call, by contender: for each input the median over rounds, then the mean over
/// inputs. In a round each input is taken once by each contender, in turns; two rounds warm up.
fn measure<const N: usize>(rounds: usize, inputs: usize, mut call: impl FnMut(usize, usize) -> Duration) -> [f64; N] {
    let mut times: [Vec<Vec<u128>>; N] = std::array::from_fn(|_| vec![Vec::with_capacity(rounds); inputs]);
    for round in 0..rounds + 2 {
        for input in 0..inputs {
            for turn in 0..N {
                let contender = (turn + round + input) % N;
                let time = call(input, contender).as_nanos();
                if round >= 2 {
                    times[contender][input].push(time);
                }
            }
        }
    }
    times.map(|lists| {
        let medians = lists.into_iter().map(|mut list| {
            list.sort_unstable();
            list[list.len() / 2] as f64
        });
        medians.sum::<f64>() / inputs as f64
    })
}

fn measure_serve(rounds: usize, scenes: &[Scene]) -> [f64; 2] {
    let mut desk = Desk::new();
    for scene in scenes {
        assert_eq!(desk.serve(scene, UNIT).1, desk.serve(scene, REFERENCE).1, "the score sums differ");
    }
    measure(rounds, scenes.len(), |input, contender| desk.serve(&scenes[input], contender).0)
}

fn measure_score(rounds: usize, scenes: &[Scene]) -> [f64; 2] {
    let mut sheet = vec![0; 10_000];
    measure(rounds, scenes.len(), |input, contender| {
        let scene = black_box(&scenes[input]);
        let mut size = [0; 2];
        let start = Instant::now();
        if contender == UNIT {
            assert_eq!(
                border::score_sheet(&scene.table, scene.sector, scene.site, &scene.batch, &mut sheet, &mut size),
                0
            );
        } else {
            reference::score_sheet(&scene.table, scene.sector, scene.site, &scene.batch, &mut sheet).expect("a sheet");
        }
        let time = start.elapsed();
        black_box(&sheet);
        time
    })
}

fn measure_pair(rounds: usize, sheets: &[Sheet]) -> [f64; 3] {
    let (mut p, mut q, mut d) = (vec![0; 100], vec![0; 100], vec![0; 100]);
    measure(rounds, sheets.len(), |input, contender| {
        let sheet = black_box(&sheets[input]);
        let engine = match contender {
            UNIT => border::pair_sheet,
            WIDE => wide::pair_sheet,
            _ => pair_sheet,
        };
        let start = Instant::now();
        assert_eq!(engine(sheet.tracks, sheet.reports, &sheet.cells, &mut p, &mut q, &mut d), 0);
        let time = start.elapsed();
        black_box((&p, &q, &d));
        time
    })
}

fn measure_check(rounds: usize, sheets: &[Sheet]) -> [f64; 2] {
    let numbers: Vec<[Vec<u32>; 3]> = sheets
        .iter()
        .map(|sheet| {
            let (mut p, mut q, mut d) = (vec![0; sheet.tracks], vec![0; sheet.tracks], vec![0; sheet.reports]);
            assert_eq!(pair_sheet(sheet.tracks, sheet.reports, &sheet.cells, &mut p, &mut q, &mut d), 0);
            [p, q, d]
        })
        .collect();
    measure(rounds, sheets.len(), |input, contender| {
        let (sheet, [p, q, d]) = (black_box(&sheets[input]), &numbers[input]);
        let check = if contender == UNIT { border::check_pairing } else { reference::check_pairing };
        let start = Instant::now();
        assert_eq!(check(sheet.tracks, sheet.reports, &sheet.cells, p, q, d), 0);
        start.elapsed()
    })
}

/// The sheet of a scene.
fn sheet_of_scene(scene: &Scene) -> Sheet {
    let mut cells = vec![0; 10_000];
    let (tracks, reports) =
        reference::score_sheet(&scene.table, scene.sector, scene.site, &scene.batch, &mut cells).expect("a sheet");
    let (tracks, reports) = (tracks as usize, reports as usize);
    cells.truncate(tracks * reports);
    Sheet { tracks, reports, cells }
}

fn sheet_by(tracks: usize, reports: usize, mut cell: impl FnMut(usize, usize) -> u32) -> Sheet {
    let cells = (0..tracks * reports).map(|place| cell(place / reports, place % reports)).collect();
    Sheet { tracks, reports, cells }
}

/// The families of sheets, by name.
fn families(g: &mut Generator) -> Vec<(&'static str, Vec<Sheet>)> {
    let mut make = |make_one: &mut dyn FnMut(&mut Generator) -> Sheet| -> Vec<Sheet> {
        (0..INPUTS).map(|_| make_one(g)).collect()
    };
    vec![
        ("sparse radar-like 60 x 80", make(&mut |g| sheet_of_scene(&radar_scene(g, 200, 60, 80)))),
        ("dense sector 100 x 100", make(&mut |g| sheet_of_scene(&dense_scene(g, 200, 100, 100)))),
        ("dense random 100 x 100", make(&mut |g| sheet_by(100, 100, |_, _| g.below(2_097_152) as u32))),
        ("i*j adversarial 100 x 100", make(&mut |_| sheet_by(100, 100, |i, j| ((i + 1) * (j + 1)) as u32))),
        ("i*j, last first 100 x 100", make(&mut |_| sheet_by(100, 100, |i, j| ((100 - i) * (j + 1)) as u32))),
        (
            "10 % admissible 100 x 100",
            make(&mut |g| sheet_by(100, 100, |_, _| if g.percent(10) { g.below(2_097_152) as u32 } else { NONE })),
        ),
        ("all alike 100 x 100", make(&mut |_| sheet_by(100, 100, |_, _| 1_000))),
        ("nothing admissible 100 x 100", make(&mut |_| sheet_by(100, 100, |_, _| NONE))),
    ]
}

fn heading(title: &str) {
    println!("\n{title}\n{:<36} {:>10} {:>10} {:>7}", "", "unit", "reference", "ratio");
}

fn line(name: &str, [unit, reference]: [f64; 2]) {
    println!("{name:<36} {:>10.2} {:>10.2} {:>7.2}", unit / 1e3, reference / 1e3, unit / reference);
}

fn engines_heading(title: &str) {
    println!("\n{title}\n{:<36} {:>10} {:>10} {:>7} {:>10} {:>7}", "", "unit", "plain", "ratio", "wide", "ratio");
}

fn engines_line(name: &str, [unit, plain, wide]: [f64; 3]) {
    let (to_plain, to_wide) = (unit / plain, unit / wide);
    println!(
        "{name:<36} {:>10.2} {:>10.2} {to_plain:>7.2} {:>10.2} {to_wide:>7.2}",
        unit / 1e3,
        plain / 1e3,
        wide / 1e3
    );
}

fn scenes(g: &mut Generator, make: fn(&mut Generator, usize, usize, usize) -> Scene, size: [usize; 3]) -> Vec<Scene> {
    (0..INPUTS).map(|_| make(g, size[0], size[1], size[2])).collect()
}

fn main() {
    let quick = std::env::args().any(|word| word == "--quick");
    let rounds = if quick { 15 } else { 151 };
    let mut g = Generator::new(20_240_917);
    println!("microseconds a call: the mean over {INPUTS} inputs of the median over {rounds} rounds");

    heading("serve_sector");
    line("2,000 slots, 60 due, 80 reports", measure_serve(rounds, &scenes(&mut g, radar_scene, [2_000, 60, 80])));
    line("2,000 slots, 100 x 100 admissible", measure_serve(rounds, &scenes(&mut g, dense_scene, [2_000, 100, 100])));
    line("2,000 slots, 60 due, empty batch", measure_serve(rounds, &scenes(&mut g, radar_scene, [2_000, 60, 0])));
    line("2,000 slots, none due, empty batch", measure_serve(rounds, &scenes(&mut g, radar_scene, [2_000, 0, 0])));

    heading("serve_sector, growth with slots (60 due, 80 reports)");
    for slots in [125, 250, 500, 1_000, 2_000] {
        line(&format!("{slots} slots"), measure_serve(rounds, &scenes(&mut g, radar_scene, [slots, 60, 80])));
    }
    heading("serve_sector, growth with due x reports (200 slots, radar-like)");
    for side in [10, 25, 50, 75, 100] {
        line(&format!("{side} x {side}"), measure_serve(rounds, &scenes(&mut g, radar_scene, [200, side, side])));
    }
    heading("serve_sector, growth with due x reports (200 slots, all admissible)");
    for side in [10, 25, 50, 75, 100] {
        line(&format!("{side} x {side}"), measure_serve(rounds, &scenes(&mut g, dense_scene, [200, side, side])));
    }
    heading("score_sheet");
    line("2,000 slots, 60 due, 80 reports", measure_score(rounds, &scenes(&mut g, radar_scene, [2_000, 60, 80])));
    line("2,000 slots, 100 x 100 admissible", measure_score(rounds, &scenes(&mut g, dense_scene, [2_000, 100, 100])));

    let families = families(&mut g);
    engines_heading("pair_sheet, against the reference's plain engine and one laid out for wide registers");
    for (name, sheets) in &families {
        engines_line(name, measure_pair(rounds, sheets));
    }
    heading("check_pairing");
    for (name, sheets) in families.iter().take(3) {
        line(name, measure_check(rounds, sheets));
    }
}
