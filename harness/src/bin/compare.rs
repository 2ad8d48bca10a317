//! Compares the proved unit with the reference on random input, valid and damaged.
//!
//! compare [--calls N] [--seed S] [--case N] [--trace] [--plotrun PROGRAM]

use harness::border;
use harness::generator::Generator;
use harness::judge::{self, Judged, Tally, CALLS};
use harness::reference::{pair_sheet, plotrun_with, NONE};
use harness::scenes::*;
use std::io::Write;
use std::process::{Command, ExitCode, Stdio};
use std::time::Instant;

const WORST_FAILURES: usize = 5;
const FILES: u64 = 400;

/// A scene on its own: served, or damaged once or more.
fn single_case(g: &mut Generator, tally: &mut Tally) -> Judged<()> {
    let mut scene = some_scene(g);
    if g.percent(45) {
        for _ in 0..g.pick(&[1, 1, 1, 1, 2, 3]) {
            damage_scene(g, &mut scene);
        }
    }
    judge::serve(g, &mut scene, tally).map(|_| ())
}

/// A sheet call: room exact, over, or short.
fn sheet_case(g: &mut Generator, tally: &mut Tally) -> Judged<()> {
    let mut scene = some_scene(g);
    if g.percent(35) {
        for _ in 0..g.pick(&[1, 1, 1, 2]) {
            damage_scene(g, &mut scene);
        }
    }
    let due = scene.table.iter().filter(|slot| slot[15] == 1 && slot[14] == 0).count();
    let cells = due.min(101) * scene.batch.len();
    let room = match g.below(4) {
        0 if cells > 0 => g.pick(&[cells - 1, 0, cells / 2]),
        1 => cells + g.index(9),
        _ => cells,
    };
    judge::score(g, &scene, room, tally).map(|_| ())
}

/// A table handed on from call to call, with a refused call in between now and then.
fn chain_case(g: &mut Generator, tally: &mut Tally) -> Judged<()> {
    let site = some_site(g);
    let mut sky = Sky::new(g, site);
    let slots = if g.one_in(10) { g.between(41, 300) } else { g.between(1, 40) } as usize;
    let sector = g.between(0, 31) as u8;
    let length = if g.one_in(12) { g.between(300, 700) } else { g.between(30, 120) } as u64;
    let mut scene = Scene { table: vec![[0; 16]; slots], sector, site, batch: Vec::new(), rooms: [0; 5] };
    tally.chains += 1;
    for call in 0..length {
        scene.batch = sky.look(g, call, scene.sector);
        make_room(g, &mut scene);
        if g.one_in(20) {
            let mut damaged = scene.clone();
            damage_scene(g, &mut damaged);
            judge::serve(g, &mut damaged, tally).map_err(|e| format!("call {call} of the chain, damaged: {e}"))?;
        }
        let number = judge::serve(g, &mut scene, tally).map_err(|e| format!("call {call} of the chain: {e}"))?;
        if number != 0 {
            return Err(format!("call {call} of the chain is refused {number}"));
        }
        tally.chained_calls += 1;
        tally.longest_chain = tally.longest_chain.max(call + 1);
    }
    Ok(())
}

/// Lengths of cells, pairing, prices, discounts: exact or over.
fn sheet_rooms(g: &mut Generator, sheet: &Sheet) -> judge::Rooms {
    [sheet.tracks * sheet.reports, sheet.tracks, sheet.tracks, sheet.reports]
        .map(|needed| needed + if g.percent(50) { 0 } else { g.index(5) })
}

/// Sizes or lists that do not fit.
fn damage_sizes(g: &mut Generator, sheet: &mut Sheet, rooms: &mut judge::Rooms) {
    match g.below(4) {
        0 => {
            let size = g.pick(&[101, 102, 1 << 16, 1 << 32, usize::MAX / 2 + 1, usize::MAX]);
            if g.percent(50) {
                sheet.tracks = size;
            } else {
                sheet.reports = size;
            }
        }
        1 => {
            // One over 100, with every list long enough.
            (sheet.tracks, sheet.reports) = g.pick(&[(101, 1), (1, 101), (101, 0), (0, 101), (101, 101)]);
            *rooms = [sheet.tracks * sheet.reports, sheet.tracks, sheet.tracks, sheet.reports];
        }
        _ => {
            let list = g.index(4);
            let needed = [sheet.tracks * sheet.reports, sheet.tracks, sheet.tracks, sheet.reports][list];
            if needed > 0 {
                rooms[list] = if g.percent(60) { needed - 1 } else { g.index(needed) };
            }
        }
    }
}

fn pair_case(g: &mut Generator, tally: &mut Tally) -> Judged<()> {
    let mut sheet = some_sheet(g);
    let mut rooms = sheet_rooms(g, &sheet);
    if g.one_in(6) {
        damage_sheet(g, &mut sheet);
    }
    if g.one_in(6) {
        damage_sizes(g, &mut sheet, &mut rooms);
    }
    judge::pair(g, &sheet, rooms, tally).map(|_| ())
}

/// Checks of one sheet: with right numbers, with another best pairing, and with damage.
fn check_case(g: &mut Generator, tally: &mut Tally) -> Judged<()> {
    let mut sheet = some_sheet(g);
    let rooms = sheet_rooms(g, &sheet);
    let (tracks, reports) = (sheet.tracks, sheet.reports);
    let [mut pairing, mut prices, mut discounts] = [rooms[1], rooms[2], rooms[3]].map(|room| vec![0; room]);
    let [p, q, d] = [&mut pairing, &mut prices, &mut discounts].map(|list| list.as_mut_slice());
    if g.percent(50) {
        border::pair_sheet(tracks, reports, &sheet.cells, p, q, d);
    } else {
        pair_sheet(tracks, reports, &sheet.cells, p, q, d);
    }
    let number = judge::check(g, &sheet, rooms[0], [&pairing, &prices, &discounts], tally)?;
    if number != 0 {
        return Err(format!("check_pairing gave {number} to right numbers"));
    }
    if g.percent(30) {
        // Another best pairing of the sheet, with the same numbers.
        let other = best_of_turned(g, &sheet);
        let number = judge::check(g, &sheet, rooms[0], [&other, &prices, &discounts], tally)?;
        if number != 0 {
            return Err(format!("check_pairing gave {number} to another best pairing"));
        }
    }
    for _ in 0..3 {
        let (mut p, mut q, mut d) = (pairing.clone(), prices.clone(), discounts.clone());
        for _ in 0..g.pick(&[1, 1, 2, 3]) {
            damage_numbers(g, &sheet, &mut p, &mut q, &mut d);
        }
        judge::check(g, &sheet, rooms[0], [&p, &q, &d], tally)?;
    }
    // Sizes, short lists or a cell out of range, over numbers that may be damaged as well.
    let mut rooms = rooms;
    if g.percent(50) {
        damage_numbers(g, &sheet, &mut pairing, &mut prices, &mut discounts);
    }
    if g.percent(50) {
        damage_sheet(g, &mut sheet);
    }
    if g.percent(50) {
        damage_sizes(g, &mut sheet, &mut rooms);
    }
    let mut lists = [pairing, prices, discounts];
    lists.iter_mut().zip(&rooms[1..]).for_each(|(list, &room)| list.resize(room, 0));
    judge::check(g, &sheet, rooms[0], [&lists[0], &lists[1], &lists[2]], tally).map(|_| ())
}

/// A best pairing of the sheet, found with its tracks and reports in another order.
fn best_of_turned(g: &mut Generator, sheet: &Sheet) -> Vec<u32> {
    let (tracks, reports) = (sheet.tracks, sheet.reports);
    let (mut rows, mut columns): (Vec<usize>, Vec<usize>) = ((0..tracks).collect(), (0..reports).collect());
    g.shuffle(&mut rows);
    g.shuffle(&mut columns);
    let turned: Vec<u32> =
        rows.iter().flat_map(|&row| columns.iter().map(move |&column| sheet.cells[row * reports + column])).collect();
    let (mut p, mut q, mut d) = (vec![0; tracks], vec![0; tracks], vec![0; reports]);
    pair_sheet(tracks, reports, &turned, &mut p, &mut q, &mut d);
    let mut pairing = vec![NONE; tracks];
    for (place, &row) in rows.iter().enumerate() {
        if p[place] != NONE {
            pairing[row] = columns[p[place] as usize] as u32;
        }
    }
    pairing
}

type Case = fn(&mut Generator, &mut Tally) -> Judged<()>;

/// Kinds of cases and how many of a hundred are of each.
const KINDS: [(&str, Case, u64); 5] = [
    ("single", single_case, 52),
    ("sheet", sheet_case, 20),
    ("chain", chain_case, 1),
    ("pair", pair_case, 15),
    ("check", check_case, 12),
];

fn run_case(seed: u64, number: u64, tally: &mut Tally) -> Judged<()> {
    let mut g = Generator::for_case(seed, number);
    let mut draw = g.below(100);
    for (name, case, share) in KINDS {
        if draw < share {
            return case(&mut g, tally).map_err(|what| format!("case {number} ({name}): {what}"));
        }
        draw -= share;
    }
    unreachable!("the shares make a hundred")
}

/// A file for the batch program: turns of batches, at times longer than its buffers, at times damaged,
/// cut or misheaded.
fn some_file(g: &mut Generator) -> Vec<u8> {
    let site = some_site(g);
    let mut sky = Sky::new(g, site);
    let mut file = b"SCN\x01\x00".to_vec();
    file.extend([site.range_sigma, site.azimuth_sigma]);
    let calls = if g.one_in(10) { g.between(2_000, 8_000) } else { g.between(0, 200) };
    for call in 0..calls as u64 {
        let batch = sky.look(g, call, (call % 32) as u8);
        file.push(batch.len() as u8);
        file.extend(batch.iter().flatten());
    }
    match g.below(8) {
        0 => file.truncate(g.index(file.len() + 1)),
        1 => {
            let place = g.index(file.len());
            file[place] = g.byte();
        }
        2 => {
            let place = g.index(7);
            file[place] = g.pick(&[0, 1, 2, 83]);
        }
        3 => {
            let count = g.pick(&[100, 101, 255]);
            file.push(count);
            file.extend((0..count as usize * 11 - g.index(2)).map(|_| 0));
        }
        _ => {}
    }
    file
}

/// Runs the batch program on random files; its choice among best pairings is taken from pair_sheet.
fn run_files(program: &str, seed: u64, tally: &mut Tally) -> Judged<()> {
    for number in 0..FILES {
        let mut g = Generator::for_case(seed ^ 0x5343_4e31, number);
        let file = some_file(&mut g);
        let expected = plotrun_with(&file, &mut |tracks, reports, sheet, pairing| {
            border::pair_sheet(tracks, reports, sheet, pairing, &mut vec![0; tracks], &mut vec![0; reports]);
        });
        let printed = run_program(program, &file).map_err(|e| format!("{program}: {e}"))?;
        if printed != expected.as_bytes() {
            let path = std::env::temp_dir().join(format!("plotrun-{number}.scn"));
            let _ = std::fs::write(&path, &file);
            let line = expected
                .as_bytes()
                .split(|&b| b == b'\n')
                .zip(printed.split(|&b| b == b'\n'))
                .position(|(a, b)| a != b);
            return Err(format!(
                "file {number}: {program} prints something else from line {line:?} on; it is kept as {}",
                path.display()
            ));
        }
        tally.files += 1;
        tally.longest_file = tally.longest_file.max(file.len());
        tally.file_lines += expected.lines().count() as u64;
    }
    Ok(())
}

fn run_program(program: &str, input: &[u8]) -> std::io::Result<Vec<u8>> {
    let mut child = Command::new(program).stdin(Stdio::piped()).stdout(Stdio::piped()).spawn()?;
    let mut stdin = child.stdin.take().expect("a pipe");
    let input = input.to_vec();
    // A program that refuses early may close its input.
    let feeder = std::thread::spawn(move || drop(stdin.write_all(&input)));
    let output = child.wait_with_output()?;
    let _ = feeder.join();
    // Document 01 says nothing of exit codes; a program that was stopped has failed.
    if output.status.code().is_none() {
        return Err(std::io::Error::other(format!("ended with {}", output.status)));
    }
    Ok(output.stdout)
}

fn print_tally(tally: &Tally, seconds: f64) {
    println!("{} calls judged in {seconds:.1} s", tally.calls());
    for (name, numbers) in CALLS.iter().zip(&tally.numbers) {
        let mut line = format!("  {name:<14} {:>8} calls; by number:", numbers.iter().sum::<u64>());
        for (number, &count) in numbers.iter().enumerate().filter(|pair| *pair.1 > 0) {
            line += &format!(" {number}: {count}");
        }
        println!("{line}");
    }
    let [paired, coasted, dropped, started, weak, full, _] = tally.counts;
    println!("  served sectors: {paired} paired ({} shown), {coasted} coasted, {dropped} dropped, {started} started, {weak} weak, {full} full", tally.shown);
    println!(
        "  {} cells of sectors, {} of them admissible; most updates of a track: {}",
        tally.cells, tally.admissible, tally.most_updates
    );
    println!("  {} best pairings other than the reference's own", tally.other_best);
    println!("  {} sectors where the three calls were held to agree", tally.agreements);
    println!(
        "  {} chains of {} calls in all, the longest of {}",
        tally.chains, tally.chained_calls, tally.longest_chain
    );
    if tally.files > 0 {
        println!(
            "  {} files through the batch program, {} lines, the longest file of {} bytes",
            tally.files, tally.file_lines, tally.longest_file
        );
    }
}

/// The faults that the stand-in knows, for its test.
fn print_faults() -> ! {
    #[cfg(feature = "standin")]
    for (place, name) in harness::standin::FAULTS.iter().enumerate() {
        println!("{}\t{name}", place + 1);
    }
    std::process::exit(0)
}

struct Options {
    calls: u64,
    seed: u64,
    case: Option<u64>,
    trace: bool,
    plotrun: Option<String>,
}

fn options() -> Result<Options, String> {
    let mut options = Options { calls: 3_000_000, seed: 20_240_917, case: None, trace: false, plotrun: None };
    let mut words = std::env::args().skip(1);
    while let Some(word) = words.next() {
        let mut number = || words.next().and_then(|text| text.parse().ok()).ok_or(format!("{word} takes a number"));
        match word.as_str() {
            "--calls" => options.calls = number()?,
            "--seed" => options.seed = number()?,
            "--case" => options.case = Some(number()?),
            "--trace" => options.trace = true,
            "--faults" => print_faults(),
            "--plotrun" => options.plotrun = Some(words.next().ok_or("--plotrun takes a program")?),
            _ => return Err(format!("unknown word {word}")),
        }
    }
    Ok(options)
}

fn main() -> ExitCode {
    let options = match options() {
        Ok(options) => options,
        Err(what) => {
            eprintln!("compare: {what}\ncompare [--calls N] [--seed S] [--case N] [--trace] [--plotrun PROGRAM]");
            return ExitCode::from(2);
        }
    };
    let mut tally = Tally::default();
    let mut failures = 0;
    let start = Instant::now();
    let mut number = options.case.unwrap_or(0);
    while failures < WORST_FAILURES && tally.calls() < options.calls {
        if options.trace {
            eprintln!("case {number}");
        }
        if let Err(what) = run_case(options.seed, number, &mut tally) {
            failures += 1;
            println!("DIFFERS: {what}");
        }
        number += 1;
        if options.case.is_some() {
            break;
        }
    }
    if let (Some(program), None) = (&options.plotrun, options.case) {
        if let Err(what) = run_files(program, options.seed, &mut tally) {
            failures += 1;
            println!("DIFFERS: {what}");
        }
    }
    print_tally(&tally, start.elapsed().as_secs_f64());
    if failures > 0 {
        println!("seed {}: {failures} differences (run one case again with --case N)", options.seed);
        return ExitCode::FAILURE;
    }
    println!("no difference");
    ExitCode::SUCCESS
}
