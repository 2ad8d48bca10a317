//! Times batch programs on a long file of a usual load: megabytes and sectors a second. The programs
//! take turns, and the least time counts: other work on the machine only ever adds to it.
//!
//! throughput PROGRAM.. [--quick]
//! throughput --write FILE MEGABYTES

use harness::generator::Generator;
use harness::reference::{Report, ReportBytes};
use std::fs::File;
use std::io::{BufWriter, Error, Result, Write};
use std::path::Path;
use std::process::{Command, ExitCode, Stdio};
use std::time::{Duration, Instant};

const MEGABYTE: u64 = 1_000_000;
/// Aircraft and clutter returns a sector: with 32 sectors most of the 256 slots are held.
const AIRCRAFT: usize = 6;
const CLUTTER: usize = 4;

/// An aircraft circles over a spot of its sector, so that a file of any length stays usual.
struct Aircraft {
    range: i64,
    azimuth: i64,
    phase: f64,
}

fn some_aircraft(g: &mut Generator) -> Aircraft {
    Aircraft { range: g.between(4_000, 60_000), azimuth: g.between(400, 1_647), phase: g.below(628) as f64 / 100.0 }
}

fn report(g: &mut Generator, sector: usize, range: i64, azimuth: i64) -> ReportBytes {
    Report {
        range: range.clamp(0, 66_560) as u32,
        azimuth: sector as u16 * 2_048 + azimuth.clamp(0, 2_047) as u16,
        confidence: g.between(2, 7) as u8,
        quality: g.between(1, 3) as u8,
        degraded: g.one_in(20) as u8,
        high: g.below(180) as u8,
        low: g.below(140) as u8,
    }
    .pack()
}

/// Nine in ten aircraft are seen, a little off their place; the clutter is anywhere.
fn batch(g: &mut Generator, turn: u64, sector: usize, sky: &[Aircraft]) -> Vec<ReportBytes> {
    let mut batch = Vec::with_capacity(AIRCRAFT + CLUTTER);
    for aircraft in sky {
        let (sine, cosine) = (turn as f64 / 8.0 + aircraft.phase).sin_cos();
        if g.percent(90) {
            let range = aircraft.range + (300.0 * sine) as i64 + g.between(-16, 16);
            let azimuth = aircraft.azimuth + (300.0 * cosine) as i64 + g.between(-16, 16);
            batch.push(report(g, sector, range, azimuth));
        }
    }
    for _ in 0..CLUTTER {
        let (range, azimuth) = (g.between(0, 66_560), g.between(0, 2_047));
        batch.push(report(g, sector, range, azimuth));
    }
    batch
}

/// Writes whole turns until the file is as long as asked. Gives its bytes and sectors.
fn write_file(path: &Path, length: u64) -> Result<(u64, u64)> {
    let mut g = Generator::new(20_240_917);
    let skies: Vec<Vec<Aircraft>> = (0..32).map(|_| (0..AIRCRAFT).map(|_| some_aircraft(&mut g)).collect()).collect();
    let mut out = BufWriter::new(File::create(path)?);
    out.write_all(b"SCN\x01\x00\x10\x10")?;
    let (mut bytes, mut turn) = (7, 0);
    while bytes < length {
        for (sector, sky) in skies.iter().enumerate() {
            let batch = batch(&mut g, turn, sector, sky);
            out.write_all(&[batch.len() as u8])?;
            out.write_all(batch.as_flattened())?;
            bytes += 1 + 11 * batch.len() as u64;
        }
        turn += 1;
    }
    out.flush()?;
    Ok((bytes, 32 * turn))
}

/// The time of one run, and what was printed, which must have come to the file's end.
fn run(program: &str, path: &Path) -> Result<(Duration, Vec<u8>)> {
    let start = Instant::now();
    let output = Command::new(program).stdin(File::open(path)?).stderr(Stdio::inherit()).output()?;
    let time = start.elapsed();
    if !output.stdout.ends_with(b"\nend\n") {
        return Err(Error::other(format!("{program} did not come to the file's end ({})", output.status)));
    }
    Ok((time, output.stdout))
}

fn compare(programs: &[String], quick: bool) -> Result<()> {
    let path = std::env::temp_dir().join(format!("throughput-{}.scn", std::process::id()));
    let (bytes, sectors) = write_file(&path, if quick { 5 } else { 30 } * MEGABYTE)?;
    let rounds = if quick { 3 } else { 7 };
    let mut times = vec![Vec::new(); programs.len()];
    let mut texts = vec![Vec::new(); programs.len()];
    for _ in 0..rounds {
        for (place, program) in programs.iter().enumerate() {
            let (time, text) = run(program, &path)?;
            times[place].push(time);
            texts[place] = text;
        }
    }
    std::fs::remove_file(&path)?;
    println!("\nbatch programs on {:.1} MB, {sectors} sectors: the least of {rounds} rounds", bytes as f64 / 1e6);
    println!("{:<36} {:>10} {:>12} {:>10}", "", "MB/s", "sectors/s", "us/sector");
    for (program, times) in programs.iter().zip(&times) {
        let seconds = times.iter().min().map_or(0.0, Duration::as_secs_f64);
        let name = Path::new(program).file_name().unwrap_or_default().to_string_lossy();
        let (speed, rate) = (bytes as f64 / 1e6 / seconds, sectors as f64 / seconds);
        println!("{name:<36} {speed:>10.1} {rate:>12.0} {:>10.2}", 1e6 / rate);
    }
    // Where best pairings tie, two right programs may part; here that is not expected.
    let alike = texts.windows(2).all(|pair| pair[0] == pair[1]);
    println!("{}", if alike { "all print the same" } else { "they print different lines" });
    Ok(())
}

fn main() -> ExitCode {
    let (options, words): (Vec<String>, Vec<String>) =
        std::env::args().skip(1).partition(|word| word.starts_with("--"));
    let quick = options.iter().any(|word| word == "--quick");
    let done = match (options.iter().any(|word| word == "--write"), words.as_slice()) {
        (true, [path, megabytes]) => megabytes
            .parse()
            .map_err(Error::other)
            .and_then(|n: u64| write_file(Path::new(path), n * MEGABYTE))
            .map(|_| ()),
        (false, [_, ..]) => compare(&words, quick),
        _ => Err(Error::other("throughput PROGRAM.. [--quick], or throughput --write FILE MEGABYTES")),
    };
    done.map_or_else(
        |what| {
            eprintln!("throughput: {what}");
            ExitCode::FAILURE
        },
        |()| ExitCode::SUCCESS,
    )
}
