//! Writes the demo's file: a ridge that shows on the radar and has a track of its own, and a glider
//! that crosses it. Then tells, turn by turn, what the best pairing makes of it and what the old
//! filter (nearest report first, track by track in table order) would have made of it.
//!
//! make_glider FILE

use harness::reference::settling::settle;
use harness::reference::*;
use std::process::ExitCode;

const SITE: Site = Site { range_sigma: 16, azimuth_sigma: 16 };
const SECTORS: usize = 32;
const TURNS: usize = 14;
/// The crest of the ridge: 8 nautical miles out, near the middle of sector 3.
const SECTOR: usize = 3;
const CREST: (i32, i32) = (8_192, 3 * 2_048 + 1_000);

/// The ridge's return turn by turn, range and azimuth off the crest. In turn 7 another face of it
/// shines, further along; in turn 8 it fades.
const RIDGE: [Option<(i32, i32)>; TURNS] = [
    Some((0, 0)),
    Some((3, -4)),
    Some((-2, 5)),
    Some((1, 0)),
    Some((0, -3)),
    Some((2, 2)),
    Some((-4, -100)),
    None,
    Some((1, 0)),
    Some((0, 4)),
    Some((-1, -2)),
    Some((2, 1)),
    Some((0, 0)),
    Some((1, -3)),
];

/// The glider comes out of the valley in turn 4 and flies along at some 60 knots, closing slowly.
const GLIDER_FROM: usize = 4;
const GLIDER_AT_TURN_7: (i32, i32) = (24, 60);
const GLIDER_SPEED: (i32, i32) = (-8, -110);
/// Over the ridge its return is weak.
const GLIDER_WEAK: std::ops::RangeInclusive<usize> = 7..=10;

/// A strong return at first, so that it has a track; a smeared one ever after.
fn ridge_report(turn: usize) -> Option<ReportBytes> {
    let quality = if turn == 1 { 2 } else { 0 };
    RIDGE[turn - 1].map(|place| at(place, Report { confidence: 4, quality, ..Report::default() }))
}

fn glider_report(turn: usize) -> Option<ReportBytes> {
    let turns = turn as i32 - 7;
    let place = (GLIDER_AT_TURN_7.0 + turns * GLIDER_SPEED.0, GLIDER_AT_TURN_7.1 + turns * GLIDER_SPEED.1);
    let report = Report {
        confidence: if GLIDER_WEAK.contains(&turn) { 2 } else { 5 },
        quality: 3,
        high: GLIDER_SPEED.0.rem_euclid(180) as u8,
        low: GLIDER_SPEED.0.rem_euclid(140) as u8,
        ..Report::default()
    };
    (turn >= GLIDER_FROM).then(|| at(place, report))
}

fn at((range, azimuth): (i32, i32), report: Report) -> ReportBytes {
    Report { range: (CREST.0 + range) as u32, azimuth: (CREST.1 + azimuth) as u16, ..report }.pack()
}

fn batch_of(turn: usize, sector: usize) -> Vec<ReportBytes> {
    if sector == SECTOR {
        ridge_report(turn).into_iter().chain(glider_report(turn)).collect()
    } else {
        Vec::new()
    }
}

fn glider_file() -> Vec<u8> {
    let mut file = b"SCN\x01\x00".to_vec();
    file.extend([SITE.range_sigma, SITE.azimuth_sigma]);
    for turn in 1..=TURNS {
        for sector in 0..SECTORS {
            let batch = batch_of(turn, sector);
            file.push(batch.len() as u8);
            file.extend(batch.iter().flatten());
        }
    }
    file
}

/// Nearest report first, track by track in table order.
fn old_filter(tracks: usize, reports: usize, sheet: &[u32], pairing: &mut [u32]) {
    let mut taken = vec![false; reports];
    for track in 0..tracks {
        let free = (0..reports).filter(|&report| !taken[report] && sheet[track * reports + report] != NONE);
        let nearest = free.min_by_key(|&report| sheet[track * reports + report]);
        pairing[track] = nearest.map_or(NONE, |report| report as u32);
        nearest.into_iter().for_each(|report| taken[report] = true);
    }
}

fn best_pairing(tracks: usize, reports: usize, sheet: &[u32], pairing: &mut [u32]) {
    pair_sheet(tracks, reports, sheet, pairing, &mut vec![0; tracks], &mut vec![0; reports]);
}

type Pairer = fn(usize, usize, &[u32], &mut [u32]);

/// What became of the two returns, turn by turn.
fn tell(pairer: Pairer) {
    let mut table = vec![[0; 16]; 256];
    let mut sector = 0;
    println!("  turn  ridge's return   glider's return");
    for turn in 1..=TURNS {
        for _ in 0..SECTORS {
            let here = sector as usize;
            let batch = batch_of(turn, here);
            let (due, reports) =
                intake(&table, sector, SITE, &batch).unwrap_or_else(|number| panic!("refused {number}"));
            let mut sheet = vec![NONE; due.count * batch.len()];
            fill_sheet(due.tracks(), SITE, &reports, &mut sheet);
            let mut pairing = vec![NONE; due.count];
            pairer(due.count, batch.len(), &sheet, &mut pairing);
            let (mut fates, mut slots, mut shown) = ([0; 2], [0; 2], [0; 2]);
            settle(&mut table, &mut sector, &due, &reports, &sheet, &pairing, &mut fates, &mut slots, &mut shown);

            let mut left_out = String::new();
            for (row, &slot) in due.slots().iter().enumerate() {
                if pairing[row] == NONE {
                    // A slot that was dropped and taken again at once has a track of one update.
                    let kept = table[slot as usize][15] == 1 && table[slot as usize][10] == due.tracks()[row].updates;
                    left_out += &format!("; slot {slot} {}", if kept { "coasts" } else { "is dropped" });
                }
            }
            let became = |report: Option<ReportBytes>| {
                let Some(place) = report.and_then(|report| batch.iter().position(|other| *other == report)) else {
                    return "-".to_string();
                };
                match (fates[place], shown[place]) {
                    (PAIRED, 1) => format!("slot {}, shown", slots[place]),
                    (PAIRED, _) => format!("slot {}", slots[place]),
                    (STARTED, _) => format!("starts slot {}", slots[place]),
                    _ => "lost".to_string(),
                }
            };
            if here == SECTOR {
                let (ridge, glider) = (became(ridge_report(turn)), became(glider_report(turn)));
                println!("  {turn:>4}  {ridge:<16} {}", format!("{glider:<16}{left_out}").trim_end());
            } else if !left_out.is_empty() {
                println!("  {turn:>4}  (sector {here}{left_out})");
            }
        }
    }
}

fn main() -> ExitCode {
    let Some(path) = std::env::args().nth(1) else {
        eprintln!("make_glider FILE");
        return ExitCode::from(2);
    };
    let file = glider_file();
    if let Err(what) = std::fs::write(&path, &file) {
        eprintln!("{path}: {what}");
        return ExitCode::FAILURE;
    }
    println!("{path}: {} bytes", file.len());
    for (name, pairer) in [("best pairing", best_pairing as Pairer), ("old filter", old_filter as Pairer)] {
        println!("\n{name}:");
        tell(pairer);
        println!("{name}, as plotrun prints it:");
        print!("{}", plotrun_with(&file, &mut |t, r, s, p| pairer(t, r, s, p)));
    }
    ExitCode::SUCCESS
}

#[cfg(test)]
mod tests {
    use super::*;

    fn counts(pairer: Pairer) -> Vec<Vec<u32>> {
        let text = plotrun_with(&glider_file(), &mut |t, r, s, p| pairer(t, r, s, p));
        let lines =
            text.strip_prefix("SCN 1\n").and_then(|text| text.strip_suffix("end\n")).expect("served to the end");
        lines.lines().map(|line| line.split(' ').map(|number| number.parse().unwrap()).collect()).collect()
    }

    /// The best pairing drops nothing and loses no return; the old filter drops the glider.
    #[test]
    fn the_glider_is_kept() {
        let (dropped, weak) = (3, 5);
        let best = counts(best_pairing);
        assert_eq!(best.len(), TURNS);
        assert!(best.iter().all(|line| line[dropped] == 0 && line[weak] == 0));
        let old = counts(old_filter);
        assert_eq!(old.iter().map(|line| line[dropped]).sum::<u32>(), 1);
        assert_eq!(old[7][dropped], 1);
    }
}
