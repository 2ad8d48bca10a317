//! The reference against itself done slowly: the position number by its definition, pairings by
//! trying all, a sector call written down sentence by sentence, and what must hold along a chain.

use harness::generator::Generator;
use harness::reference::pairing::{check_pairing, pair_sheet, worth, LEFT_OUT, NONE};
use harness::reference::scoring::{position, score};
use harness::reference::*;
use harness::scenes::*;
use harness::wide;

/// The largest s in 1..511 with (2s-1)^2 (rs as)^2 <= 64 ((dr as)^2 + (da rs)^2), 0 if none.
fn position_by_search(dr: i128, da: i128, site: Site) -> u32 {
    let (rs, azs) = (site.range_sigma as i128, site.azimuth_sigma as i128);
    (1..=511i128)
        .rev()
        .find(|s| (2 * s - 1).pow(2) * (rs * azs).pow(2) <= 64 * ((dr * azs).pow(2) + (da * rs).pow(2)))
        .unwrap_or(0) as u32
}

#[test]
fn position_is_its_definition() {
    let mut g = Generator::new(1);
    for _ in 0..40_000 {
        let site = some_site(&mut g);
        let reach = g.pick(&[3, 50, 800, 6_000]);
        let (dr, da) = (g.between(-reach, reach), g.between(-reach, reach));
        assert_eq!(position(dr as i32, da as i32, site), position_by_search(dr as i128, da as i128, site));
    }
    // Every half of every sigma: the edges between two numbers.
    for sigma in [1, 2, 3, 4, 16, 17, 128, 255] {
        let site = Site { range_sigma: sigma, azimuth_sigma: 200 };
        for dr in 0..4_200 {
            assert_eq!(position(dr, 0, site), position_by_search(dr as i128, 0, site));
        }
    }
}

/// The best of all pairings by trying all: most pairs, then least sum. Also how many there are.
fn best_by_trying(sheet: &Sheet) -> ((usize, u64), Vec<Vec<u32>>) {
    fn place(sheet: &Sheet, row: usize, pairing: &mut Vec<u32>, best: &mut ((usize, u64), Vec<Vec<u32>>)) {
        if row == sheet.tracks {
            let (pairs, sum) = worth(sheet.reports, &sheet.cells, pairing);
            let better = best.1.is_empty() || pairs > best.0 .0 || (pairs == best.0 .0 && sum < best.0 .1);
            if better {
                *best = ((pairs, sum), vec![pairing.clone()]);
            } else if (pairs, sum) == best.0 {
                best.1.push(pairing.clone());
            }
            return;
        }
        for report in (0..sheet.reports as u32).chain([NONE]) {
            let free = report == NONE
                || (!pairing.contains(&report) && sheet.cells[row * sheet.reports + report as usize] != NONE);
            if free {
                pairing.push(report);
                place(sheet, row + 1, pairing, best);
                pairing.pop();
            }
        }
    }
    let mut best = ((0, 0), Vec::new());
    place(sheet, 0, &mut Vec::new(), &mut best);
    best
}

#[test]
fn pairings_are_best_and_the_check_takes_every_best_one() {
    let mut g = Generator::new(2);
    let (mut ties, mut refused) = (0, [0; 27]);
    for _ in 0..6_000 {
        let (tracks, reports) = (g.index(6), g.index(6));
        let sheet = sheet_of(&mut g, tracks, reports);
        let (mut pairing, mut prices, mut discounts) = (vec![7; tracks], vec![7; tracks], vec![7; reports]);
        assert_eq!(pair_sheet(tracks, reports, &sheet.cells, &mut pairing, &mut prices, &mut discounts), 0);
        let (best, all) = best_by_trying(&sheet);
        assert_eq!(worth(reports, &sheet.cells, &pairing), best);
        assert!(all.contains(&pairing));
        ties += (all.len() > 1) as u32;
        for pairing in all.iter().take(50) {
            assert_eq!(check_pairing(tracks, reports, &sheet.cells, pairing, &prices, &discounts), 0);
        }
        // What the check accepts is best, whatever the numbers.
        let (mut other, mut p, mut d) = (pairing.clone(), prices.clone(), discounts.clone());
        for _ in 0..g.between(1, 3) {
            damage_numbers(&mut g, &sheet, &mut other, &mut p, &mut d);
        }
        let answer = check_pairing(tracks, reports, &sheet.cells, &other, &p, &d);
        assert_eq!(answer, check_by_the_book(&sheet, &other, &p, &d));
        refused[answer as usize] += 1;
        if answer == 0 {
            assert_eq!(worth(reports, &sheet.cells, &other), best);
        }
    }
    assert!(ties > 500 && [0, 23, 24, 25, 26].iter().all(|&k: &usize| refused[k] > 50), "{ties} {refused:?}");
}

/// The check sentence by sentence, for lists that are long enough.
fn check_by_the_book(sheet: &Sheet, pairing: &[u32], prices: &[u32], discounts: &[u32]) -> u8 {
    let cell = |track: usize, report: usize| sheet.cells[track * sheet.reports + report];
    let pairs: Vec<(usize, usize)> = (0..sheet.tracks)
        .filter(|&track| pairing[track] != NONE)
        .map(|track| (track, pairing[track] as usize))
        .collect();
    if pairs.iter().any(|pair| pair.1 >= sheet.reports) {
        return 23;
    }
    if pairs.iter().enumerate().any(|(place, pair)| pairs[..place].iter().any(|earlier| earlier.1 == pair.1)) {
        return 23;
    }
    if pairs.iter().any(|&(track, report)| cell(track, report) == NONE) {
        return 23;
    }
    if prices.iter().any(|&price| price > LEFT_OUT) || discounts.iter().any(|&discount| discount > LEFT_OUT) {
        return 24;
    }
    for track in 0..sheet.tracks {
        for report in 0..sheet.reports {
            let score = cell(track, report);
            if score != NONE && prices[track] as i128 - discounts[report] as i128 > score as i128 {
                return 25;
            }
        }
    }
    let total: i128 = pairs.iter().map(|&(track, report)| cell(track, report) as i128).sum::<i128>()
        + (sheet.tracks - pairs.len()) as i128 * LEFT_OUT as i128;
    let offered: i128 =
        prices.iter().map(|&p| p as i128).sum::<i128>() - discounts.iter().map(|&d| d as i128).sum::<i128>();
    if offered != total {
        return 26;
    }
    0
}

#[test]
fn large_sheets_pass_the_check() {
    let mut g = Generator::new(3);
    for _ in 0..300 {
        let (tracks, reports) = (g.index(101), g.index(101));
        let sheet = sheet_of(&mut g, tracks, reports);
        let (mut pairing, mut prices, mut discounts) = (vec![7; tracks], vec![7; tracks], vec![7; reports]);
        assert_eq!(pair_sheet(tracks, reports, &sheet.cells, &mut pairing, &mut prices, &mut discounts), 0);
        assert_eq!(check_pairing(tracks, reports, &sheet.cells, &pairing, &prices, &discounts), 0);
        let best = worth(reports, &sheet.cells, &pairing);
        // The second engine, too.
        wide::pair_sheet(tracks, reports, &sheet.cells, &mut pairing, &mut prices, &mut discounts);
        assert_eq!(check_pairing(tracks, reports, &sheet.cells, &pairing, &prices, &discounts), 0);
        assert_eq!(worth(reports, &sheet.cells, &pairing), best);
    }
}

/// The score, one rule after the other.
fn score_by_the_book(track: &Track, report: &Report, site: Site) -> u32 {
    let dr = track.range as i64 - report.range as i64;
    let mut da = track.azimuth as i64 - report.azimuth as i64;
    while da < -32_768 {
        da += 65_536;
    }
    while da > 32_767 {
        da -= 65_536;
    }
    let (rs, azs) = (site.range_sigma as i64, site.azimuth_sigma as i64);
    let within = |sigmas: i64| dr.abs() <= sigmas * rs && da.abs() <= sigmas * azs;
    let zone = if within(4) {
        3
    } else if track.updates > 1 && within(8 + 4 * track.misses as i64) {
        6
    } else if track.updates == 1
        && dr.abs() <= 820
        && da.abs() <= 8_192
        && da.abs() * (if track.range == 0 { 1 } else { track.range as i64 }) <= 8_552_910
    {
        6
    } else {
        return NONE;
    };
    let around = |speed: i64, size: i64, seen: i64| {
        (0..=12).any(|off| (speed - seen - off) % size == 0 || (speed - seen + off) % size == 0)
    };
    let speed = track.range_speed as i64;
    let agrees = report.degraded == 0
        && report.confidence >= 3
        && report.quality >= 2
        && around(speed, 180, report.high as i64)
        && around(speed, 140, report.low as i64);
    let mut age = if track.updates > 7 {
        0
    } else if track.updates >= 4 {
        2
    } else {
        4
    };
    if track.misses != 0 {
        age += 1;
    }
    let trust = match (report.confidence >= 3, track.confidence >= 3) {
        (true, true) => 0,
        (true, false) => 1,
        (false, true) => 2,
        (false, false) => 3,
    } + match (report.quality >= 2, track.quality >= 2) {
        (true, true) => 0,
        (false, false) => 2,
        _ => 1,
    };
    zone * 262_144 + position_by_search(dr as i128, da as i128, site) * 512 + !agrees as u32 * 64 + age * 8 + trust
}

#[test]
fn scores_by_the_book() {
    let mut g = Generator::new(4);
    let mut admissible = [0; 2];
    for _ in 0..1_500 {
        let scene = some_scene(&mut g);
        let Ok((due, _)) = intake(&scene.table, scene.sector, scene.site, &scene.batch) else { panic!() };
        let mut sheet = vec![0; due.count * scene.batch.len()];
        let size = score_sheet(&scene.table, scene.sector, scene.site, &scene.batch, &mut sheet);
        assert_eq!(size, Ok((due.count as u32, scene.batch.len() as u32)));
        for (row, track) in due.tracks().iter().enumerate() {
            for (column, bytes) in scene.batch.iter().enumerate().take(20) {
                let expected = score_by_the_book(track, &Report::unpack(bytes), scene.site);
                assert_eq!(sheet[row * scene.batch.len() + column], expected);
                assert!(expected == NONE || expected < TOO_HIGH_SCORE);
                admissible[(expected != NONE) as usize] += 1;
            }
        }
    }
    assert!(admissible[0] > 5_000 && admissible[1] > 5_000, "{admissible:?}");
    // Azimuths across north.
    let site = Site { range_sigma: 16, azimuth_sigma: 16 };
    let track = Track { azimuth: 3, updates: 9, ..Track::default() };
    let report = Report { azimuth: 65_530, ..Report::default() };
    assert_eq!(score(&track, &report, site), score_by_the_book(&track, &report, site));
    assert_ne!(score(&track, &report, site), NONE);
}
