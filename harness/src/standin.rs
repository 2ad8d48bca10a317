//! The reference behind the border, so that the comparison can itself be tested: with no fault it
//! must pass, with another engine too, and with each of the faults below it must not.
//! `PLOTUNIT_FAULT` chooses.

mod faults;

pub use faults::{ANOTHER_ENGINE, FAULTS};

use crate::reference::records::{sector_of, Report};
use crate::reference::settling::settle;
use crate::reference::*;
use std::slice::{from_raw_parts, from_raw_parts_mut};
use std::sync::atomic::{AtomicU64, Ordering};
use std::sync::OnceLock;

fn fault() -> usize {
    static FAULT: OnceLock<usize> = OnceLock::new();
    *FAULT.get_or_init(|| std::env::var("PLOTUNIT_FAULT").ok().and_then(|text| text.parse().ok()).unwrap_or(0))
}

static CALLS: AtomicU64 = AtomicU64::new(0);

/// # Safety
/// Each pointer leads to as many elements as its length says, `sector` to one, `counts` to seven.
#[no_mangle]
pub unsafe extern "C" fn plot_serve_sector(
    table: *mut [u8; 16],
    table_len: usize,
    sector: *mut u8,
    range_sigma: u8,
    azimuth_sigma: u8,
    batch: *const [u8; 11],
    batch_len: usize,
    fates: *mut u8,
    fates_len: usize,
    slots: *mut u16,
    slots_len: usize,
    shown: *mut u8,
    shown_len: usize,
    discounts: *mut u32,
    discounts_len: usize,
    prices: *mut u32,
    prices_len: usize,
    counts: *mut u32,
) -> u8 {
    let site = Site { range_sigma, azimuth_sigma };
    let lent = from_raw_parts_mut(table, table_len);
    let sector = &mut *sector;
    let reports = from_raw_parts(batch, batch_len);
    let answers = Answers {
        fates: from_raw_parts_mut(fates, fates_len),
        slots: from_raw_parts_mut(slots, slots_len),
        shown: from_raw_parts_mut(shown, shown_len),
        discounts: from_raw_parts_mut(discounts, discounts_len),
        prices: from_raw_parts_mut(prices, prices_len),
    };
    let counts = &mut *(counts as *mut [u32; 7]);
    let before = lent.to_vec();
    let sector_before = *sector;
    let number = match fault() {
        0 => match serve_sector(lent, sector, site, reports, answers) {
            Ok(all) => {
                *counts = all.list();
                0
            }
            Err(number) => number,
        },
        fault => faulty(fault, lent, sector, site, reports, answers, counts),
    };
    match fault() {
        15 => (*table.wrapping_sub(1))[3] ^= 1,
        16 if number != 0 => counts[6] = 0,
        17 if number != 0 => *sector = sector.wrapping_add(1) % 32,
        18 if number != 0 && fates_len > 0 => *fates = 0,
        19 if batch_len > 0 => (*(batch as *mut [u8; 11]))[9] ^= 1,
        20 if number == 0 && sector_before == 31 => *sector = 32,
        _ => {}
    }
    if fault() == 4 && number == 0 {
        lent.copy_from_slice(&before);
    }
    number
}

/// A sector call with one thing wrong.
fn faulty(
    fault: usize,
    table: &mut [SlotBytes],
    sector: &mut u8,
    site: Site,
    batch: &[ReportBytes],
    answers: Answers<'_>,
    counts: &mut [u32; 7],
) -> u8 {
    let calls = CALLS.fetch_add(1, Ordering::Relaxed);
    let before = table.to_vec();
    let served_in = *sector;
    let rooms = [answers.fates.len(), answers.slots.len(), answers.shown.len(), answers.discounts.len()];
    let short = rooms.iter().any(|&room| room < batch.len()) || answers.prices.len() < table.len();
    let (due, mut reports) = match intake(table, *sector, site, batch) {
        Ok(_) if short || fault == 1 => return 9,
        Ok(taken_in) => taken_in,
        Err(8) if fault == 31 && short => return 9,
        Err(6) if fault == 30 => {
            let first_wrong =
                batch.iter().map(Report::unpack).find(|r| !r.well_formed() || sector_of(r.azimuth) != *sector);
            return if first_wrong.is_some_and(|report| report.well_formed()) { 7 } else { 6 };
        }
        Err(number) => return number,
    };
    if fault == 3 {
        *sector = (*sector + 1) % 32;
        *counts = [0; 7];
        return 0;
    }
    if fault == 5 && calls % 50 != 0 {
        *sector = (*sector + 1) % 32;
        return 0;
    }
    let count = batch.len();
    let mut sheet = vec![NONE; due.count * count];
    fill_sheet(due.tracks(), site, &reports, &mut sheet);
    spoil_sheet(fault, &due, batch, site, &mut sheet);
    let (mut pairing, mut prices, mut discounts) = (vec![NONE; due.count], vec![0; due.count], vec![0; count]);
    pairing::pair(due.count, count, &sheet, &mut pairing, &mut prices, &mut discounts);
    match fault {
        2 => pairing.fill(NONE),
        9 => nearest_first(count, &sheet, &mut pairing),
        12 => pairing.iter_mut().enumerate().for_each(|(track, report)| {
            // Leaving a track out looks cheaper than a pair of the outer zone.
            if *report != NONE && sheet[track * count + *report as usize] >= 6 * 262_144 {
                *report = NONE;
            }
        }),
        33 => pair_backwards(due.count, count, &sheet, &mut pairing, &mut vec![0; due.count], &mut vec![0; count]),
        ANOTHER_ENGINE => pair_backwards(due.count, count, &sheet, &mut pairing, &mut prices, &mut discounts),
        23 if due.count > 0 => prices[0] = prices[0].saturating_sub(1),
        24 if count > 0 => discounts[count - 1] += 1,
        _ => {}
    }
    if fault == 27 {
        // The settling is told that no report is weak.
        let strong: Vec<ReportBytes> = batch
            .iter()
            .map(|bytes| Report { confidence: 3, quality: 2, degraded: 0, ..Report::unpack(bytes) }.pack())
            .collect();
        if pairing.iter().all(|&report| report == NONE) {
            reports = scoring::Reports::unpack(&strong);
        }
    }
    answers.discounts[..count].copy_from_slice(&discounts);
    answers.prices[..table.len()].fill((fault == 22) as u32);
    for (&slot, &price) in due.slots().iter().zip(&prices) {
        answers.prices[slot as usize] = price;
    }
    let all = settle(table, sector, &due, &reports, &sheet, &pairing, answers.fates, answers.slots, answers.shown);
    *counts = all.list();
    spoil_answer(fault, &before, table, served_in, &due, &pairing, batch, answers, counts);
    0
}

fn spoil_sheet(fault: usize, due: &Due, batch: &[ReportBytes], site: Site, sheet: &mut [u32]) {
    for (row, track) in due.tracks().iter().enumerate() {
        for (column, bytes) in batch.iter().enumerate() {
            let cell = &mut sheet[row * batch.len() + column];
            let report = Report::unpack(bytes);
            if *cell == NONE {
                continue;
            }
            if fault == 10 && track.range_speed < 0 {
                *cell |= 64;
            }
            if fault == 32 && report.azimuth == track.azimuth {
                let dr = track.range.abs_diff(report.range) as u64;
                let s = (*cell / 512 % 512) as u64;
                if s > 0 && 8 * dr == (2 * s - 1) * site.range_sigma as u64 {
                    *cell -= 512;
                }
            }
        }
    }
}

fn nearest_first(reports: usize, sheet: &[u32], pairing: &mut [u32]) {
    let mut taken = vec![false; reports];
    for (track, choice) in pairing.iter_mut().enumerate() {
        let nearest = (0..reports)
            .filter(|&r| !taken[r] && sheet[track * reports + r] != NONE)
            .min_by_key(|&r| sheet[track * reports + r]);
        *choice = nearest.map_or(NONE, |report| report as u32);
        if let Some(report) = nearest {
            taken[report] = true;
        }
    }
}

/// The pairing and numbers that come of bringing the tracks in from last to first.
fn pair_backwards(
    tracks: usize,
    reports: usize,
    sheet: &[u32],
    pairing: &mut [u32],
    prices: &mut [u32],
    discounts: &mut [u32],
) {
    let turned: Vec<u32> = (0..tracks).rev().flat_map(|track| sheet[track * reports..][..reports].to_vec()).collect();
    pairing::pair(tracks, reports, &turned, pairing, prices, discounts);
    pairing.reverse();
    prices.reverse();
}

#[allow(clippy::too_many_arguments)]
fn spoil_answer(
    fault: usize,
    before: &[SlotBytes],
    table: &mut [SlotBytes],
    served_in: u8,
    due: &Due,
    pairing: &[u32],
    batch: &[ReportBytes],
    answers: Answers<'_>,
    counts: &mut [u32; 7],
) {
    let count = batch.len();
    match fault {
        6 => counts[1] += (counts[0] > 0) as u32,
        13 if answers.fates.len() > count => answers.fates[count] = 0,
        14 if answers.prices.len() > table.len() => answers.prices[table.len()] = 0,
        21 => {
            for report in (0..count).filter(|&report| answers.fates[report] == PAIRED) {
                answers.shown[report] = 1;
            }
        }
        25 => table.iter_mut().filter(|slot| slot[15] == 0).for_each(|slot| *slot = [0; 16]),
        28 => {
            let started: Vec<usize> = (0..count).filter(|&report| answers.fates[report] == STARTED).collect();
            if let ([report], Some(free)) = (started.as_slice(), table.iter().rposition(|slot| slot[15] == 0)) {
                let place = answers.slots[*report] as usize;
                if free > place {
                    table[free] = table[place];
                    table[place] = if before[place][15] == 0 { before[place] } else { [0; 16] };
                    answers.slots[*report] = free as u16;
                }
            }
        }
        _ => {}
    }
    for (&place, (track, &report)) in due.slots().iter().zip(due.tracks().iter().zip(pairing)) {
        let slot = &mut table[place as usize];
        let paired = report != NONE;
        let dropped = !paired && (track.misses + 1 > records::allowed_misses(track.updates));
        match fault {
            11 if !dropped => slot[14] %= 32,
            26 if dropped && slot[15] == 0 => {
                *slot = before[place as usize];
                slot[15] = 0;
            }
            29 if dropped && slot[15] == 1 => {
                // As if the slot had stayed taken: its report is full.
                if let Some(report) = (0..count).find(|&r| answers.fates[r] == STARTED && answers.slots[r] == place) {
                    *slot = [0; 16];
                    answers.fates[report] = FULL;
                    answers.slots[report] = NO_SLOT;
                    counts[3] -= 1;
                    counts[5] += 1;
                }
            }
            41 if paired && track.updates == 255 => slot[10] = 1,
            42 if !paired && !dropped => {
                let there = Track { azimuth: track.azimuth, ..Track::unpack(slot) };
                let wait = settling::calls_ahead(served_in, there.azimuth) - 1;
                *slot = Track { wait, ..there }.pack();
            }
            43 if paired => slot[11] = track.misses,
            44 if paired => {
                let after = Track::unpack(slot);
                let report = Report::unpack(&batch[report as usize]);
                let (a, b) = settling::gains(track.updates, &report);
                let dr = track.range as i32 - report.range as i32;
                let speed = track.range_speed as i32 - settling::rounded(b * dr, 10 * (track.misses as i32 + 1));
                let range = (track.range as i32 - settling::rounded(a * dr, 10) + speed).clamp(0, 66_560) as u32;
                *slot = Track { range, ..after }.pack();
            }
            _ => {}
        }
    }
}

/// # Safety
/// As above; `size` leads to two numbers.
#[no_mangle]
pub unsafe extern "C" fn plot_score_sheet(
    table: *const [u8; 16],
    table_len: usize,
    sector: u8,
    range_sigma: u8,
    azimuth_sigma: u8,
    batch: *const [u8; 11],
    batch_len: usize,
    sheet: *mut u32,
    sheet_len: usize,
    size: *mut u32,
) -> u8 {
    let site = Site { range_sigma, azimuth_sigma };
    let lent = from_raw_parts_mut(sheet, sheet_len);
    let reports = from_raw_parts(batch, batch_len);
    match score_sheet(from_raw_parts(table, table_len), sector, site, reports, lent) {
        Ok((tracks, reports)) => {
            *(size as *mut [u32; 2]) = if fault() == 35 { [reports, tracks] } else { [tracks, reports] };
            let cells = (tracks * reports) as usize;
            if fault() == 34 && sheet_len > cells {
                lent[cells] = NONE;
            }
            0
        }
        Err(number) => number,
    }
}

/// # Safety
/// As above.
#[no_mangle]
pub unsafe extern "C" fn plot_pair_sheet(
    tracks: usize,
    reports: usize,
    sheet: *const u32,
    sheet_len: usize,
    pairing: *mut u32,
    pairing_len: usize,
    prices: *mut u32,
    prices_len: usize,
    discounts: *mut u32,
    discounts_len: usize,
) -> u8 {
    let mut cells = from_raw_parts(sheet, sheet_len).to_vec();
    if fault() == 37 {
        cells.iter_mut().filter(|cell| **cell == TOO_HIGH_SCORE).for_each(|cell| *cell = TOO_HIGH_SCORE - 1);
    }
    let pairing = from_raw_parts_mut(pairing, pairing_len);
    let prices = from_raw_parts_mut(prices, prices_len);
    let discounts = from_raw_parts_mut(discounts, discounts_len);
    let number = pair_sheet(tracks, reports, &cells, pairing, prices, discounts);
    if fault() == ANOTHER_ENGINE && number == 0 {
        let (p, q, d) = (&mut pairing[..tracks], &mut prices[..tracks], &mut discounts[..reports]);
        pair_backwards(tracks, reports, &cells, p, q, d);
    }
    if fault() == 36 && number == 0 && pairing_len > tracks {
        pairing[tracks] = NONE;
    }
    number
}

/// # Safety
/// As above.
#[no_mangle]
pub unsafe extern "C" fn plot_check_pairing(
    tracks: usize,
    reports: usize,
    sheet: *const u32,
    sheet_len: usize,
    pairing: *const u32,
    pairing_len: usize,
    prices: *const u32,
    prices_len: usize,
    discounts: *const u32,
    discounts_len: usize,
) -> u8 {
    let sheet = from_raw_parts(sheet, sheet_len);
    let pairing = from_raw_parts(pairing, pairing_len);
    let prices = from_raw_parts(prices, prices_len);
    let discounts = from_raw_parts(discounts, discounts_len);
    let number = check_pairing(tracks, reports, sheet, pairing, prices, discounts);
    let high = |numbers: &[u32], count: usize| numbers.iter().take(count).any(|&number| number > LEFT_OUT);
    match (fault(), number) {
        (7, 0) => 26,
        (8, _) => 0,
        (38, 23) if high(prices, tracks) || high(discounts, reports) => 24,
        (39, 24) if !high(prices, tracks) => 25,
        (40, 23) if pairing.iter().take(tracks).any(|&report| report != NONE && report as usize >= reports) => 0,
        _ => number,
    }
}
