//! After pairing: update, coast, drop, start, wait, and the counts.

use super::records::*;
use super::scoring::Reports;
use super::{Counts, Due, FULL, NO_SLOT, PAIRED, STARTED, WEAK};
use crate::reference::pairing::NONE;

/// Tenths, by quality (2 and 3 are alike) and confidence.
const A: [[i32; 8]; 3] = [[6, 6, 6, 6, 6, 6, 6, 10], [6, 6, 6, 9, 9, 9, 9, 10], [6, 6, 6, 10, 9, 10, 10, 10]];
const B: [[i32; 8]; 3] = [[3, 3, 3, 3, 3, 3, 3, 10], [3, 3, 3, 7, 6, 7, 7, 10], [3, 3, 3, 9, 6, 9, 9, 10]];

/// a and b in tenths.
#[inline]
pub fn gains(updates: u8, report: &Report) -> (i32, i32) {
    if updates == 1 {
        (10, 10)
    } else if report.degraded == 1 {
        (6, 3)
    } else {
        let row = report.quality.min(2) as usize;
        (A[row][report.confidence as usize], B[row][report.confidence as usize])
    }
}

/// n / d to the nearest whole number, halves away from zero.
#[inline]
pub fn rounded(n: i32, d: i32) -> i32 {
    let size = (2 * n.abs() + d) / (2 * d);
    if n < 0 {
        -size
    } else {
        size
    }
}

#[inline]
fn held_range(range: i32) -> u32 {
    range.clamp(0, MAX_RANGE as i32) as u32
}

/// The track after a pairing; its wait is not set yet.
#[inline]
pub fn updated(track: &Track, report: &Report) -> Track {
    let (a, b) = gains(track.updates, report);
    let scans = 10 * (track.misses as i32 + 1);
    let dr = track.range as i32 - report.range as i32;
    let da = azimuth_difference(track.azimuth, report.azimuth) as i32;
    let range_speed =
        (track.range_speed as i32 - rounded(b * dr, scans)).clamp(-MAX_RANGE_SPEED as i32, MAX_RANGE_SPEED as i32);
    let azimuth_speed = (track.azimuth_speed as i32 - rounded(b * da, scans))
        .clamp(-MAX_AZIMUTH_SPEED as i32, MAX_AZIMUTH_SPEED as i32);
    Track {
        range: held_range(held_range(track.range as i32 - rounded(a * dr, 10)) as i32 + range_speed),
        azimuth: track.azimuth.wrapping_add((azimuth_speed - rounded(a * da, 10)) as u16),
        range_speed: range_speed as i16,
        azimuth_speed: azimuth_speed as i16,
        updates: track.updates.saturating_add(1),
        misses: 0,
        confidence: report.confidence,
        quality: report.quality,
        wait: track.wait,
    }
}

/// The track after a scan without a report, or nothing if it is dropped; its wait is not set yet.
#[inline]
pub fn coasted(track: &Track) -> Option<Track> {
    if track.misses + 1 > allowed_misses(track.updates) {
        return None;
    }
    Some(Track {
        range: held_range(track.range as i32 + track.range_speed as i32),
        azimuth: track.azimuth.wrapping_add(track.azimuth_speed as u16),
        misses: track.misses + 1,
        ..*track
    })
}

/// Calls until a track served or started in `sector` is served again: the one number in 16..47
/// that leads to its predicted sector.
#[inline]
pub fn calls_ahead(sector: u8, azimuth: u16) -> u8 {
    16 + (sector_of(azimuth) + 2 * SECTORS - sector - 16) % SECTORS
}

fn started(report: &Report) -> Track {
    Track {
        range: report.range,
        azimuth: report.azimuth,
        updates: 1,
        confidence: report.confidence,
        quality: report.quality,
        ..Track::default()
    }
}

/// Table, sector, fates, slots, shown marks and counts from a pairing.
#[allow(clippy::too_many_arguments)]
pub fn settle(
    table: &mut [SlotBytes],
    sector: &mut u8,
    due: &Due,
    reports: &Reports,
    sheet: &[u32],
    pairing: &[u32],
    fates: &mut [u8],
    slots: &mut [u16],
    shown: &mut [u8],
) -> Counts {
    let mut counts = Counts::default();
    let served_in = *sector;
    let waiting = |track: Track| Track { wait: calls_ahead(served_in, track.azimuth) - 1, ..track }.pack();
    let reports_all = reports.all();
    let (fates, slots, shown) = (&mut fates[..reports.count], &mut slots[..reports.count], &mut shown[..reports.count]);
    fates.fill(0);
    slots.fill(NO_SLOT);
    shown.fill(0);

    // Held tracks that are not due lose 1; due ones are settled below.
    for slot in table.iter_mut() {
        slot[WAIT] -= ((slot[MARK] == 1) & (slot[WAIT] != 0)) as u8;
    }
    for (row, ((track, &place), &report)) in due.tracks().iter().zip(due.slots()).zip(pairing).enumerate() {
        table[place as usize] = if report != NONE {
            let number = report as usize;
            let after = updated(track, &reports_all[number]);
            fates[number] = PAIRED;
            slots[number] = place;
            shown[number] = (after.updates >= 3) as u8;
            counts.paired += 1;
            counts.score_sum += sheet[row * reports.count + number];
            waiting(after)
        } else if let Some(after) = coasted(track) {
            counts.coasted += 1;
            waiting(after)
        } else {
            counts.dropped += 1;
            [0; 16]
        };
    }
    // Unpaired reports, in batch order; free slots are looked for from where the last was found.
    let mut free = 0;
    for (number, report) in reports_all.iter().enumerate() {
        if fates[number] == PAIRED {
            continue;
        }
        if report.weak() {
            fates[number] = WEAK;
            counts.weak += 1;
            continue;
        }
        while free < table.len() && table[free][MARK] != 0 {
            free += 1;
        }
        if free == table.len() {
            fates[number] = FULL;
            counts.full += 1;
            continue;
        }
        table[free] = waiting(started(report));
        fates[number] = STARTED;
        slots[number] = free as u16;
        counts.started += 1;
    }
    *sector = (served_in + 1) % SECTORS;
    counts
}
