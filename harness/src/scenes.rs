//! Random inputs: tables, batches and sites as a radar might give them, and worse; sheets with and
//! without ties; and damage to any of them.

mod damage;
mod sheets;
mod sky;

pub use damage::damage_scene;
pub use sheets::{damage_numbers, damage_sheet, sheet_of, some_sheet, Sheet};
pub use sky::Sky;

use crate::generator::Generator;
use crate::reference::records::{allowed_misses, MARK, MAX_RANGE};
use crate::reference::{Report, ReportBytes, Site, SlotBytes, Track};

/// All that a sector call is lent, but for the answers' contents.
#[derive(Clone, Debug)]
pub struct Scene {
    pub table: Vec<SlotBytes>,
    pub sector: u8,
    pub site: Site,
    pub batch: Vec<ReportBytes>,
    /// Lengths of fates, slots, shown, discounts, prices.
    pub rooms: [usize; 5],
}

pub fn some_site(g: &mut Generator) -> Site {
    let sigma = |g: &mut Generator| match g.below(6) {
        0 => 16,
        1 => g.between(1, 4) as u8,
        2 => 255,
        3 => g.between(1, 255) as u8,
        _ => g.between(8, 64) as u8,
    };
    Site { range_sigma: sigma(g), azimuth_sigma: sigma(g) }
}

/// A number within `low..=high`, often one of its ends.
fn with_ends(g: &mut Generator, low: i64, high: i64) -> i64 {
    match g.below(8) {
        0 => low,
        1 => high,
        _ => g.between(low, high),
    }
}

/// Where things stand near each other.
#[derive(Clone, Copy)]
struct Spot {
    range: i64,
    azimuth: i64,
}

fn some_spot(g: &mut Generator, sector: u8) -> Spot {
    let first = sector as i64 * 2_048;
    let range = match g.below(6) {
        0 => g.between(0, 300),
        1 => MAX_RANGE as i64 - g.between(0, 300),
        2 => g.between(900, 6_000),
        _ => g.between(0, MAX_RANGE as i64),
    };
    let azimuth = match g.below(5) {
        0 => first + g.between(0, 60),
        1 => first + 2_047 - g.between(0, 60),
        _ => first + g.between(0, 2_047),
    };
    Spot { range, azimuth }
}

fn in_sector(azimuth: i64, sector: u8) -> u16 {
    let first = sector as i64 * 2_048;
    azimuth.clamp(first, first + 2_047) as u16
}

/// A well-formed track in `sector`; its wait is 0.
fn some_track(g: &mut Generator, spot: Spot, spread: (i64, i64), sector: u8) -> Track {
    let updates = match g.below(6) {
        0 => 1,
        1 => g.between(2, 3),
        2 => g.between(4, 7),
        3 => g.pick(&[7, 8, 254, 255]),
        _ => g.between(1, 255),
    } as u8;
    Track {
        range: (spot.range + g.between(-spread.0, spread.0)).clamp(0, MAX_RANGE as i64) as u32,
        azimuth: in_sector(spot.azimuth + g.between(-spread.1, spread.1), sector),
        range_speed: if g.percent(40) { g.between(-40, 40) } else { with_ends(g, -820, 820) } as i16,
        azimuth_speed: if g.percent(50) { g.between(-200, 200) } else { with_ends(g, -8_192, 8_192) } as i16,
        updates,
        misses: g.between(0, allowed_misses(updates) as i64) as u8,
        confidence: g.between(0, 7) as u8,
        quality: g.between(0, 3) as u8,
        wait: 0,
    }
}

fn some_distance(g: &mut Generator, limits: &[i64]) -> i64 {
    let limit = g.pick(limits);
    let size = match g.below(4) {
        0 => limit,
        1 => limit + 1,
        2 => (limit - 1).max(0),
        _ => g.between(0, limit),
    };
    if g.percent(50) {
        size
    } else {
        -size
    }
}

/// A report near a track, often exactly at the edge of one of its zones, its Doppler often right.
fn report_near(g: &mut Generator, track: &Track, site: Site, sector: u8) -> Report {
    let (rs, azs) = (site.range_sigma as i64, site.azimuth_sigma as i64);
    let sigmas = 8 + 4 * track.misses as i64;
    let arc = (8_552_910 / track.range.max(1) as i64).min(8_192);
    let dr = some_distance(g, &[0, rs / 2, 4 * rs, 4 * rs, sigmas * rs, 820]);
    let da = some_distance(g, &[0, azs / 2, 4 * azs, 4 * azs, sigmas * azs, arc]);
    let circle = |g: &mut Generator, size: i64| {
        let off = g.pick(&[0, 3, -3, 11, 12, 13, -11, -12, -13]);
        (track.range_speed as i64 + off).rem_euclid(size) as u8
    };
    let believed = g.percent(70);
    Report {
        range: (track.range as i64 - dr).clamp(0, MAX_RANGE as i64) as u32,
        azimuth: in_sector(track.azimuth as i64 - da, sector),
        confidence: if believed { g.between(3, 7) } else { g.between(0, 7) } as u8,
        quality: if believed { g.between(2, 3) } else { g.between(0, 3) } as u8,
        degraded: if believed { 0 } else { g.between(0, 1) } as u8,
        high: if g.percent(70) { circle(g, 180) } else { g.between(0, 179) as u8 },
        low: if g.percent(70) { circle(g, 140) } else { g.between(0, 139) as u8 },
    }
}

fn report_anywhere(g: &mut Generator, spot: Spot, spread: (i64, i64), sector: u8) -> Report {
    Report {
        range: (spot.range + g.between(-spread.0, spread.0)).clamp(0, MAX_RANGE as i64) as u32,
        azimuth: in_sector(spot.azimuth + g.between(-spread.1, spread.1), sector),
        confidence: g.between(0, 7) as u8,
        quality: g.between(0, 3) as u8,
        degraded: g.one_in(5) as u8,
        high: with_ends(g, 0, 179) as u8,
        low: with_ends(g, 0, 139) as u8,
    }
}

/// A held track that is not due: it waits for another call.
fn waiting_track(g: &mut Generator, sector: u8) -> Track {
    let wait = with_ends(g, 1, 46) as u8;
    let its_sector = (sector + wait) % 32;
    let spot = some_spot(g, its_sector);
    Track { wait, ..some_track(g, spot, (0, 0), its_sector) }
}

/// A free slot: mark 0, anything else in the other bytes.
fn free_slot(g: &mut Generator) -> SlotBytes {
    let mut slot = [0; 16];
    if g.percent(50) {
        for byte in &mut slot[..MARK] {
            *byte = g.byte();
        }
    }
    slot
}

/// How many, small as a rule and now and then up to the limit.
fn some_count(g: &mut Generator, limit: i64) -> usize {
    match g.below(100) {
        0..=4 => 0,
        5..=79 => g.between(0, limit.min(10)) as usize,
        80..=95 => g.between(0, limit.min(24)) as usize,
        96..=98 => g.between(0, limit) as usize,
        _ => limit as usize,
    }
}

/// A scene that is served: every slot and report well formed, every answer with room.
pub fn some_scene(g: &mut Generator) -> Scene {
    let slots = match g.below(200) {
        0 => 2_000,
        1 => g.between(257, 2_000) as usize,
        2..=12 => g.between(41, 256) as usize,
        13..=99 => g.between(9, 40) as usize,
        _ => g.between(1, 14) as usize,
    };
    let due = some_count(g, 100.min(slots as i64));
    let reports = some_count(g, 100);
    scene_of(g, slots, due, reports)
}

/// A scene of a given size; `due` may be over 100, and then it is refused.
pub fn scene_of(g: &mut Generator, slots: usize, due: usize, reports: usize) -> Scene {
    let sector = if g.percent(50) { g.pick(&[0, 31]) } else { g.between(0, 31) as u8 };
    let site = some_site(g);
    let sigmas = g.pick(&[0, 1, 3, 6, 12, 30]);
    let spread = (sigmas * site.range_sigma as i64, sigmas * site.azimuth_sigma as i64);
    let spots: Vec<Spot> = (0..g.between(1, 5)).map(|_| some_spot(g, sector)).collect();

    let mut table = Vec::with_capacity(slots);
    let mut tracks = Vec::with_capacity(due);
    for _ in 0..due.min(slots) {
        let spot = g.pick(&spots);
        let track = some_track(g, spot, spread, sector);
        tracks.push(track);
        table.push(track.pack());
    }
    let free_percent = g.pick(&[0, 10, 50, 90]);
    while table.len() < slots {
        table.push(if g.percent(free_percent) { free_slot(g) } else { waiting_track(g, sector).pack() });
    }
    g.shuffle(&mut table);

    let mut batch: Vec<ReportBytes> = Vec::with_capacity(reports);
    for _ in 0..reports {
        let report = if !batch.is_empty() && g.one_in(12) {
            // The same return twice: ties.
            g.pick(&batch)
        } else if !tracks.is_empty() && g.percent(75) {
            let track = g.pick(&tracks);
            report_near(g, &track, site, sector).pack()
        } else {
            let spot = g.pick(&spots);
            report_anywhere(g, spot, spread, sector).pack()
        };
        batch.push(report);
    }
    let mut scene = Scene { table, sector, site, batch, rooms: [0; 5] };
    make_room(g, &mut scene);
    scene
}

/// Answers with room for everything, often exactly, often with some over.
pub fn make_room(g: &mut Generator, scene: &mut Scene) {
    for (list, room) in scene.rooms.iter_mut().enumerate() {
        let needed = if list == 4 { scene.table.len() } else { scene.batch.len() };
        *room = needed + if g.percent(50) { 0 } else { g.index(6) };
    }
}

/// A place in a list, often its last.
fn some_place(g: &mut Generator, length: usize) -> Option<usize> {
    match length {
        0 => None,
        _ if g.percent(30) => Some(length - 1),
        _ => Some(g.index(length)),
    }
}
