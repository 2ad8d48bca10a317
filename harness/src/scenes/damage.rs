//! Damage to what a sector call is lent, a kind a refusal number.

use super::{scene_of, some_place, Scene};
use crate::generator::Generator;
use crate::reference::records::{allowed_misses, MARK, WAIT};
use crate::reference::{Report, Site, Track};

/// Damage of one kind out of nine, one for each refusal number; it may be harmless now and then.
pub fn damage_scene(g: &mut Generator, scene: &mut Scene) {
    match g.between(1, 9) {
        1 => {
            if g.percent(40) {
                scene.table.clear();
            } else {
                let length = 2_001 + if g.percent(50) { 0 } else { g.index(200) };
                let slot = scene.table.first().copied().unwrap_or([0; 16]);
                scene.table.resize(length, slot);
            }
        }
        2 => scene.sector = if g.percent(50) { g.pick(&[32, 33, 63, 64, 128, 255]) } else { g.between(32, 255) as u8 },
        3 => match g.below(3) {
            0 => scene.site.range_sigma = 0,
            1 => scene.site.azimuth_sigma = 0,
            _ => scene.site = Site { range_sigma: 0, azimuth_sigma: 0 },
        },
        4 => damage_table(g, scene),
        5 => {
            let length = 101 + if g.percent(50) { 0 } else { g.index(100) };
            let report = scene.batch.first().copied().unwrap_or([0; 11]);
            scene.batch.resize(length, report);
        }
        6 => damage_report(g, scene),
        7 => move_report(g, scene),
        8 => {
            let mut due = 101 + if g.percent(50) { 0 } else { g.index(60) };
            if g.one_in(4) {
                due = 100;
            }
            let slots = due + g.index(40);
            *scene = scene_of(g, slots, due, scene.batch.len().min(100));
        }
        _ => {
            let list = g.index(5);
            let needed = if list == 4 { scene.table.len() } else { scene.batch.len() };
            if needed > 0 {
                scene.rooms[list] = if g.percent(60) { needed - 1 } else { g.index(needed) };
            }
        }
    }
}

fn damage_table(g: &mut Generator, scene: &mut Scene) {
    if scene.table.is_empty() {
        return;
    }
    let place = if g.percent(30) { scene.table.len() - 1 } else { g.index(scene.table.len()) };
    if g.one_in(8) {
        // The whole table belongs to another sector.
        scene.sector = (scene.sector + g.between(1, 31) as u8) % 32;
        return;
    }
    let slot = &mut scene.table[place];
    if g.one_in(6) {
        slot[MARK] = g.pick(&[2, 3, 128, 255]);
        return;
    }
    if g.one_in(6) {
        // Any byte at all.
        slot[g.index(16)] = g.byte();
        return;
    }
    if slot[MARK] != 1 {
        return;
    }
    let mut track = Track::unpack(slot);
    match g.below(12) {
        0 => track.range = g.pick(&[66_561, 66_562, 131_072, 16_777_216, u32::MAX]),
        1 => track.range_speed = g.pick(&[821, -821, i16::MAX, i16::MIN]),
        2 => track.azimuth_speed = g.pick(&[8_193, -8_193, i16::MAX, i16::MIN]),
        3 => track.updates = 0,
        4 => track.misses = allowed_misses(track.updates) + 1,
        5 => track.misses = g.pick(&[4, 5, 128, 255]),
        6 => track.confidence = g.pick(&[8, 9, 128, 255]),
        7 => track.quality = g.pick(&[4, 5, 128, 255]),
        8 => track.wait = if track.wait >= 15 { track.wait + 32 } else { track.wait + 64 },
        9 => track.wait = g.pick(&[47, 48, 255]),
        10 => track.wait = (track.wait + 1) % 47,
        _ => track.azimuth = track.azimuth.wrapping_add(g.pick(&[2_048, 63_488, 32_768])),
    }
    *slot = track.pack();
    debug_assert!(slot[WAIT] == track.wait);
}

fn damage_report(g: &mut Generator, scene: &mut Scene) {
    let Some(place) = some_place(g, scene.batch.len()) else { return };
    let mut report = Report::unpack(&scene.batch[place]);
    match g.below(7) {
        0 => report.range = g.pick(&[66_561, 66_562, 131_072, 16_777_216, u32::MAX]),
        1 => report.confidence = g.pick(&[8, 9, 128, 255]),
        2 => report.quality = g.pick(&[4, 5, 128, 255]),
        3 => report.degraded = g.pick(&[2, 3, 128, 255]),
        4 => report.high = g.pick(&[180, 181, 255]),
        5 => report.low = g.pick(&[140, 141, 179, 255]),
        _ => {
            scene.batch[place][g.index(11)] = g.byte();
            return;
        }
    }
    scene.batch[place] = report.pack();
}

fn move_report(g: &mut Generator, scene: &mut Scene) {
    let Some(place) = some_place(g, scene.batch.len()) else { return };
    let mut report = Report::unpack(&scene.batch[place]);
    let first = scene.sector as u16 % 32 * 2_048;
    report.azimuth = match g.below(4) {
        0 => first.wrapping_sub(1),
        1 => first.wrapping_add(2_048),
        2 => report.azimuth.wrapping_add(32_768),
        _ => g.draw() as u16,
    };
    scene.batch[place] = report.pack();
}
