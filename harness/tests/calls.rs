//! Sector calls of the reference against 01 written down sentence by sentence, and what must hold along a chain.

mod common;

use common::{serve, Answer};
use harness::generator::Generator;
use harness::reference::pairing::{check_pairing, worth, NONE};
use harness::reference::*;
use harness::scenes::*;

/// n / d with halves away from zero, from the remainder.
fn nearest(n: i64, d: i64) -> i64 {
    let whole = n.div_euclid(d);
    let rest = n.rem_euclid(d);
    if 2 * rest > d || (2 * rest == d && n > 0) {
        whole + 1
    } else {
        whole
    }
}

/// What becomes of the table, by the sentences of "After pairing", from a pairing of slots.
fn table_by_the_book(scene: &Scene, fates: &[u8], slots: &[u16]) -> Vec<SlotBytes> {
    let sector = scene.sector as i64;
    let wait_for = |azimuth: u16| (16..=47i64).find(|j| (sector + j) % 32 == azimuth as i64 / 2_048).unwrap() as u8 - 1;
    let mut table = scene.table.clone();
    for (place, slot) in table.iter_mut().enumerate() {
        if slot[15] == 0 {
            continue;
        }
        let mut track = Track::unpack(slot);
        if track.wait != 0 {
            slot[14] -= 1;
            continue;
        }
        let paired = (0..fates.len()).find(|&k| fates[k] == PAIRED && slots[k] as usize == place);
        let allowed = match track.updates {
            1 => 0,
            2 | 3 => 1,
            4..=7 => 2,
            _ => 3,
        };
        if let Some(k) = paired {
            let report = Report::unpack(&scene.batch[k]);
            let (a, b) = settling::gains(track.updates, &report);
            let f = track.misses as i64 + 1;
            let dr = track.range as i64 - report.range as i64;
            let da = (track.azimuth as i64 - report.azimuth as i64 + 32_768).rem_euclid(65_536) - 32_768;
            let speed = (track.range_speed as i64 - nearest(b as i64 * dr, 10 * f)).clamp(-820, 820);
            let smoothed = (track.range as i64 - nearest(a as i64 * dr, 10)).clamp(0, 66_560);
            track.range = (smoothed + speed).clamp(0, 66_560) as u32;
            track.range_speed = speed as i16;
            let speed = (track.azimuth_speed as i64 - nearest(b as i64 * da, 10 * f)).clamp(-8_192, 8_192);
            let smoothed = track.azimuth as i64 - nearest(a as i64 * da, 10);
            track.azimuth = (smoothed + speed).rem_euclid(65_536) as u16;
            track.azimuth_speed = speed as i16;
            track.updates = (track.updates as u32 + 1).min(255) as u8;
            track.misses = 0;
            track.confidence = report.confidence;
            track.quality = report.quality;
        } else if track.misses + 1 > allowed {
            *slot = [0; 16];
            continue;
        } else {
            track.misses += 1;
            track.range = (track.range as i64 + track.range_speed as i64).clamp(0, 66_560) as u32;
            track.azimuth = (track.azimuth as i64 + track.azimuth_speed as i64).rem_euclid(65_536) as u16;
        }
        track.wait = wait_for(track.azimuth);
        *slot = track.pack();
    }
    for bytes in scene.batch.iter().zip(fates).filter(|pair| *pair.1 != PAIRED).map(|pair| pair.0) {
        let report = Report::unpack(bytes);
        if report.confidence < 3 || report.quality < 2 || report.degraded == 1 {
            continue;
        }
        if let Some(slot) = table.iter_mut().find(|slot| slot[15] == 0) {
            *slot = Track {
                range: report.range,
                azimuth: report.azimuth,
                range_speed: 0,
                azimuth_speed: 0,
                updates: 1,
                misses: 0,
                confidence: report.confidence,
                quality: report.quality,
                wait: wait_for(report.azimuth),
            }
            .pack();
        }
    }
    table
}

/// Judges an answer and a table after by the book.
fn judge(scene: &Scene, after: &[SlotBytes], answer: &Answer) {
    let held = |table: &[SlotBytes]| table.iter().filter(|slot| slot[15] == 1).count();
    let (due, _) = intake(&scene.table, scene.sector, scene.site, &scene.batch).unwrap_or_else(|_| panic!());
    let mut sheet = vec![0; due.count * scene.batch.len()];
    score_sheet(&scene.table, scene.sector, scene.site, &scene.batch, &mut sheet).unwrap();
    let mut pairing = vec![NONE; due.count];
    for (report, &fate) in answer.fates.iter().enumerate() {
        if fate == PAIRED {
            let row = due.slots().iter().position(|&slot| slot == answer.slots[report]).unwrap();
            assert_eq!(pairing[row], NONE);
            pairing[row] = report as u32;
        }
    }
    let prices: Vec<u32> = due.slots().iter().map(|&slot| answer.prices[slot as usize]).collect();
    assert_eq!(check_pairing(due.count, scene.batch.len(), &sheet, &pairing, &prices, &answer.discounts), 0);
    assert_eq!(answer.prices.iter().map(|&p| p as u64).sum::<u64>(), prices.iter().map(|&p| p as u64).sum::<u64>());
    assert_eq!(after, table_by_the_book(scene, &answer.fates, &answer.slots));

    let counts = answer.counts.unwrap();
    let fate_count = |fate: u8| answer.fates.iter().filter(|&&f| f == fate).count() as u32;
    assert_eq!(counts.paired, fate_count(PAIRED));
    assert_eq!(counts.started, fate_count(STARTED));
    assert_eq!(counts.weak, fate_count(WEAK));
    assert_eq!(counts.full, fate_count(FULL));
    assert_eq!((counts.paired + counts.started + counts.weak + counts.full) as usize, scene.batch.len());
    assert_eq!((counts.paired + counts.coasted + counts.dropped) as usize, due.count);
    assert_eq!(held(after) + counts.dropped as usize, held(&scene.table) + counts.started as usize);
    assert_eq!(worth(scene.batch.len(), &sheet, &pairing), (counts.paired as usize, counts.score_sum as u64));
    for (report, &fate) in answer.fates.iter().enumerate() {
        let slot = answer.slots[report];
        assert_eq!(fate == PAIRED || fate == STARTED, slot != NO_SLOT);
        let shown = fate == PAIRED && after[slot as usize][10] >= 3;
        assert_eq!(answer.shown[report], shown as u8);
        if fate == STARTED {
            assert_eq!(after[slot as usize][..6], scene.batch[report][..6]);
        }
    }
}

#[test]
fn calls_by_the_book() {
    let mut g = Generator::new(5);
    for _ in 0..6_000 {
        let scene = some_scene(&mut g);
        let (mut table, mut sector) = (scene.table.clone(), scene.sector);
        let answer = serve(&mut table, &mut sector, scene.site, &scene.batch);
        assert_eq!(sector, (scene.sector + 1) % 32);
        judge(&scene, &table, &answer);
    }
}

#[test]
fn chains_by_the_book() {
    let mut g = Generator::new(6);
    let (mut paired, mut shown, mut oldest) = (0, 0, 0);
    for _ in 0..60 {
        let site = some_site(&mut g);
        let mut sky = Sky::new(&mut g, site);
        let mut table = vec![[0; 16]; g.between(1, 60) as usize];
        let mut sector = g.between(0, 31) as u8;
        // The call at which each slot is served next, as the wait says when it was last set.
        let mut next_due: Vec<Option<u64>> = vec![None; table.len()];
        for call in 0..400 {
            let batch = sky.look(&mut g, call, sector);
            let scene = Scene { table: table.clone(), sector, site, batch, rooms: [0; 5] };
            let answer = serve(&mut table, &mut sector, site, &scene.batch);
            judge(&scene, &table, &answer);
            paired += answer.counts.unwrap().paired;
            shown += answer.shown.iter().map(|&s| s as u32).sum::<u32>();
            for (place, due_call) in next_due.iter_mut().enumerate() {
                let (before, after) = (scene.table[place], table[place]);
                if before[15] == 1 && before[14] != 0 {
                    // Waiting: its bytes stay, but for the wait.
                    assert!(due_call.is_some_and(|due| due > call) && before[..14] == after[..14]);
                    continue;
                }
                assert!(before[15] == 0 || *due_call == Some(call));
                *due_call = None;
                if after[15] == 1 {
                    oldest = oldest.max(after[10]);
                    let ahead = after[14] as u64 + 1;
                    assert!((16..=47).contains(&ahead));
                    *due_call = Some(call + ahead);
                }
            }
        }
    }
    assert!(paired > 2_000 && shown > 1_000 && oldest > 8, "{paired} {shown} {oldest}");
}

/// Damage is refused by the first rule that applies, and nothing changes.
#[test]
fn damage_is_refused_without_a_trace() {
    let mut g = Generator::new(7);
    let mut seen = [0; 10];
    for _ in 0..8_000 {
        let mut scene = some_scene(&mut g);
        for _ in 0..g.between(1, 3) {
            damage_scene(&mut g, &mut scene);
        }
        let (mut table, mut sector) = (scene.table.clone(), scene.sector);
        let rooms = scene.rooms;
        let (mut fates, mut slots, mut shown) = (vec![0xee; rooms[0]], vec![0xeeee; rooms[1]], vec![0xee; rooms[2]]);
        let (mut discounts, mut prices) = (vec![0xeeee_eeee; rooms[3]], vec![0xeeee_eeee; rooms[4]]);
        let answers = Answers {
            fates: &mut fates,
            slots: &mut slots,
            shown: &mut shown,
            discounts: &mut discounts,
            prices: &mut prices,
        };
        let answer = serve_sector(&mut table, &mut sector, scene.site, &scene.batch, answers);
        assert_eq!(answer.err().unwrap_or(0), refusal_by_the_book(&scene));
        seen[answer.err().unwrap_or(0) as usize] += 1;
        if answer.is_err() {
            assert!(table == scene.table && sector == scene.sector);
            assert!(fates.iter().chain(&shown).all(|&b| b == 0xee) && slots.iter().all(|&b| b == 0xeeee));
            assert!(discounts.iter().chain(&prices).all(|&b| b == 0xeeee_eeee));
        }
    }
    assert!(seen.iter().all(|&count| count > 50), "{seen:?}");
}

/// The table of refusals, each line alone.
fn refusal_by_the_book(scene: &Scene) -> u8 {
    let held: Vec<Track> = scene.table.iter().filter(|slot| slot[15] == 1).map(Track::unpack).collect();
    let reports: Vec<Report> = scene.batch.iter().map(Report::unpack).collect();
    let malformed = |track: &Track| {
        let allowed = [0, 0, 1, 1, 2, 2, 2, 2].get(track.updates as usize).copied().unwrap_or(3);
        track.range > 66_560
            || !(-820..=820).contains(&track.range_speed)
            || !(-8_192..=8_192).contains(&track.azimuth_speed)
            || track.updates == 0
            || track.misses > allowed
            || track.confidence > 7
            || track.quality > 3
            || track.wait > 46
            || (scene.sector as u32 + track.wait as u32) % 32 != track.azimuth as u32 / 2_048
    };
    let out_of_range = |report: &Report| {
        report.range > 66_560
            || report.confidence > 7
            || report.quality > 3
            || report.degraded > 1
            || report.high > 179
            || report.low > 139
    };
    let wrong = [
        scene.table.is_empty() || scene.table.len() > 2_000,
        scene.sector > 31,
        scene.site.range_sigma == 0 || scene.site.azimuth_sigma == 0,
        scene.table.iter().any(|slot| slot[15] > 1) || held.iter().any(malformed),
        scene.batch.len() > 100,
        reports.iter().any(out_of_range),
        reports.iter().any(|report| report.azimuth / 2_048 != scene.sector as u16),
        held.iter().filter(|track| track.wait == 0).count() > 100,
        scene.rooms[..4].iter().any(|&room| room < scene.batch.len()) || scene.rooms[4] < scene.table.len(),
    ];
    wrong.iter().position(|&w| w).map_or(0, |place| place as u8 + 1)
}
