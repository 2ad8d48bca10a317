//! Document 01's examples of whole calls and files, and the refusals in their order, against the reference.

mod common;

use common::{old_track, serve, SITE};
use harness::reference::settling::calls_ahead;
use harness::reference::*;

#[test]
fn waits() {
    assert_eq!([15, 16, 31, 0].map(|sector: u16| calls_ahead(0, sector * 2_048)), [47, 16, 31, 32]);
    for sector in 0..32u8 {
        for predicted in 0..32u8 {
            let j = calls_ahead(sector, predicted as u16 * 2_048 + 2_047);
            assert!((16..=47).contains(&j) && (sector + j) % 32 == predicted);
        }
    }
}

fn scn(sigmas: [u8; 2], batches: &[&[ReportBytes]]) -> Vec<u8> {
    let mut file = b"SCN\x01\x00".to_vec();
    file.extend(sigmas);
    for batch in batches {
        file.push(batch.len() as u8);
        batch.iter().for_each(|report| file.extend(report));
    }
    file
}

fn report(range: u32, azimuth: u16, rest: [u8; 5]) -> ReportBytes {
    let [confidence, quality, degraded, high, low] = rest;
    Report { range, azimuth, confidence, quality, degraded, high, low }.pack()
}

#[test]
fn the_62_bytes() {
    let first = [report(10_000, 1_000, [5, 3, 0, 0, 0])];
    let second = [report(9_700, 1_000, [5, 3, 0, 60, 120])];
    let mut batches: Vec<&[ReportBytes]> = vec![&[]; 33];
    batches[0] = &first;
    batches[32] = &second;
    let file = scn([16, 16], &batches);
    assert_eq!(file.len(), 62);
    assert_eq!(plotrun(&file), "SCN 1\n0 0 0 0 1 0 0 0\n0 1 0 0 0 0 0 1611360\nend\n");
}

#[test]
fn plotrun_endings() {
    let one = [report(10_000, 1_000, [5, 3, 0, 0, 0])];
    let astray = [report(10_000, 2_048, [5, 3, 0, 0, 0])];
    assert_eq!(plotrun(b""), "bad header\n");
    assert_eq!(plotrun(b"SCN\x01\x00\x10"), "bad header\n");
    assert_eq!(plotrun(b"SCM\x01\x00\x10\x10"), "bad header\n");
    assert_eq!(plotrun(b"SCN\x02\x00\x10\x10"), "bad header\n");
    assert_eq!(plotrun(b"SCN\x01\x01\x10\x10"), "bad header\n");
    assert_eq!(plotrun(&scn([16, 16], &[])), "SCN 1\nend\n");
    assert_eq!(plotrun(&scn([0, 16], &[])), "SCN 1\nend\n");
    assert_eq!(plotrun(&scn([0, 16], &[&[]])), "SCN 1\nrefused 3\n");
    assert_eq!(plotrun(&scn([16, 16], &[&[], &one])), "SCN 1\nrefused 7\n");
    assert_eq!(plotrun(&scn([16, 16], &[&astray])), "SCN 1\nrefused 7\n");
    assert_eq!(plotrun(&scn([16, 16], &[&one])), "SCN 1\n0 0 0 0 1 0 0 0\nend\n");
    let file = scn([16, 16], &[&one]);
    assert_eq!(plotrun(&file[..file.len() - 1]), "SCN 1\ncut\n");
    assert_eq!(plotrun(&file[..8]), "SCN 1\ncut\n");
    let many = vec![one[0]; 101];
    let file = scn([16, 16], &[&many]);
    assert_eq!(plotrun(&file), "SCN 1\nrefused 5\n");
    assert_eq!(plotrun(&file[..file.len() - 1]), "SCN 1\ncut\n");
}

/// One of everything that is wrong at once: mending the first shows the next.
#[test]
fn refusals_in_order() {
    let good_slot = old_track().pack();
    let bad_slot = Track { confidence: 8, ..old_track() }.pack();
    let good = report(10_000, 1_000, [5, 3, 0, 0, 0]);
    let bad_field = report(66_561, 1_000, [5, 3, 0, 0, 0]);
    let astray = report(10_000, 3_000, [5, 3, 0, 0, 0]);
    let no_sigma = Site { range_sigma: 16, azimuth_sigma: 0 };

    let many_bad = vec![bad_slot; 2_001];
    let due_bad = {
        let mut t = vec![good_slot; 101];
        t[100] = bad_slot;
        t
    };
    let due_good = vec![good_slot; 101];
    let too_many = {
        let mut b = vec![good; 101];
        b[100] = bad_field;
        b
    };
    let mut wrong_both = vec![astray; 2];
    wrong_both[1] = bad_field;
    let cases: [(&[SlotBytes], u8, Site, &[ReportBytes], u8); 9] = [
        (&[], 32, no_sigma, &too_many, 1),
        (&many_bad, 32, no_sigma, &too_many, 1),
        (&due_bad, 32, no_sigma, &too_many, 2),
        (&due_bad, 0, no_sigma, &too_many, 3),
        (&due_bad, 0, SITE, &too_many, 4),
        (&due_good, 0, SITE, &too_many, 5),
        (&due_good, 0, SITE, &wrong_both, 6),
        (&due_good, 0, SITE, &wrong_both[..1], 7),
        (&due_good, 0, SITE, &[good], 8),
    ];
    for (table, sector, site, batch, number) in cases {
        let (mut after, mut after_sector) = (table.to_vec(), sector);
        let short = Answers { fates: &mut [], slots: &mut [], shown: &mut [], discounts: &mut [], prices: &mut [] };
        assert_eq!(serve_sector(&mut after, &mut after_sector, site, batch, short), Err(number));
        assert_eq!((after.as_slice(), after_sector), (table, sector));
        assert_eq!(score_sheet(table, sector, site, batch, &mut []), Err(number));
    }
    // 9: each list one short, in turn.
    let table = vec![good_slot; 3];
    for list in 0..6 {
        let mut room = [2, 2, 2, 2, 3];
        if list < 5 {
            room[list] -= 1;
        }
        let (mut after, mut sector) = (table.clone(), 0);
        let answers = Answers {
            fates: &mut vec![0; room[0]],
            slots: &mut vec![0; room[1]],
            shown: &mut vec![0; room[2]],
            discounts: &mut vec![0; room[3]],
            prices: &mut vec![0; room[4]],
        };
        let answer = serve_sector(&mut after, &mut sector, SITE, &[good; 2], answers);
        assert_eq!(answer.err(), if list < 5 { Some(9) } else { None });
        assert_eq!(after == table, list < 5);
    }
    assert_eq!(score_sheet(&table, 0, SITE, &[good; 2], &mut [0; 5]), Err(9));
    assert_eq!(score_sheet(&table, 0, SITE, &[good; 2], &mut [0; 6]), Ok((3, 2)));
}

#[test]
fn malformed_tracks() {
    let good = Track { wait: 3, azimuth: 3 * 2_048, ..old_track() };
    assert!(good.well_formed(0) && !good.well_formed(1));
    let lap = Track { wait: 35, ..good };
    assert!(lap.well_formed(0));
    let at_sector_31 = Track { wait: 4, ..good };
    assert!(at_sector_31.well_formed(31));
    let bad = [
        Track { range: 66_561, ..good },
        Track { range_speed: 821, ..good },
        Track { range_speed: -821, ..good },
        Track { azimuth_speed: 8_193, ..good },
        Track { azimuth_speed: -8_193, ..good },
        Track { updates: 0, ..good },
        Track { updates: 1, misses: 1, ..good },
        Track { updates: 3, misses: 2, ..good },
        Track { updates: 7, misses: 3, ..good },
        Track { misses: 4, ..good },
        Track { confidence: 8, ..good },
        Track { quality: 4, ..good },
        Track { wait: 47, azimuth: 15 * 2_048, ..good },
        Track { wait: 67, ..good },
        Track { wait: 4, ..good },
        Track { azimuth: 4 * 2_048, ..good },
    ];
    assert!(bad.iter().all(|track| !track.well_formed(0)));
    let edges = [
        Track { range: 66_560, range_speed: 820, azimuth_speed: -8_192, updates: 255, misses: 3, ..good },
        Track { range: 0, range_speed: -820, azimuth_speed: 8_192, confidence: 7, quality: 0, ..good },
        Track { wait: 46, azimuth: 14 * 2_048, ..good },
    ];
    assert!(edges.iter().all(|track| track.well_formed(0)));
}

/// A whole answer by hand: one paired and shown, one coasting, one dropped whose slot is taken again.
#[test]
fn one_call_by_hand() {
    let shown = Track { updates: 2, ..old_track() };
    let new = Track { updates: 1, range: 40_000, ..old_track() };
    let coasting = Track { range: 50_000, azimuth_speed: 2_000, ..old_track() };
    let other = Track { wait: 7, azimuth: 7 * 2_048, ..old_track() };
    let mut junk = [0xaa; 16];
    junk[15] = 0;
    let mut table = [new.pack(), shown.pack(), other.pack(), coasting.pack(), junk];
    let mut sector = 0;
    let weak = report(20_000, 100, [2, 3, 0, 0, 0]);
    let fresh = report(30_000, 200, [3, 2, 0, 9, 9]);
    let hit = report(10_000, 1_000, [5, 3, 0, 0, 0]);
    let answer = serve(&mut table, &mut sector, SITE, &[weak, fresh, hit, fresh, fresh]);
    let counts = answer.counts.unwrap();
    assert_eq!(counts.list(), [1, 1, 1, 2, 1, 1, 3 * 262_144 + 4 * 8]);
    assert_eq!(answer.fates, [WEAK, STARTED, PAIRED, STARTED, FULL]);
    assert_eq!(answer.slots, [NO_SLOT, 0, 1, 4, NO_SLOT]);
    assert_eq!(answer.shown, [0, 0, 1, 0, 0]);
    assert_eq!(answer.discounts, [0; 5]);
    assert_eq!(answer.prices, [LEFT_OUT, counts.score_sum, 0, LEFT_OUT, 0]);
    assert_eq!(sector, 1);
    let started =
        Track { range: 30_000, azimuth: 200, updates: 1, confidence: 3, quality: 2, wait: 31, ..Track::default() };
    assert_eq!(table[0], started.pack());
    assert_eq!(table[1], Track { updates: 3, wait: 31, ..shown }.pack());
    assert_eq!(table[2], Track { wait: 6, ..other }.pack());
    assert_eq!(table[3], Track { azimuth: 3_000, misses: 1, wait: 32, ..coasting }.pack());
    assert_eq!(table[4], started.pack());
}

#[test]
fn an_empty_batch_is_served() {
    let mut table = [old_track().pack(), Track { misses: 3, ..old_track() }.pack(), [0; 16]];
    let mut sector = 31;
    assert_eq!(serve(&mut table, &mut sector, SITE, &[]).counts, Err(4));
    sector = 0;
    let answer = serve(&mut table, &mut sector, SITE, &[]);
    assert_eq!(answer.counts.unwrap().list(), [0, 1, 1, 0, 0, 0, 0]);
    assert_eq!(answer.prices, [LEFT_OUT, LEFT_OUT, 0]);
    assert_eq!(table[1], [0; 16]);
    let mut empty = [[0; 16]];
    sector = 31;
    assert_eq!(serve(&mut empty, &mut sector, SITE, &[]).counts.unwrap(), Counts::default());
    assert_eq!(sector, 0);
}
