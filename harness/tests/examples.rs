//! Document 01's examples and numbers, against the reference.

mod common;

use common::{old_track, SITE};
use harness::reference::pairing::{check_pairing, pair_sheet, LEFT_OUT, NONE};
use harness::reference::records::{allowed_misses, azimuth_difference};
use harness::reference::scoring::{position, score};
use harness::reference::settling::{coasted, gains, rounded, updated};
use harness::reference::*;

/// A report `dr` and `da` short of the track, Doppler for speed 0.
fn report_at(track: &Track, dr: i32, da: i32) -> Report {
    Report {
        range: (track.range as i32 - dr) as u32,
        azimuth: track.azimuth.wrapping_sub(da as u16),
        confidence: 5,
        quality: 3,
        degraded: 0,
        high: 0,
        low: 0,
    }
}

#[test]
fn azimuth_differences() {
    assert_eq!(azimuth_difference(0, 65_535), 1);
    assert_eq!(azimuth_difference(32_768, 0), -32_768);
    assert_eq!(azimuth_difference(32_767, 0), 32_767);
}

#[test]
fn positions() {
    let cases = [(0, 0, 0), (1, 0, 0), (2, 0, 1), (48, 64, 20), (2_041, 0, 510), (2_042, 0, 511), (2_046, 0, 511)];
    for (dr, da, s) in cases {
        assert_eq!(position(dr, da, SITE), s, "({dr},{da})");
    }
}

#[test]
fn zones() {
    let track = old_track();
    let zone = |dr| match score(&track, &report_at(&track, dr, 0), SITE) {
        NONE => NONE,
        score => score / 262_144,
    };
    assert_eq!([zone(64), zone(65), zone(128), zone(129)], [3, 6, 6, NONE]);
    assert_eq!([zone(-64), zone(-65), zone(-128), zone(-129)], [3, 6, 6, NONE]);
}

#[test]
fn zone_grows_with_misses() {
    let track = Track { misses: 3, ..old_track() };
    assert_ne!(score(&track, &report_at(&track, 20 * 16, 0), SITE), NONE);
    assert_eq!(score(&track, &report_at(&track, 20 * 16 + 1, 0), SITE), NONE);
}

#[test]
fn zone_of_a_new_track() {
    let track = Track { updates: 1, ..old_track() };
    // 8,552,910 / 10,000 rounded down is 855.
    assert_ne!(score(&track, &report_at(&track, 820, 855), SITE), NONE);
    assert_eq!(score(&track, &report_at(&track, 821, 0), SITE), NONE);
    assert_eq!(score(&track, &report_at(&track, 0, 856), SITE), NONE);
    let near = Track { range: 0, azimuth: 20_000, updates: 1, ..old_track() };
    let there = Report { range: 0, ..report_at(&near, 0, 8_192) };
    assert_ne!(score(&near, &there, SITE), NONE);
    let beyond = Report { range: 0, ..report_at(&near, 0, 8_193) };
    assert_eq!(score(&near, &beyond, SITE), NONE);
}

#[test]
fn inner_zone_may_reach_beyond_a_new_tracks_outer_zone() {
    // 4 x 255 range units against 820.
    let track = Track { updates: 1, ..old_track() };
    let wide = Site { range_sigma: 255, azimuth_sigma: 16 };
    assert_eq!(score(&track, &report_at(&track, 1_020, 64), wide) / 262_144, 3);
    assert_eq!(score(&track, &report_at(&track, 1_020, 65), wide), NONE);
    assert_eq!(score(&track, &report_at(&track, 820, 65), wide) / 262_144, 6);
}

#[test]
fn whole_score() {
    let track = old_track();
    assert_eq!(score(&track, &report_at(&track, 48, 64), SITE), 796_672);
}

#[test]
fn doppler() {
    let agrees = |speed: i16, report: Report| {
        let track = Track { range_speed: speed, ..old_track() };
        let score = score(&track, &Report { range: 10_000, azimuth: 1_000, ..report }, SITE);
        score / 64 % 8 == 0
    };
    let report = report_at(&old_track(), 0, 0);
    assert!(agrees(-300, Report { high: 60, low: 120, ..report }));
    assert!(agrees(-300, Report { high: 72, low: 108, ..report }));
    assert!(!agrees(-300, Report { high: 73, low: 120, ..report }));
    assert!(!agrees(-300, Report { high: 60, low: 107, ..report }));
    assert!(agrees(5, Report { high: 173, low: 5, ..report }));
    assert!(!agrees(5, Report { high: 172, low: 5, ..report }));
    assert!(!agrees(5, Report { high: 5, low: 5, degraded: 1, ..report }));
    assert!(!agrees(5, Report { high: 5, low: 5, confidence: 2, ..report }));
    assert!(!agrees(5, Report { high: 5, low: 5, quality: 1, ..report }));
    assert!(agrees(5, Report { high: 5, low: 5, confidence: 3, quality: 2, ..report }));
}

#[test]
fn age_and_trust() {
    let digits = |track: Track, confidence: u8, quality: u8| {
        let report = Report { confidence, quality, ..report_at(&track, 0, 0) };
        score(&track, &report, SITE) % 64
    };
    let aged = |updates: u8, misses: u8| Track { updates, misses, ..old_track() };
    assert_eq!([8, 7, 4, 3, 2, 1, 255].map(|updates| digits(aged(updates, 0), 5, 3) / 8), [0, 2, 2, 4, 4, 4, 0]);
    assert_eq!([8, 7, 3].map(|updates| digits(aged(updates, 1), 5, 3) / 8), [1, 3, 5]);
    let trusted = |confidence: u8, quality: u8| Track { confidence, quality, ..old_track() };
    assert_eq!(digits(trusted(3, 2), 3, 2), 0);
    assert_eq!(digits(trusted(2, 2), 3, 2), 1);
    assert_eq!(digits(trusted(3, 2), 2, 2), 2);
    assert_eq!(digits(trusted(2, 2), 2, 2), 3);
    assert_eq!(digits(trusted(3, 1), 3, 2), 1);
    assert_eq!(digits(trusted(3, 2), 3, 1), 1);
    assert_eq!(digits(trusted(3, 1), 3, 1), 2);
    assert_eq!(digits(trusted(2, 1), 2, 1), 5);
}

#[test]
fn rounding() {
    assert_eq!(rounded(3 * 5, 10), 2);
    assert_eq!(rounded(3 * -5, 10), -2);
    assert_eq!([14, 15, 16, -14, -15, -16, 0].map(|n| rounded(n, 10)), [1, 2, 2, -1, -2, -2, 0]);
    assert_eq!([44, 45, 60, -60, 61].map(|n| rounded(n, 30)), [1, 2, 2, -2, 2]);
}

#[test]
fn allowances() {
    let allowed: Vec<u8> = (1..=9).map(allowed_misses).collect();
    assert_eq!(allowed, [0, 1, 1, 2, 2, 2, 2, 3, 3]);
    assert_eq!(allowed_misses(255), 3);
}

#[test]
fn gain_tables() {
    let rows = [
        ([6, 6, 6, 6, 6, 6, 6, 10], [3, 3, 3, 3, 3, 3, 3, 10]),
        ([6, 6, 6, 9, 9, 9, 9, 10], [3, 3, 3, 7, 6, 7, 7, 10]),
        ([6, 6, 6, 10, 9, 10, 10, 10], [3, 3, 3, 9, 6, 9, 9, 10]),
        ([6, 6, 6, 10, 9, 10, 10, 10], [3, 3, 3, 9, 6, 9, 9, 10]),
    ];
    for (quality, (a, b)) in rows.iter().enumerate() {
        for confidence in 0..8 {
            let report = Report { confidence: confidence as u8, quality: quality as u8, ..Report::default() };
            let degraded = Report { degraded: 1, ..report };
            assert_eq!(gains(2, &report), (a[confidence], b[confidence]));
            assert_eq!(gains(255, &degraded), (6, 3));
            assert_eq!(gains(1, &report), (10, 10));
            assert_eq!(gains(1, &degraded), (10, 10));
        }
    }
}

#[test]
fn update_by_hand() {
    // a 9, b 6 (confidence 4, quality 2); one miss, so f is 2.
    let track = Track {
        range: 1_000,
        azimuth: 10,
        range_speed: 100,
        azimuth_speed: -50,
        updates: 5,
        misses: 1,
        confidence: 1,
        quality: 1,
        wait: 0,
    };
    let report = Report { range: 975, azimuth: 65_531, confidence: 4, quality: 2, degraded: 0, high: 0, low: 0 };
    // D 25: speed less 150/20 = 7.5, up to 8; smoothed less 22.5, up to 23.
    // D 15: speed less 90/20 = 4.5, up to 5; smoothed less 13.5, up to 14.
    let after = updated(&track, &report);
    assert_eq!((after.range_speed, after.range), (92, 1_000 - 23 + 92));
    assert_eq!((after.azimuth_speed, after.azimuth), (-55, 10u16.wrapping_sub(14 + 55)));
    assert_eq!((after.updates, after.misses, after.confidence, after.quality), (6, 0, 4, 2));
}

#[test]
fn held_and_wrapped() {
    let track = Track { range: 66_000, azimuth: 65_000, range_speed: 820, azimuth_speed: 8_192, ..old_track() };
    let report = Report { range: 66_560, azimuth: 65_500, confidence: 7, ..Report::default() };
    let after = updated(&track, &report);
    assert_eq!((after.range, after.range_speed), (66_560, 820));
    assert_eq!((after.azimuth, after.azimuth_speed), (65_500u16.wrapping_add(8_192), 8_192));
    let closing = Track { range: 100, range_speed: -820, azimuth: 5, azimuth_speed: -10, ..old_track() };
    let after = coasted(&closing).unwrap();
    assert_eq!((after.range, after.azimuth, after.misses, after.updates), (0, 65_531, 1, 8));
    assert_eq!(updated(&Track { updates: 255, ..old_track() }, &report).updates, 255);
    assert!(coasted(&Track { misses: 3, ..old_track() }).is_none());
    assert!(coasted(&Track { updates: 1, ..old_track() }).is_none());
}

#[test]
fn pairing_of_two() {
    let sheet = [10, 20, 12, NONE];
    let (mut pairing, mut prices, mut discounts) = ([9; 2], [9; 2], [9; 2]);
    assert_eq!(pair_sheet(2, 2, &sheet, &mut pairing, &mut prices, &mut discounts), 0);
    assert_eq!(pairing, [1, 0]);
    assert_eq!(pairing::worth(2, &sheet, &pairing), (2, 32));
    assert_eq!(check_pairing(2, 2, &sheet, &pairing, &prices, &discounts), 0);
    assert_eq!(check_pairing(2, 2, &sheet, &pairing, &[20, 22], &[10, 0]), 0);
}

#[test]
fn one_track_no_report() {
    let (mut pairing, mut prices, mut discounts) = ([9; 2], [9; 2], [9; 1]);
    assert_eq!(pair_sheet(1, 0, &[], &mut pairing, &mut prices, &mut discounts), 0);
    assert_eq!((pairing, prices, discounts), ([NONE, 9], [268_435_456, 9], [9]));
    assert_eq!(check_pairing(1, 0, &[], &[NONE], &[LEFT_OUT], &[]), 0);
}

#[test]
fn no_track() {
    let mut discounts = [9; 3];
    assert_eq!(pair_sheet(0, 2, &[], &mut [], &mut [], &mut discounts), 0);
    assert_eq!(discounts, [0, 0, 9]);
    assert_eq!(check_pairing(0, 0, &[], &[], &[], &[]), 0);
    assert_eq!(check_pairing(0, 1, &[], &[], &[], &[1]), 26);
}

#[test]
fn answers_of_the_check_in_order() {
    let sheet = [10, 20, 12, NONE];
    let check = |sheet: &[u32], pairing: &[u32], prices: &[u32], discounts: &[u32]| {
        check_pairing(2, 2, sheet, pairing, prices, discounts)
    };
    assert_eq!(check(&sheet, &[1, 0], &[20, 22], &[10, 0]), 0);
    assert_eq!(check(&[10, 20, 12, NONE, 77], &[1, 0, 5], &[20, 22, NONE], &[10, 0, NONE]), 0);
    assert_eq!(check_pairing(101, 0, &[], &[NONE; 101], &[LEFT_OUT; 101], &[]), 21);
    assert_eq!(check_pairing(0, 101, &[], &[], &[], &[0; 101]), 21);
    assert_eq!(check_pairing(usize::MAX, usize::MAX, &[], &[], &[], &[]), 21);
    assert_eq!(check(&sheet[..3], &[1, 0], &[20, 22], &[10, 0]), 21);
    assert_eq!(check(&sheet, &[1], &[20, 22], &[10, 0]), 21);
    assert_eq!(check(&sheet, &[1, 0], &[20], &[10, 0]), 21);
    assert_eq!(check(&sheet, &[1, 0], &[20, 22], &[10]), 21);
    assert_eq!(check(&[10, 20, 12, NONE - 1], &[7, 7], &[NONE, 22], &[10, 0]), 22);
    assert_eq!(check(&[10, 20, 12, 2_097_152], &[1, 0], &[20, 22], &[10, 0]), 22);
    assert_eq!(check(&[10, 20, 12, 2_097_151], &[1, 0], &[20, 22], &[10, 0]), 0);
    assert_eq!(check(&sheet, &[2, 0], &[NONE, 22], &[10, 0]), 23);
    assert_eq!(check(&sheet, &[0, 0], &[NONE, 22], &[10, 0]), 23);
    assert_eq!(check(&sheet, &[0, 1], &[NONE, 22], &[10, 0]), 23);
    assert_eq!(check(&sheet, &[1, 0], &[20, LEFT_OUT + 1], &[10, 0]), 24);
    assert_eq!(check(&sheet, &[1, 0], &[20, 22], &[10, LEFT_OUT + 1]), 24);
    assert_eq!(check(&sheet, &[1, 0], &[21, 22], &[10, 0]), 25);
    assert_eq!(check(&sheet, &[1, 0], &[20, 21], &[10, 0]), 26);
    assert_eq!(check(&sheet, &[0, NONE], &[20, 22], &[10, 0]), 26);
    // Leaving a track out is dear: the total of one pair and one left out is far above 32.
    assert_eq!(check(&sheet, &[0, NONE], &[10, LEFT_OUT], &[0, 0]), 25);
}
