//! The score of a pair: zone, position, Doppler, age, trust.

use super::pairing::NONE;
use super::records::{azimuth_difference, Report, ReportBytes, Site, Track, MOST_REPORTS};

const INNER: u32 = 3 * 262_144;
const OUTER: u32 = 6 * 262_144;
const POSITION: u32 = 512;
const DOPPLER: u32 = 64;
const AGE: u32 = 8;
const MOST_POSITION: u32 = 511;

const NEW_TRACK_RANGE: i32 = 820;
const NEW_TRACK_AZIMUTH: u32 = 8_192;
const NEW_TRACK_ARC: u32 = 8_552_910;
const DOPPLER_TOLERANCE: i32 = 12;

/// The batch unpacked, with the parts of a score that rest on the report alone.
pub struct Reports {
    pub count: usize,
    list: [Report; MOST_REPORTS],
    trust: [Trust; MOST_REPORTS],
}

#[derive(Clone, Copy, Default)]
struct Trust {
    confident: bool,
    good: bool,
    weak: bool,
}

impl Reports {
    /// At most 100 reports.
    #[inline]
    pub fn unpack(batch: &[ReportBytes]) -> Reports {
        let mut reports = Reports {
            count: batch.len(),
            list: [Report::default(); MOST_REPORTS],
            trust: [Trust::default(); MOST_REPORTS],
        };
        for (place, bytes) in batch.iter().enumerate() {
            let report = Report::unpack(bytes);
            reports.list[place] = report;
            reports.trust[place] =
                Trust { confident: report.confidence >= 3, good: report.quality >= 2, weak: report.weak() };
        }
        reports
    }

    #[inline]
    pub fn all(&self) -> &[Report] {
        &self.list[..self.count]
    }
}

/// What a track expects of a report, worked out once for its row of the sheet.
pub struct Expectation {
    range: i32,
    azimuth: u16,
    inner: (i32, i32),
    outer: (i32, i32),
    either: (i32, i32),
    high: i32,
    low: i32,
    /// Age and trust by (report confident, report good), without the zone, position and Doppler.
    standing: [[u32; 2]; 2],
    range_sigma: i64,
    azimuth_sigma: i64,
    /// (range sigma x azimuth sigma)^2, and 16 over it.
    square: i64,
    scale: f64,
}

impl Expectation {
    pub fn of(track: &Track, site: Site) -> Expectation {
        let (range_sigma, azimuth_sigma) = (site.range_sigma as i32, site.azimuth_sigma as i32);
        let inner = (4 * range_sigma, 4 * azimuth_sigma);
        let outer = if track.updates > 1 {
            let sigmas = 8 + 4 * track.misses as i32;
            (sigmas * range_sigma, sigmas * azimuth_sigma)
        } else {
            (NEW_TRACK_RANGE, NEW_TRACK_AZIMUTH.min(NEW_TRACK_ARC / track.range.max(1)) as i32)
        };
        let age = match track.updates {
            8.. => 0,
            4..=7 => 2,
            _ => 4,
        } + (track.misses != 0) as u32;
        let mut standing = [[0; 2]; 2];
        for (report_confident, row) in standing.iter_mut().enumerate() {
            for (report_good, cell) in row.iter_mut().enumerate() {
                let confidence = match (report_confident == 1, track.confidence >= 3) {
                    (true, true) => 0,
                    (true, false) => 1,
                    (false, true) => 2,
                    (false, false) => 3,
                };
                let quality = 2 - report_good as u32 - (track.quality >= 2) as u32;
                *cell = age * AGE + confidence + quality;
            }
        }
        let square = ((range_sigma * azimuth_sigma) as i64).pow(2);
        Expectation {
            range: track.range as i32,
            azimuth: track.azimuth,
            inner,
            outer,
            either: (inner.0.max(outer.0), inner.1.max(outer.1)),
            high: (track.range_speed as i32).rem_euclid(180),
            low: (track.range_speed as i32).rem_euclid(140),
            standing,
            range_sigma: range_sigma as i64,
            azimuth_sigma: azimuth_sigma as i64,
            square,
            scale: 16.0 / square as f64,
        }
    }

    /// A row of the sheet.
    pub fn score_row(&self, reports: &Reports, row: &mut [u32]) {
        for ((report, trust), cell) in reports.all().iter().zip(&reports.trust).zip(row) {
            let dr = (self.range - report.range as i32).abs();
            let da = (azimuth_difference(self.azimuth, report.azimuth) as i32).abs();
            *cell = if dr > self.either.0 || da > self.either.1 { NONE } else { self.score(report, trust, dr, da) };
        }
    }

    #[inline]
    fn score(&self, report: &Report, trust: &Trust, dr: i32, da: i32) -> u32 {
        let zone = if dr <= self.inner.0 && da <= self.inner.1 {
            INNER
        } else if dr <= self.outer.0 && da <= self.outer.1 {
            OUTER
        } else {
            return NONE;
        };
        let doppler = (trust.weak | !self.doppler_agrees(report)) as u32;
        zone + self.position(dr as i64, da as i64) * POSITION
            + doppler * DOPPLER
            + self.standing[trust.confident as usize][trust.good as usize]
    }

    #[inline]
    fn doppler_agrees(&self, report: &Report) -> bool {
        let high = (self.high - report.high as i32).abs();
        let low = (self.low - report.low as i32).abs();
        (high.min(180 - high) <= DOPPLER_TOLERANCE) & (low.min(140 - low) <= DOPPLER_TOLERANCE)
    }

    /// 4 x the root of (dr/range sigma)^2 + (da/azimuth sigma)^2, nearest whole number, halves up, at
    /// most 511: found in floating point, then put right by the exact rule (it is off by one at most).
    #[inline]
    fn position(&self, dr: i64, da: i64) -> u32 {
        let distance = (dr * self.azimuth_sigma).pow(2) + (da * self.range_sigma).pow(2);
        let near = ((distance as f64 * self.scale).sqrt() + 0.5) as i64;
        let reached = |s: i64| (2 * s - 1).pow(2) * self.square <= 64 * distance;
        let exact = if near > MOST_POSITION as i64 {
            near
        } else if near > 0 && !reached(near) {
            near - 1
        } else {
            near + reached(near + 1) as i64
        };
        (exact as u32).min(MOST_POSITION)
    }
}

/// The score of one pair, `NONE` if it is not admissible.
pub fn score(track: &Track, report: &Report, site: Site) -> u32 {
    let mut cell = [NONE];
    Expectation::of(track, site).score_row(&Reports::unpack(&[report.pack()]), &mut cell);
    cell[0]
}

/// The position number alone.
pub fn position(dr: i32, da: i32, site: Site) -> u32 {
    Expectation::of(&Track::default(), site).position(dr.abs() as i64, da.abs() as i64)
}
