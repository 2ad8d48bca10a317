//! Aircraft and clutter over many calls.

use super::{in_sector, report_anywhere, some_spot, Spot};
use crate::generator::Generator;
use crate::reference::records::MAX_RANGE;
use crate::reference::{Report, ReportBytes, Site};

/// Aircraft and clutter that a chain of calls sees turn by turn.
pub struct Sky {
    things: Vec<Thing>,
    site: Site,
    seen_percent: u64,
}

struct Thing {
    range: i64,
    azimuth: i64,
    range_speed: i64,
    azimuth_speed: i64,
    next_look: u64,
}

impl Sky {
    pub fn new(g: &mut Generator, site: Site) -> Sky {
        let home = g.between(0, 31) as u8;
        let spread = g.pick(&[40, 400, 4_000]);
        let spots: Vec<Spot> = (0..g.between(1, 4))
            .map(|_| {
                let sector = (home + g.between(0, 2) as u8) % 32;
                some_spot(g, sector)
            })
            .collect();
        let things = (0..g.between(1, 40))
            .map(|_| {
                let spot = g.pick(&spots);
                let crawling = g.percent(30);
                Thing {
                    range: (spot.range + g.between(-spread, spread)).clamp(0, MAX_RANGE as i64),
                    azimuth: (spot.azimuth + g.between(-spread, spread)).rem_euclid(65_536),
                    range_speed: if crawling { 0 } else { g.between(-500, 500) },
                    azimuth_speed: if crawling { 0 } else { g.between(-700, 700) },
                    next_look: 0,
                }
            })
            .collect();
        Sky { things, site, seen_percent: g.pick(&[50, 85, 100]) }
    }

    /// What the radar reports of the sector served at call `call`.
    pub fn look(&mut self, g: &mut Generator, call: u64, sector: u8) -> Vec<ReportBytes> {
        let mut batch = Vec::new();
        for thing in &mut self.things {
            if call < thing.next_look || thing.azimuth / 2_048 != sector as i64 {
                continue;
            }
            thing.next_look = call + 16;
            let noise = |g: &mut Generator, sigma: u8| g.between(-2 * sigma as i64, 2 * sigma as i64);
            if batch.len() < 100 && g.percent(self.seen_percent) {
                let believed = g.percent(85);
                let off = g.between(-13, 13);
                batch.push(
                    Report {
                        range: (thing.range + noise(g, self.site.range_sigma)).clamp(0, MAX_RANGE as i64) as u32,
                        azimuth: in_sector(thing.azimuth + noise(g, self.site.azimuth_sigma), sector),
                        confidence: if believed { g.between(3, 7) } else { g.between(0, 7) } as u8,
                        quality: if believed { g.between(2, 3) } else { g.between(0, 3) } as u8,
                        degraded: if believed { 0 } else { g.between(0, 1) } as u8,
                        high: (thing.range_speed + off).rem_euclid(180) as u8,
                        low: (thing.range_speed + off).rem_euclid(140) as u8,
                    }
                    .pack(),
                );
            }
            thing.range = (thing.range + thing.range_speed).clamp(0, MAX_RANGE as i64);
            thing.azimuth = (thing.azimuth + thing.azimuth_speed).rem_euclid(65_536);
        }
        if g.one_in(6) && batch.len() < 90 {
            let spot = some_spot(g, sector);
            for _ in 0..g.between(1, 6) {
                batch.push(report_anywhere(g, spot, (300, 300), sector).pack());
            }
        }
        g.shuffle(&mut batch);
        batch
    }
}
