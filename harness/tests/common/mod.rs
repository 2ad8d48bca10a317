//! What several tests share; each of them uses a part.
#![allow(dead_code)]

use harness::reference::*;

pub const SITE: Site = Site { range_sigma: 16, azimuth_sigma: 16 };

pub fn old_track() -> Track {
    Track { range: 10_000, azimuth: 1_000, updates: 8, confidence: 5, quality: 3, ..Track::default() }
}

/// What a call answers, with exactly the room that it needs.
pub struct Answer {
    pub counts: Result<Counts, u8>,
    pub fates: Vec<u8>,
    pub slots: Vec<u16>,
    pub shown: Vec<u8>,
    pub discounts: Vec<u32>,
    pub prices: Vec<u32>,
}

pub fn serve(table: &mut [SlotBytes], sector: &mut u8, site: Site, batch: &[ReportBytes]) -> Answer {
    let reports = batch.len();
    let (mut fates, mut slots, mut shown) = (vec![9; reports], vec![9; reports], vec![9; reports]);
    let (mut discounts, mut prices) = (vec![9; reports], vec![9; table.len()]);
    let answers = Answers {
        fates: &mut fates,
        slots: &mut slots,
        shown: &mut shown,
        discounts: &mut discounts,
        prices: &mut prices,
    };
    let counts = serve_sector(table, sector, site, batch, answers);
    Answer { counts, fates, slots, shown, discounts, prices }
}
