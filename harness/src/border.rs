//! The C border of the plot unit, and safe calls over it.

use crate::reference::{Answers, ReportBytes, Site, SlotBytes};

extern "C" {
    fn plot_serve_sector(
        table: *mut [u8; 16],
        table_len: usize,
        sector: *mut u8,
        range_sigma: u8,
        azimuth_sigma: u8,
        batch: *const [u8; 11],
        batch_len: usize,
        fates: *mut u8,
        fates_len: usize,
        slots: *mut u16,
        slots_len: usize,
        shown: *mut u8,
        shown_len: usize,
        discounts: *mut u32,
        discounts_len: usize,
        prices: *mut u32,
        prices_len: usize,
        counts: *mut u32,
    ) -> u8;

    fn plot_score_sheet(
        table: *const [u8; 16],
        table_len: usize,
        sector: u8,
        range_sigma: u8,
        azimuth_sigma: u8,
        batch: *const [u8; 11],
        batch_len: usize,
        sheet: *mut u32,
        sheet_len: usize,
        size: *mut u32,
    ) -> u8;

    fn plot_pair_sheet(
        tracks: usize,
        reports: usize,
        sheet: *const u32,
        sheet_len: usize,
        pairing: *mut u32,
        pairing_len: usize,
        prices: *mut u32,
        prices_len: usize,
        discounts: *mut u32,
        discounts_len: usize,
    ) -> u8;

    fn plot_check_pairing(
        tracks: usize,
        reports: usize,
        sheet: *const u32,
        sheet_len: usize,
        pairing: *const u32,
        pairing_len: usize,
        prices: *const u32,
        prices_len: usize,
        discounts: *const u32,
        discounts_len: usize,
    ) -> u8;
}

/// `counts`: paired, coasted, dropped, started, weak, full, score sum.
pub fn serve_sector(
    table: &mut [SlotBytes],
    sector: &mut u8,
    site: Site,
    batch: &[ReportBytes],
    answers: Answers<'_>,
    counts: &mut [u32; 7],
) -> u8 {
    let Answers { fates, slots, shown, discounts, prices } = answers;
    // Sound: each pointer comes with the length of the slice that it is taken from.
    unsafe {
        plot_serve_sector(
            table.as_mut_ptr(),
            table.len(),
            sector,
            site.range_sigma,
            site.azimuth_sigma,
            batch.as_ptr(),
            batch.len(),
            fates.as_mut_ptr(),
            fates.len(),
            slots.as_mut_ptr(),
            slots.len(),
            shown.as_mut_ptr(),
            shown.len(),
            discounts.as_mut_ptr(),
            discounts.len(),
            prices.as_mut_ptr(),
            prices.len(),
            counts.as_mut_ptr(),
        )
    }
}

/// `size`: tracks, reports.
pub fn score_sheet(
    table: &[SlotBytes],
    sector: u8,
    site: Site,
    batch: &[ReportBytes],
    sheet: &mut [u32],
    size: &mut [u32; 2],
) -> u8 {
    // Sound: as above.
    unsafe {
        plot_score_sheet(
            table.as_ptr(),
            table.len(),
            sector,
            site.range_sigma,
            site.azimuth_sigma,
            batch.as_ptr(),
            batch.len(),
            sheet.as_mut_ptr(),
            sheet.len(),
            size.as_mut_ptr(),
        )
    }
}

pub fn pair_sheet(
    tracks: usize,
    reports: usize,
    sheet: &[u32],
    pairing: &mut [u32],
    prices: &mut [u32],
    discounts: &mut [u32],
) -> u8 {
    // Sound: as above.
    unsafe {
        plot_pair_sheet(
            tracks,
            reports,
            sheet.as_ptr(),
            sheet.len(),
            pairing.as_mut_ptr(),
            pairing.len(),
            prices.as_mut_ptr(),
            prices.len(),
            discounts.as_mut_ptr(),
            discounts.len(),
        )
    }
}

pub fn check_pairing(
    tracks: usize,
    reports: usize,
    sheet: &[u32],
    pairing: &[u32],
    prices: &[u32],
    discounts: &[u32],
) -> u8 {
    // Sound: as above.
    unsafe {
        plot_check_pairing(
            tracks,
            reports,
            sheet.as_ptr(),
            sheet.len(),
            pairing.as_ptr(),
            pairing.len(),
            prices.as_ptr(),
            prices.len(),
            discounts.as_ptr(),
            discounts.len(),
        )
    }
}
