//! The best pairing of a score sheet, with prices and discounts that show it to be best, and the
//! check of such numbers.

/// No report for a track; in a cell, not admissible.
pub const NONE: u32 = 4_294_967_295;
/// What a track left out counts; also the highest price and the highest discount.
pub const LEFT_OUT: u32 = 268_435_456;
/// Scores are under this.
pub const TOO_HIGH_SCORE: u32 = 2_097_152;

const MOST: usize = 100;
const NOBODY: u8 = 255;
/// Takes a cell that is not admissible to 2^30 - 1, which no path can afford, and keeps every score.
const AFFORDABLE: u32 = 0x3fff_ffff;

#[inline]
fn cells_in_range(sheet: &[u32]) -> bool {
    sheet.iter().all(|&cell| cell < TOO_HIGH_SCORE || cell == NONE)
}

/// Pairing, prices and discounts of any sheet: 0, or refusal 21 or 22.
pub fn pair_sheet(
    tracks: usize,
    reports: usize,
    sheet: &[u32],
    pairing: &mut [u32],
    prices: &mut [u32],
    discounts: &mut [u32],
) -> u8 {
    if tracks > MOST
        || reports > MOST
        || sheet.len() < tracks * reports
        || pairing.len() < tracks
        || prices.len() < tracks
        || discounts.len() < reports
    {
        return 21;
    }
    let sheet = &sheet[..tracks * reports];
    if !cells_in_range(sheet) {
        return 22;
    }
    pair(tracks, reports, sheet, &mut pairing[..tracks], &mut prices[..tracks], &mut discounts[..reports]);
    0
}

/// The plain engine: tracks are brought in one at a time, each by a cheapest path of exchanges
/// (Dijkstra over prices and discounts) to a free report or to a track that is left out instead.
pub fn pair(
    tracks: usize,
    reports: usize,
    sheet: &[u32],
    pairing: &mut [u32],
    prices: &mut [u32],
    discounts: &mut [u32],
) {
    assert!(tracks <= MOST && reports <= MOST);
    let mut owner = [NOBODY; MOST];
    let mut distance = [0i32; MOST];
    let mut from = [0u8; MOST];
    // The reports that the search has not settled yet, in no order.
    let mut open = [0u8; MOST];
    // The tracks that it has reached, at what distance, and by which report of theirs.
    let mut reached = [(0u8, 0i32, 0u8); MOST];

    pairing.fill(NONE);
    prices.fill(0);
    discounts.fill(0);
    for newcomer in 0..tracks {
        distance[..reports].fill(i32::MAX);
        open[..reports].iter_mut().enumerate().for_each(|(report, place)| *place = report as u8);
        let mut open_count = reports;
        let mut reached_count = 0;
        let mut track = newcomer;
        let mut so_far = 0i32;
        let mut cheapest_leaving = i32::MAX;
        let mut leaver = newcomer;

        // How long the path is, and the free report that it ends at, if it does not end in leaving.
        let (length, free_report) = loop {
            let leaving = so_far + LEFT_OUT as i32 - prices[track] as i32;
            if leaving < cheapest_leaving {
                cheapest_leaving = leaving;
                leaver = track;
            }
            let row = &sheet[track * reports..][..reports];
            let base = so_far - prices[track] as i32;
            let mut nearest = cheapest_leaving;
            let mut next = None;
            for (place, &report) in open[..open_count].iter().enumerate() {
                let report = report as usize;
                let through = base + (row[report] & AFFORDABLE) as i32 + discounts[report] as i32;
                if through < distance[report] {
                    distance[report] = through;
                    from[report] = track as u8;
                }
                if distance[report] < nearest {
                    nearest = distance[report];
                    next = Some(place);
                }
            }
            let Some(place) = next else { break (cheapest_leaving, None) };
            let report = open[place] as usize;
            if owner[report] == NOBODY {
                break (nearest, Some(report));
            }
            open_count -= 1;
            open[place] = open[open_count];
            so_far = nearest;
            track = owner[report] as usize;
            reached[reached_count] = (track as u8, so_far, report as u8);
            reached_count += 1;
        };

        // Each price rises by what is left of the path from its track on, and so do the discounts.
        prices[newcomer] += length as u32;
        for &(track, at, report) in &reached[..reached_count] {
            prices[track as usize] += (length - at) as u32;
            discounts[report as usize] += (length - at) as u32;
        }

        // Exchange along the path, from its end back to the newcomer.
        let mut given = match free_report {
            Some(report) => report as u32,
            None if leaver == newcomer => continue,
            None => std::mem::replace(&mut pairing[leaver], NONE),
        };
        loop {
            let taker = from[given as usize] as usize;
            owner[given as usize] = taker as u8;
            let before = std::mem::replace(&mut pairing[taker], given);
            if taker == newcomer {
                break;
            }
            given = before;
        }
    }
}

/// The check: 0 accepted, else 21 to 26. It judges what is within tracks and reports, no more.
pub fn check_pairing(
    tracks: usize,
    reports: usize,
    sheet: &[u32],
    pairing: &[u32],
    prices: &[u32],
    discounts: &[u32],
) -> u8 {
    if tracks > MOST
        || reports > MOST
        || sheet.len() < tracks * reports
        || pairing.len() < tracks
        || prices.len() < tracks
        || discounts.len() < reports
    {
        return 21;
    }
    let sheet = &sheet[..tracks * reports];
    let (pairing, prices, discounts) = (&pairing[..tracks], &prices[..tracks], &discounts[..reports]);
    if !cells_in_range(sheet) {
        return 22;
    }
    let mut taken = [false; MOST];
    let mut total = 0i64;
    for (track, &report) in pairing.iter().enumerate() {
        if report == NONE {
            total += LEFT_OUT as i64;
            continue;
        }
        let report = report as usize;
        if report >= reports || taken[report] || sheet[track * reports + report] == NONE {
            return 23;
        }
        taken[report] = true;
        total += sheet[track * reports + report] as i64;
    }
    if prices.iter().chain(discounts).any(|&number| number > LEFT_OUT) {
        return 24;
    }
    for (track, &price) in prices.iter().enumerate() {
        let row = &sheet[track * reports..][..reports];
        for (&cell, &discount) in row.iter().zip(discounts) {
            // A cell that is not admissible reads above every price.
            if price as i64 - discount as i64 > cell as i64 {
                return 25;
            }
        }
    }
    let sum = |numbers: &[u32]| numbers.iter().map(|&number| number as i64).sum::<i64>();
    if sum(prices) - sum(discounts) != total {
        return 26;
    }
    0
}

/// Pairs and score sum of a pairing whose pairs are all there.
pub fn worth(reports: usize, sheet: &[u32], pairing: &[u32]) -> (usize, u64) {
    let mut worth = (0, 0);
    for (track, &report) in pairing.iter().enumerate() {
        if report != NONE {
            worth.0 += 1;
            worth.1 += sheet[track * reports + report as usize] as u64;
        }
    }
    worth
}
