//! Score sheets, and damage to a sheet, a pairing or its numbers.

use super::some_place;
use crate::generator::Generator;
use crate::reference::{LEFT_OUT, NONE, TOO_HIGH_SCORE};

/// A sheet and its size.
#[derive(Clone, Debug)]
pub struct Sheet {
    pub tracks: usize,
    pub reports: usize,
    pub cells: Vec<u32>,
}

pub fn some_sheet(g: &mut Generator) -> Sheet {
    let side = |g: &mut Generator| match g.below(200) {
        0..=9 => 0,
        10..=129 => g.between(1, 8) as usize,
        130..=189 => g.between(1, 20) as usize,
        190..=198 => g.between(1, 100) as usize,
        _ => 100,
    };
    let (tracks, reports) = (side(g), side(g));
    sheet_of(g, tracks, reports)
}

/// Ties, zeros, rows and columns with nothing, products, plain noise.
pub fn sheet_of(g: &mut Generator, tracks: usize, reports: usize) -> Sheet {
    let family = g.below(8);
    let top = TOO_HIGH_SCORE as u64;
    let bound = g.pick(&[1, 2, 2, 3, 4, 30, 1_000, top]);
    let admissible = g.pick(&[0, 10, 30, 60, 60, 90, 90, 100, 100, 100, 100, 100]);
    let mut cells = Vec::with_capacity(tracks * reports);
    for i in 0..tracks as u64 {
        for j in 0..reports as u64 {
            let cell = match family {
                0 => (i + 1) * (j + 1),
                1 => (tracks as u64 - i) * (j + 1),
                2 => i.abs_diff(j),
                3 => top - 1 - g.below(bound),
                4 => 3 * 262_144 * (1 + g.below(2)) + 512 * g.below(20) + g.below(6),
                _ => g.below(bound),
            };
            cells.push(if g.percent(admissible) { cell as u32 } else { NONE });
        }
    }
    if reports > 0 && g.one_in(3) {
        for _ in 0..g.between(0, 3) {
            if tracks > 0 {
                let row = g.index(tracks);
                cells[row * reports..][..reports].fill(NONE);
            }
            let column = g.index(reports);
            cells.iter_mut().skip(column).step_by(reports).for_each(|cell| *cell = NONE);
        }
    }
    Sheet { tracks, reports, cells }
}

/// A cell that no sheet may hold.
pub fn damage_sheet(g: &mut Generator, sheet: &mut Sheet) {
    if let Some(place) = some_place(g, sheet.tracks * sheet.reports) {
        sheet.cells[place] = g.pick(&[TOO_HIGH_SCORE, TOO_HIGH_SCORE + 1, NONE - 1, 1 << 31, LEFT_OUT]);
    }
}

/// Damage to a right pairing or its numbers.
pub fn damage_numbers(
    g: &mut Generator,
    sheet: &Sheet,
    pairing: &mut [u32],
    prices: &mut [u32],
    discounts: &mut [u32],
) {
    let (tracks, reports) = (sheet.tracks, sheet.reports);
    let track = some_place(g, tracks);
    let report = some_place(g, reports);
    let other = some_place(g, tracks);
    match (g.below(12), track, report) {
        (0, Some(t), _) => pairing[t] = g.pick(&[reports as u32, reports as u32 + 1, NONE - 1, 99, 100]),
        (1, Some(t), _) => pairing[t] = NONE,
        (2, Some(t), Some(r)) => pairing[t] = r as u32,
        (3, Some(t), _) => pairing[t] = pairing[other.unwrap_or(t)],
        (4, Some(t), _) => pairing.swap(t, other.unwrap_or(t)),
        (5, Some(t), _) => prices[t] = g.pick(&[LEFT_OUT, LEFT_OUT + 1, u32::MAX, 0]),
        (6, _, Some(r)) => discounts[r] = g.pick(&[LEFT_OUT, LEFT_OUT + 1, u32::MAX, 0]),
        (7, Some(t), _) => prices[t] = prices[t].wrapping_add(1),
        (8, Some(t), _) => prices[t] = prices[t].saturating_sub(1),
        (9, _, Some(r)) => discounts[r] = discounts[r].wrapping_add(1),
        (10, _, Some(r)) => discounts[r] = discounts[r].saturating_sub(1),
        (_, Some(t), Some(r)) => {
            // The totals stay as they are.
            let step = g.pick(&[1, 1, 2, 1_000, LEFT_OUT / 2]);
            if g.percent(50) {
                prices[t] = prices[t].saturating_add(step);
                discounts[r] = discounts[r].saturating_add(step);
            } else if prices[t] >= step && discounts[r] >= step {
                prices[t] -= step;
                discounts[r] -= step;
            }
        }
        _ => {}
    }
}
