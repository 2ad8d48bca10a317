//! A second engine for timing alone: the plain one with its inner loop laid out so that the compiler
//! takes several reports at a time. It is a yardstick beyond the plain engine.

use crate::reference::{LEFT_OUT, NONE};

const MOST: usize = 100;
const NOBODY: u8 = 255;
/// Takes a cell that is not admissible to 2^29 - 1: dearer than leaving its track out.
const AFFORDABLE: u32 = 0x1fff_ffff;
/// The distance of a report that is settled, and the toll that keeps it there.
const SHUT: i32 = 1 << 30;

/// For sheets whose size and cells are in order; otherwise 21.
pub fn pair_sheet(
    tracks: usize,
    reports: usize,
    sheet: &[u32],
    pairing: &mut [u32],
    prices: &mut [u32],
    discounts: &mut [u32],
) -> u8 {
    if tracks > MOST || reports > MOST || sheet.len() < tracks * reports {
        return 21;
    }
    let mut owner = [NOBODY; MOST];
    let mut reached = [(0u8, 0i32, 0u8); MOST];
    let (mut distance, mut from, mut toll) = ([0i32; MOST], [0i32; MOST], [0i32; MOST]);
    let (distance, from, toll) = (&mut distance[..reports], &mut from[..reports], &mut toll[..reports]);
    let discounts = &mut discounts[..reports];
    pairing[..tracks].fill(NONE);
    prices[..tracks].fill(0);
    discounts.fill(0);
    for newcomer in 0..tracks {
        distance.fill(SHUT);
        toll.iter_mut().zip(discounts.iter()).for_each(|(toll, &discount)| *toll = discount as i32);
        let (mut count, mut track, mut so_far) = (0, newcomer, 0i32);
        let (mut cheapest_leaving, mut leaver) = (i32::MAX, newcomer);
        let (length, free_report) = loop {
            let leaving = so_far + LEFT_OUT as i32 - prices[track] as i32;
            if leaving < cheapest_leaving {
                (cheapest_leaving, leaver) = (leaving, track);
            }
            let row = &sheet[track * reports..][..reports];
            let base = so_far - prices[track] as i32;
            let mut nearest = SHUT;
            for (((distance, from), cell), toll) in distance.iter_mut().zip(from.iter_mut()).zip(row).zip(toll.iter()) {
                let through = base + (cell & AFFORDABLE) as i32 + toll;
                let shorter = through < *distance;
                *distance = if shorter { through } else { *distance };
                *from = if shorter { track as i32 } else { *from };
                nearest = nearest.min(*distance);
            }
            if nearest >= cheapest_leaving {
                break (cheapest_leaving, None);
            }
            let report = distance.iter().position(|&distance| distance == nearest).expect("the nearest is there");
            if owner[report] == NOBODY {
                break (nearest, Some(report));
            }
            toll[report] += SHUT;
            distance[report] = SHUT;
            so_far = nearest;
            track = owner[report] as usize;
            reached[count] = (track as u8, so_far, report as u8);
            count += 1;
        };
        prices[newcomer] += length as u32;
        for &(track, at, report) in &reached[..count] {
            prices[track as usize] += (length - at) as u32;
            discounts[report as usize] += (length - at) as u32;
        }
        let mut given = match free_report {
            Some(report) => report as u32,
            None if leaver == newcomer => continue,
            None => std::mem::replace(&mut pairing[leaver], NONE),
        };
        loop {
            let taker = from[given as usize] as usize;
            owner[given as usize] = taker as u8;
            let before = std::mem::replace(&mut pairing[taker], given);
            if taker == newcomer {
                break;
            }
            given = before;
        }
    }
    0
}
