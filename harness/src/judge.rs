//! Judges single calls of the border. Ties are judged by best-ness: the pairing is read off the
//! answer, held to be a best one by the reference's sheet, engine and check, and everything else is
//! then worked out again from that pairing and compared byte by byte.

use crate::border;
use crate::generator::Generator;
use crate::guarded::Guarded;
use crate::reference::pairing::worth;
use crate::reference::settling::settle;
use crate::reference::*;
use crate::scenes::{Scene, Sheet};

pub const CALLS: [&str; 4] = ["serve_sector", "score_sheet", "pair_sheet", "check_pairing"];
const SERVE: usize = 0;
const SCORE: usize = 1;
const PAIR: usize = 2;
const CHECK: usize = 3;

/// What was judged so far.
#[derive(Default)]
pub struct Tally {
    /// By call and by the number that it gave.
    pub numbers: [[u64; 32]; 4],
    /// Sums of the seven counts of served sectors.
    pub counts: [u64; 7],
    pub shown: u64,
    pub cells: u64,
    pub admissible: u64,
    /// Best pairings other than the reference's own.
    pub other_best: u64,
    /// Served sectors where the three calls were held to agree.
    pub agreements: u64,
    pub chains: u64,
    pub chained_calls: u64,
    pub longest_chain: u64,
    pub most_updates: u8,
    pub files: u64,
    pub file_lines: u64,
    pub longest_file: usize,
}

impl Tally {
    pub fn calls(&self) -> u64 {
        self.numbers.iter().flatten().sum()
    }

    fn count(&mut self, call: usize, number: u8) {
        self.numbers[call][(number as usize).min(31)] += 1;
    }
}

pub type Judged<T> = Result<T, String>;

fn hold(holds: bool, what: &str) -> Judged<()> {
    if holds {
        Ok(())
    } else {
        Err(what.to_string())
    }
}

/// The pairing, prices and discounts of a sector answer, a row a due track.
struct Certificate {
    pairing: Vec<u32>,
    prices: Vec<u32>,
    discounts: Vec<u32>,
}

/// One sector call. Gives the number; the scene's table and sector are the ones after the call.
pub fn serve(g: &mut Generator, scene: &mut Scene, tally: &mut Tally) -> Judged<u8> {
    let mut table = Guarded::holding(&scene.table, g);
    let mut sector = Guarded::holding(&[scene.sector], g);
    let batch = Guarded::holding(&scene.batch, g);
    let [fates, slots, shown, discounts, prices] = scene.rooms;
    let (mut fates, mut slots, mut shown) = (Guarded::room(fates, g), Guarded::room(slots, g), Guarded::room(shown, g));
    let (mut discounts, mut prices) = (Guarded::room(discounts, g), Guarded::room(prices, g));
    let mut counts = Guarded::<u32>::room(7, g);

    let number = border::serve_sector(
        table.lend_mut(),
        &mut sector.lend_mut()[0],
        scene.site,
        batch.lend(),
        Answers {
            fates: fates.lend_mut(),
            slots: slots.lend_mut(),
            shown: shown.lend_mut(),
            discounts: discounts.lend_mut(),
            prices: prices.lend_mut(),
        },
        counts.lend_mut().try_into().expect("seven counts"),
    );
    tally.count(SERVE, number);
    hold(batch.untouched(), "the batch was written to")?;

    let taken_in = intake(&scene.table, scene.sector, scene.site, &scene.batch);
    let short = scene.rooms[..4].iter().any(|&room| room < scene.batch.len()) || scene.rooms[4] < scene.table.len();
    let (due, reports) = match (taken_in, short) {
        (Err(refusal), _) => {
            return refused(number, refusal, &table, &sector, &counts, &fates, &slots, &shown, &discounts, &prices)
        }
        (Ok(_), true) => {
            return refused(number, 9, &table, &sector, &counts, &fates, &slots, &shown, &discounts, &prices)
        }
        (Ok(taken_in), false) => taken_in,
    };
    hold(number == 0, &format!("gave {number}, expected to be served"))?;

    // The pairing, as the answer tells it.
    let count = reports.count;
    let mut certificate = Certificate {
        pairing: vec![NONE; due.count],
        prices: due.slots().iter().map(|&slot| prices.lend()[slot as usize]).collect(),
        discounts: discounts.lend()[..count].to_vec(),
    };
    for report in (0..count).filter(|&report| fates.lend()[report] == PAIRED) {
        let slot = slots.lend()[report];
        let row = due
            .slots()
            .binary_search(&slot)
            .map_err(|_| format!("report {report} is paired with slot {slot}, not due"))?;
        hold(certificate.pairing[row] == NONE, "a slot is paired twice")?;
        certificate.pairing[row] = report as u32;
    }
    let mut sheet = vec![NONE; due.count * count];
    fill_sheet(due.tracks(), scene.site, &reports, &mut sheet);
    best(&due, count, &sheet, &certificate, tally)?;

    // Everything else follows from it.
    let (mut table_then, mut sector_then) = (scene.table.clone(), scene.sector);
    let (mut fates_then, mut slots_then, mut shown_then) = (vec![0; count], vec![0; count], vec![0; count]);
    let counts_then = settle(
        &mut table_then,
        &mut sector_then,
        &due,
        &reports,
        &sheet,
        &certificate.pairing,
        &mut fates_then,
        &mut slots_then,
        &mut shown_then,
    );
    let mut prices_then = vec![0; scene.table.len()];
    for (&slot, &price) in due.slots().iter().zip(&certificate.prices) {
        prices_then[slot as usize] = price;
    }
    hold(sector.reads(&[sector_then]), "the sector is not moved on by one")?;
    hold(fates.reads(&fates_then), "fates differ")?;
    hold(slots.reads(&slots_then), "slots differ")?;
    hold(shown.reads(&shown_then), "shown marks differ")?;
    hold(discounts.reads(&certificate.discounts), "room beyond the discounts was written to")?;
    hold(prices.reads(&prices_then), "a slot that was not due has a price, or room beyond was written to")?;
    hold(counts.reads(&counts_then.list()), "counts differ")?;
    if !table.reads(&table_then) {
        let place = (0..table_then.len()).find(|&place| table.lend()[place] != table_then[place]);
        return Err(format!("the table differs at slot {place:?} (none: beyond its ends)"));
    }
    for (sum, count) in tally.counts.iter_mut().zip(counts_then.list()) {
        *sum += count as u64;
    }
    tally.shown += shown_then.iter().map(|&mark| mark as u64).sum::<u64>();
    tally.most_updates =
        table_then.iter().filter(|slot| slot[15] == 1).map(|slot| slot[10]).fold(tally.most_updates, u8::max);
    if g.one_in(4) {
        agree(g, scene, &sheet, &due, &certificate, tally)?;
    }
    scene.table = table_then;
    scene.sector = sector_then;
    Ok(0)
}

/// After a refusal everything reads as before.
#[allow(clippy::too_many_arguments)]
fn refused(
    number: u8,
    expected: u8,
    table: &Guarded<SlotBytes>,
    sector: &Guarded<u8>,
    counts: &Guarded<u32>,
    fates: &Guarded<u8>,
    slots: &Guarded<u16>,
    shown: &Guarded<u8>,
    discounts: &Guarded<u32>,
    prices: &Guarded<u32>,
) -> Judged<u8> {
    hold(number == expected, &format!("gave {number}, expected {expected}"))?;
    hold(table.untouched(), "refused, but the table changed")?;
    hold(sector.untouched(), "refused, but the sector changed")?;
    hold(counts.untouched(), "refused, but the counts changed")?;
    let answers = [fates.untouched(), slots.untouched(), shown.untouched(), discounts.untouched(), prices.untouched()];
    hold(
        answers == [true; 5],
        &format!("refused, but answers changed (fates, slots, shown, discounts, prices kept: {answers:?})"),
    )?;
    Ok(number)
}

/// The pairing is a best one of the reference's sheet, and its numbers show it.
fn best(due: &Due, reports: usize, sheet: &[u32], certificate: &Certificate, tally: &mut Tally) -> Judged<()> {
    let answer =
        check_pairing(due.count, reports, sheet, &certificate.pairing, &certificate.prices, &certificate.discounts);
    hold(answer == 0, &format!("the check says {answer} to the pairing, prices and discounts"))?;
    let (mut pairing, mut prices, mut discounts) = (vec![0; due.count], vec![0; due.count], vec![0; reports]);
    pair_sheet(due.count, reports, sheet, &mut pairing, &mut prices, &mut discounts);
    let (ours, theirs) = (worth(reports, sheet, &pairing), worth(reports, sheet, &certificate.pairing));
    hold(ours == theirs, &format!("(pairs, sum) {theirs:?}, but the best is {ours:?}"))?;
    tally.other_best += (pairing != certificate.pairing) as u64;
    tally.cells += sheet.len() as u64;
    tally.admissible += sheet.iter().filter(|&&cell| cell != NONE).count() as u64;
    Ok(())
}

/// The two further calls together give what the sector call gave.
fn agree(
    g: &mut Generator,
    scene: &Scene,
    sheet: &[u32],
    due: &Due,
    given: &Certificate,
    tally: &mut Tally,
) -> Judged<()> {
    let extra = g.index(3);
    let theirs = score(g, scene, sheet.len() + extra, tally)?.ok_or("the sheet is refused, the sector served")?;
    hold(theirs == sheet, "the sheet differs")?;
    let reports = scene.batch.len();
    let (mut pairing, mut prices, mut discounts) = (vec![7; due.count], vec![7; due.count], vec![7; reports]);
    let number = border::pair_sheet(due.count, reports, &theirs, &mut pairing, &mut prices, &mut discounts);
    tally.count(PAIR, number);
    hold(number == 0, "the sector's own sheet is refused")?;
    hold(pairing == given.pairing, "the sector call and pair_sheet pair differently")?;
    hold(prices == given.prices, "the sector call and pair_sheet give different prices")?;
    hold(discounts == given.discounts, "the sector call and pair_sheet give different discounts")?;
    tally.agreements += 1;
    Ok(())
}

/// One sheet call with room for `room` cells. Gives the cells, or nothing if it was refused.
pub fn score(g: &mut Generator, scene: &Scene, room: usize, tally: &mut Tally) -> Judged<Option<Vec<u32>>> {
    let table = Guarded::holding(&scene.table, g);
    let batch = Guarded::holding(&scene.batch, g);
    let mut sheet = Guarded::<u32>::room(room, g);
    let mut size = Guarded::<u32>::room(2, g);
    let number = border::score_sheet(
        table.lend(),
        scene.sector,
        scene.site,
        batch.lend(),
        sheet.lend_mut(),
        size.lend_mut().try_into().expect("two numbers"),
    );
    tally.count(SCORE, number);
    hold(table.untouched() && batch.untouched(), "score_sheet wrote to the table or the batch")?;
    let mut expected = vec![0; room];
    match score_sheet(&scene.table, scene.sector, scene.site, &scene.batch, &mut expected) {
        Err(refusal) => {
            hold(number == refusal, &format!("score_sheet gave {number}, expected {refusal}"))?;
            hold(sheet.untouched() && size.untouched(), "score_sheet refused, but wrote")?;
            Ok(None)
        }
        Ok((tracks, reports)) => {
            hold(number == 0, &format!("score_sheet gave {number}, expected a sheet"))?;
            hold(size.reads(&[tracks, reports]), "the sheet's size differs")?;
            expected.truncate(tracks as usize * reports as usize);
            if let Some(cell) = (0..expected.len()).find(|&cell| sheet.lend()[cell] != expected[cell]) {
                return Err(format!("cell {cell} reads {}, expected {}", sheet.lend()[cell], expected[cell]));
            }
            hold(sheet.reads(&expected), "room beyond the sheet was written to")?;
            Ok(Some(expected))
        }
    }
}

/// Sizes of the lists lent with a sheet: cells, pairing, prices, discounts.
pub type Rooms = [usize; 4];

/// The cells within `room`, noise where the sheet has none.
fn lent_cells(g: &mut Generator, sheet: &Sheet, room: usize) -> Guarded<u32> {
    let mut cells: Vec<u32> = sheet.cells.iter().copied().take(room).collect();
    while cells.len() < room {
        cells.push(g.draw() as u32);
    }
    Guarded::holding(&cells, g)
}

/// One pairing call on a sheet, its sizes given as they are (they may be absurd).
pub fn pair(g: &mut Generator, sheet: &Sheet, rooms: Rooms, tally: &mut Tally) -> Judged<u8> {
    let cells = lent_cells(g, sheet, rooms[0]);
    let mut pairing = Guarded::<u32>::room(rooms[1], g);
    let mut prices = Guarded::<u32>::room(rooms[2], g);
    let mut discounts = Guarded::<u32>::room(rooms[3], g);
    let (tracks, reports) = (sheet.tracks, sheet.reports);
    let number =
        border::pair_sheet(tracks, reports, cells.lend(), pairing.lend_mut(), prices.lend_mut(), discounts.lend_mut());
    tally.count(PAIR, number);
    hold(cells.untouched(), "the sheet was written to")?;

    let (mut p, mut q, mut r) = (vec![0; rooms[1]], vec![0; rooms[2]], vec![0; rooms[3]]);
    let expected = pair_sheet(tracks, reports, cells.lend(), &mut p, &mut q, &mut r);
    hold(number == expected, &format!("pair_sheet gave {number}, expected {expected}"))?;
    if number != 0 {
        hold(pairing.untouched() && prices.untouched() && discounts.untouched(), "pair_sheet refused, but wrote")?;
        return Ok(number);
    }
    let answer = check_pairing(tracks, reports, cells.lend(), pairing.lend(), prices.lend(), discounts.lend());
    hold(answer == 0, &format!("the check says {answer} to what pair_sheet gave"))?;
    let (ours, theirs) = (&p[..tracks], &pairing.lend()[..tracks]);
    let (best, given) = (worth(reports, cells.lend(), ours), worth(reports, cells.lend(), theirs));
    hold(best == given, &format!("(pairs, sum) {given:?}, but the best is {best:?}"))?;
    tally.other_best += (ours != theirs) as u64;
    for (list, used, name) in
        [(&pairing, tracks, "pairing"), (&prices, tracks, "prices"), (&discounts, reports, "discounts")]
    {
        hold(list.reads(&list.lend()[..used]), &format!("room beyond the {name} was written to"))?;
    }
    Ok(0)
}

/// One check of a pairing and its numbers, lists of any length.
pub fn check(g: &mut Generator, sheet: &Sheet, room: usize, lists: [&[u32]; 3], tally: &mut Tally) -> Judged<u8> {
    let cells = lent_cells(g, sheet, room);
    let [pairing, prices, discounts] = lists.map(|list| Guarded::holding(list, g));
    let (tracks, reports) = (sheet.tracks, sheet.reports);
    let number = border::check_pairing(tracks, reports, cells.lend(), pairing.lend(), prices.lend(), discounts.lend());
    tally.count(CHECK, number);
    let expected = check_pairing(tracks, reports, cells.lend(), pairing.lend(), prices.lend(), discounts.lend());
    hold(number == expected, &format!("check_pairing gave {number}, expected {expected}"))?;
    let kept = cells.untouched() && pairing.untouched() && prices.untouched() && discounts.untouched();
    hold(kept, "check_pairing wrote to a list")?;
    Ok(number)
}
