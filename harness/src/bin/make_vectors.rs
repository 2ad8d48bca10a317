//! Writes the inputs of the gate's batch programs, and what each must print by the reference.
//! In these files each track has one admissible report at most, and each report one track, so that
//! no choice among best pairings shows.
//!
//! make_vectors CRATES

use harness::reference::*;
use std::path::Path;
use std::process::ExitCode;

const SECTORS: usize = 32;
/// Azimuth units to a sector.
const SECTOR: u16 = 2_048;

/// A file under way: its bytes so far, and the sector that the next batch is of.
#[derive(Clone)]
struct Scn {
    bytes: Vec<u8>,
    next: usize,
}

impl Scn {
    fn new(range_sigma: u8, azimuth_sigma: u8) -> Scn {
        Scn { bytes: [b"SCN\x01\x00".as_slice(), &[range_sigma, azimuth_sigma]].concat(), next: 0 }
    }

    /// Empty batches until the antenna looks into the sector, then this one.
    fn look(mut self, sector: usize, batch: &[Report]) -> Scn {
        while self.next != sector {
            self.bytes.push(0);
            self.next = (self.next + 1) % SECTORS;
        }
        self.bytes.push(batch.len() as u8);
        self.bytes.extend(batch.iter().flat_map(Report::pack));
        self.next = (sector + 1) % SECTORS;
        self
    }

    /// The file without its last bytes.
    fn without_last(mut self, bytes: usize) -> Vec<u8> {
        self.bytes.truncate(self.bytes.len() - bytes);
        self.bytes
    }

    fn with_byte(mut self, place: usize, byte: u8) -> Vec<u8> {
        self.bytes[place] = byte;
        self.bytes
    }
}

/// A return that may start a track, of something that does not close.
fn strong(range: u32, azimuth: u16) -> Report {
    Report { range, azimuth, confidence: 5, quality: 3, ..Report::default() }
}

fn weak(range: u32, azimuth: u16) -> Report {
    Report { quality: 0, ..strong(range, azimuth) }
}

/// Document 01's own 62 bytes; the next batch is sector 1's.
fn example() -> Scn {
    let closer = Report { high: 60, low: 120, ..strong(9_700, 1_000) };
    Scn::new(16, 16).look(0, &[strong(10_000, 1_000)]).look(0, &[closer])
}

/// Returns so far apart that none is admissible with a new track of another.
fn grid(sector: u16, first_azimuth: u16, count: u16) -> Vec<Report> {
    let place = |k: u16| strong(30_000 + 830 * (k % 40) as u32, SECTOR * sector + first_azimuth + 700 * (k / 40));
    (0..count).map(place).collect()
}

/// Sixty returns at one azimuth, likewise apart.
fn line_of_sixty(azimuth: u16) -> Vec<Report> {
    (5..65).map(|k| strong(1_000 * k, azimuth)).collect()
}

/// In turn 2 sixty tracks of sector 0 are seen on their way into sector 1, where sixty others stay:
/// in turn 3 sector 1 has 120 due.
fn crowd() -> Scn {
    let (leaving, left, staying) = (line_of_sixty(1_900), line_of_sixty(2_000), line_of_sixty(3_000));
    Scn::new(16, 16).look(0, &leaving).look(1, &staying).look(0, &left).look(1, &staying).look(0, &[])
}

/// More reports than slots: 100, 100 and 56 start, 44 find the table full. In turn 2 sectors 0 and 1
/// are all seen again; of sector 2's, 20 are seen and 36 dropped, 40 new ones come, and 36 of them
/// take the freed slots. In turn 3 the four that found none start.
fn table_full() -> Scn {
    let (first, second, third) = (grid(0, 200, 100), grid(1, 200, 100), grid(2, 200, 100));
    let new = grid(2, 550, 40);
    Scn::new(16, 16)
        .look(0, &first)
        .look(1, &second)
        .look(2, &third)
        .look(0, &first)
        .look(1, &second)
        .look(2, &[&third[..20], &new].concat())
        .look(2, &new[36..])
}

/// Two aircraft, seen (#) and missed (.) turn by turn: every allowance of misses is used up and
/// overrun, and after each drop the track starts again. The one in sector 5 has clutter beside
/// it, so each turn has a line; the one in sector 9 coasts and drops in empty batches.
const SEEN: &str = "##.#..#.####...####..####...##....#";

fn coast_drop_restart() -> Scn {
    let mut file = Scn::new(16, 16);
    for (turn, mark) in SEEN.chars().enumerate() {
        let aircraft = |sector: u16| {
            let place = strong(20_000 - 50 * turn as u32, SECTOR * sector + 600 + 30 * turn as u16);
            (mark == '#').then_some(Report { high: 130, low: 90, ..place })
        };
        let near: Vec<Report> = aircraft(5).into_iter().chain([weak(60_000, SECTOR * 5)]).collect();
        file = file.look(5, &near).look(9, &aircraft(9).into_iter().collect::<Vec<_>>());
    }
    file
}

/// Four aircraft cross north: `right` and `fast_right` clockwise, so that they are due 33 calls later
/// and not at the very next call; `left` and `fast_left` the other way, due 31 calls later.
fn north() -> Scn {
    let right = |azimuth| strong(20_000, azimuth);
    let left = |azimuth| strong(30_000, azimuth);
    let fast_right = |azimuth| strong(2_000, azimuth);
    let fast_left = |azimuth| strong(4_000, azimuth);
    Scn::new(16, 16)
        .look(0, &[left(450), fast_left(2_040)])
        .look(31, &[right(65_086), fast_right(63_500)])
        .look(0, &[left(250), fast_left(40)])
        .look(31, &[right(65_286), fast_right(65_500), fast_left(63_576)])
        .look(0, &[left(50)])
        .look(30, &[fast_left(61_576)])
        .look(31, &[right(65_486), left(65_386)])
        // Clutter where `right` will be a turn later: it must not be taken now.
        .look(0, &[weak(20_000, 150), fast_right(1_964)])
        .look(31, &[left(65_186)])
        .look(0, &[right(150)])
        .look(1, &[fast_right(3_964)])
        .look(31, &[left(64_986)])
}

/// Longer than the program's buffers for input (65,536 bytes) and for lines (4,096): a full table,
/// eight aircraft a sector going out slowly, with clutter behind them.
fn long_file() -> Scn {
    let mut file = Scn::new(16, 16);
    for turn in 0..10 {
        for sector in 0..SECTORS {
            let azimuth = SECTOR * sector as u16 + 1_000;
            let aircraft = (1..9).map(|k| strong(6_000 * k + 20 * turn, azimuth + k as u16));
            let clutter = (52..64).map(|k| weak(1_000 * k, azimuth));
            file = file.look(sector, &aircraft.chain(clutter).collect::<Vec<_>>());
        }
    }
    file
}

/// A program of the gate, its input, and the last line that document 01 asks for.
struct Vector {
    name: &'static str,
    file: Vec<u8>,
    last: &'static str,
}

fn vectors() -> Vec<Vector> {
    let over_100 =
        [vec![Report { low: 140, ..strong(10_000, 0) }], line_of_sixty(3_000), line_of_sixty(3_500)].concat();
    let bad_field = [strong(10_000, 0), Report { low: 140, ..strong(20_000, 3_000) }];
    let past_sector_1 = [strong(10_000, 4_095), strong(20_000, 4_096)];
    let list = [
        ("plotrun", example().bytes, "end"),
        ("run_short_header", example().bytes[..6].to_vec(), "bad header"),
        ("run_wrong_mark", example().with_byte(2, b'n'), "bad header"),
        ("run_wrong_version", example().with_byte(4, 1), "bad header"),
        ("run_cut_after_count", example().without_last(11), "cut"),
        ("run_cut_in_report", example().without_last(1), "cut"),
        ("run_cut_between_reports", example().look(1, &grid(1, 200, 3)).without_last(11), "cut"),
        ("run_cut_over_100", example().look(1, &over_100[..101]).without_last(1), "cut"),
        ("run_sigma_zero", Scn::new(0, 16).look(2, &[]).bytes, "refused 3"),
        // Each of these has the next refusal's cause as well.
        ("run_over_100_reports", example().look(1, &over_100[..101]).bytes, "refused 5"),
        ("run_bad_field", example().look(1, &bad_field).bytes, "refused 6"),
        ("run_other_sector", crowd().look(1, &past_sector_1).bytes, "refused 7"),
        ("run_over_100_due", crowd().look(1, &[]).look(2, &[]).bytes, "refused 8"),
        ("run_table_full", table_full().bytes, "end"),
        ("run_coast_drop_restart", coast_drop_restart().bytes, "end"),
        ("run_north", north().bytes, "end"),
        ("run_long_file", long_file().bytes, "end"),
    ];
    list.into_iter().map(|(name, file, last)| Vector { name, file, last }).collect()
}

fn write_vector(crates: &Path, vector: &Vector) -> std::io::Result<()> {
    let text = plotrun(&vector.file);
    assert_eq!(text.lines().last(), Some(vector.last), "{}", vector.name);
    let folder = crates.join(vector.name);
    std::fs::write(folder.join("stdin"), &vector.file)?;
    std::fs::write(folder.join("stdout"), &text)?;
    println!(
        "{:<24} {:>6} bytes, {:>3} lines, last '{}'",
        vector.name,
        vector.file.len(),
        text.lines().count(),
        vector.last
    );
    Ok(())
}

fn main() -> ExitCode {
    let Some(crates) = std::env::args().nth(1) else {
        eprintln!("make_vectors CRATES");
        return ExitCode::from(2);
    };
    for vector in vectors() {
        if let Err(what) = write_vector(Path::new(&crates), &vector) {
            eprintln!("{}: {what}", vector.name);
            return ExitCode::FAILURE;
        }
    }
    ExitCode::SUCCESS
}

#[cfg(test)]
mod tests {
    use super::*;

    #[test]
    fn the_gate_has_these_files() {
        for vector in vectors() {
            let folder = Path::new(env!("CARGO_MANIFEST_DIR")).join("../crates").join(vector.name);
            let text = plotrun(&vector.file);
            assert_eq!(text.lines().last(), Some(vector.last), "{}", vector.name);
            assert!(std::fs::read(folder.join("stdin")).unwrap() == vector.file, "{}: stdin", vector.name);
            assert_eq!(std::fs::read_to_string(folder.join("stdout")).unwrap(), text, "{}: stdout", vector.name);
        }
    }

    /// Pairs what is admissible; fails where that leaves a choice.
    fn the_only_pairing(_: usize, reports: usize, sheet: &[u32], pairing: &mut [u32]) {
        for (track, taken) in pairing.iter_mut().enumerate() {
            let row = &sheet[track * reports..][..reports];
            let mut open = (0..reports).filter(|&report| row[report] != NONE);
            *taken = open.next().map_or(NONE, |report| report as u32);
            assert_eq!(open.next(), None, "track {track} has two reports");
        }
        let mut paired: Vec<u32> = pairing.iter().copied().filter(|&report| report != NONE).collect();
        paired.sort_unstable();
        assert!(paired.windows(2).all(|pair| pair[0] != pair[1]), "a report has two tracks");
    }

    #[test]
    fn no_choice_shows() {
        for vector in vectors() {
            assert_eq!(plotrun(&vector.file), plotrun_with(&vector.file, &mut the_only_pairing), "{}", vector.name);
        }
    }
}
