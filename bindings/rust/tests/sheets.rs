//! Sheets: their files in vectors, however long, and the longest file that a sheet can say.

use kahopiru::{sheet_to_vec, write_sheet, Refusal};

/// The bits of a sheet's map.
const ORIENTATION: u16 = 1 << 2;
const GAIN_MAP: u16 = 1 << 5;
const TONE_MAP: u16 = 1 << 6;
const ALTERNATE: u16 = 0b11 << 7;

/// A sheet with these columns, rows and map, a colour record of so many bytes, a gain record as given, and nothing in
/// any other part. Its sizes have 32 bits, and it is turned and mirrored: what makes a file longest.
fn sheet(cols: u16, rows: u16, map: u16, color_record: usize, gain_record: &[u8]) -> Vec<u8> {
    let cicp = [0, 1, 0, 1, 0, 1, 1];
    let string = |bytes: &[u8]| [&(bytes.len() as u32).to_be_bytes(), bytes].concat();
    let empty = || string(&[]);
    let gain_map = || [string(gain_record), empty(), vec![0; 9], cicp.to_vec(), empty()].concat();
    let fields = [cicp.to_vec(), empty(), vec![4], vec![0; 4], empty(), gain_map(), empty(), cicp.to_vec(), empty()];
    let head = [map.to_be_bytes(), cols.to_be_bytes(), rows.to_be_bytes()].concat();
    let sizes = [0, 1, 0, 0].repeat(4);
    let tiles = vec![0; 8 * usize::from(cols) * usize::from(rows)];
    let mut sheet = [head, sizes, vec![0; 2], string(&vec![0xFF; color_record]), empty(), tiles].concat();
    for (bit, field) in fields.iter().enumerate() {
        if map >> bit & 1 == 1 {
            sheet.extend_from_slice(field);
        }
    }
    sheet
}

/// The maps that are not refused: no tone map without a gain map, no alternate colour without a tone map.
fn maps() -> impl Iterator<Item = u16> {
    (0..1 << 9)
        .filter(|map| map & TONE_MAP == 0 || map & GAIN_MAP != 0)
        .filter(|map| map & ALTERNATE == 0 || map & TONE_MAP != 0)
}

#[test]
fn files_longer_than_the_first_room_come_whole() {
    // 24 × 16 tiles have 34,645 bytes, 34 × 45 have 136,639.
    for (cols, rows) in [(1, 1), (20, 18), (24, 16), (34, 45)] {
        let sheet = sheet(cols, rows, 0, 0, &[]);
        let mut room = vec![0x5A; 200_000];
        let length = write_sheet(&sheet, &mut room).unwrap();
        assert_eq!(length, 461 + 8 + 89 * usize::from(cols) * usize::from(rows));
        let file = sheet_to_vec(&sheet).unwrap();
        assert!(file == room[..length], "{cols} × {rows}");
        assert_eq!(file.capacity(), length);
    }
}

#[test]
fn a_refused_sheet_is_refused_as_in_lent_room() {
    let good = sheet(24, 16, ORIENTATION, 2, &[]);
    let mut cases = vec![vec![], vec![0; 12_289], [&good[..], &[0]].concat(), sheet(257, 1, 0, 0, &[])];
    cases.push([&[0x80, 0], &good[2..]].concat());
    cases.push([&good[..good.len() - 1], &[8]].concat());
    let mut room = vec![0; 200_000];
    let answers: Vec<_> = cases.iter().map(|case| write_sheet(case, &mut room).unwrap_err().number()).collect();
    assert_eq!(answers, [11, 15, 14, 1, 12, 13]);
    for (case, number) in cases.iter().zip(answers) {
        assert_eq!(sheet_to_vec(case).map_err(Refusal::number), Err(number));
    }
}

#[test]
fn the_longest_file_of_a_sheet_is_as_told() {
    // Each tile costs 8 bytes of a sheet and gives 89 of the file, whatever else there is; a byte of a record gives
    // one. So the longest file is found among these: for each map and each gain record, for each grid that leaves room
    // for them, all bytes that are left in the colour record.
    let mut longest = (0, vec![]);
    for map in maps() {
        for gain_record in [&[][..], &[1, 4]] {
            let one = sheet(1, 1, map, 0, gain_record);
            let length = sheet_to_vec(&one).unwrap().len();
            for rows in 1..=256u16 {
                for cols in rows..=256 {
                    let more = usize::from(cols) * usize::from(rows) - 1;
                    let Some(left) = 12_288usize.checked_sub(one.len() + 8 * more) else { break };
                    let file = length + 89 * more + left;
                    if file > longest.0 {
                        longest = (file, sheet(cols, rows, map, left, gain_record));
                    }
                }
            }
        }
    }
    let (length, sheet) = longest;
    assert_eq!(sheet.len(), 12_288);
    assert_eq!(length, 136_838);
    assert!(include_str!("../src/lib.rs").contains("has 136,838 bytes"));
    assert_eq!(sheet_to_vec(&sheet).unwrap().len(), length);
    let mut room = vec![0; length];
    assert_eq!(write_sheet(&sheet, &mut room[1..]), Err(Refusal::OutputLength));
    assert_eq!(write_sheet(&sheet, &mut room), Ok(length));
}
