//! Drawings with more layers than encoders make: codestreams of one tile and one precinct, put together here.
mod made;
use made::codestream;
use std::process::Command;
use tonkelvi::{Band, Contribution, Markers, Writer};
use tonkelvi_cli::catalogue::Catalogue;
use tonkelvi_cli::check::Check;
use tonkelvi_cli::rows::{Form, Sheet};

/// Packets of two blocks side by side: the first contributes to every hundredth layer, the second to the last one alone.
fn packets(layers: u32) -> Vec<Vec<u8>> {
    let mut writer = Writer::new(&[Band { across: 2, down: 1, planes: 9 }], 0, &[9, 7]).unwrap();
    let packet = |layer: u32| {
        let counts = [u32::from(layer % 100 == 5), u32::from(layer + 1 == layers)];
        let passes = counts[0] + counts[1];
        let contribution = Contribution { counts: &counts, lengths: &vec![3; passes as usize], marks: &vec![0; passes as usize] };
        writer.write(contribution, &vec![7; 3 * passes as usize], Markers::NONE, 0).unwrap()
    };
    (0..layers).map(packet).collect()
}

#[test]
fn a_sheet_of_every_layer() {
    let english = Catalogue::of("en").unwrap();
    for layers in [998, 999, 1000, 1200, 65_535] {
        let packets = packets(layers);
        let file = codestream(2, 1, &packets, Markers::NONE);
        let mut sheet = Sheet::new("drawing", Form::Csv, &english);
        sheet.read(Ok(file.clone()));
        assert_eq!((sheet.whole, sheet.packets), (true, layers.into()));
        let last = packets.last().unwrap().len();
        let row = format!("drawing,0,{},0,0,0,{},{},3,1,1,3,0,,", layers - 1, file.len() - 2 - last, last - 3);
        assert_eq!(sheet.rows.lines().last(), Some(&row[..]));
        let check = Check::of("drawing", Form::Csv, &english, Some(&file));
        assert_eq!((check.whole, check.packets, check.same), (true, layers.into(), layers.into()));
    }
}

#[test]
fn the_command_reads_1200_layers() {
    let file = std::path::Path::new(env!("CARGO_TARGET_TMPDIR")).join("layers.j2k");
    std::fs::write(&file, codestream(2, 1, &packets(1200), Markers::NONE)).unwrap();
    for (command, rows) in [("sheet", 1201), ("check", 1)] {
        let output = Command::new(env!("CARGO_BIN_EXE_tonkelvi")).args([command, "--quiet"]).arg(&file).output().unwrap();
        assert_eq!((output.status.code(), String::from_utf8(output.stdout).unwrap().lines().count()), (Some(0), rows));
    }
}

/// A byte a layer for a precinct of 64 × 64 blocks.
#[test]
fn absent_packets_of_a_large_precinct() {
    let english = Catalogue::of("en").unwrap();
    let file = codestream(64, 64, &vec![vec![0]; 2000], Markers::NONE);
    let check = Check::of("drawing", Form::Csv, &english, Some(&file));
    assert_eq!((check.whole, check.packets, check.same), (true, 2000, 2000));
}

/// Headers of 3 × 2 blocks over twelve layers, four of them with passes of 3 bytes each, as crate openjp2 writes them: with full headers
/// for packets without passes, with single 0 bits at some places before it goes on, and with single 0 bits alone.
const HEADERS: [[&str; 12]; 4] = [
    ["80", "80", "dd8c", "80", "80", "80", "f8d8c0", "80", "8630", "80", "80", "c7238e11c723"],
    ["00", "80", "dd8c", "80", "00", "80", "f8d8c0", "80", "8630", "80", "00", "c691c68471a460"],
    ["00", "00", "976300", "00", "00", "80", "f8d8c0", "00", "80c600", "00", "8000", "c7238e11c723"],
    ["00", "00", "976300", "00", "00", "00", "8f1b1800", "00", "80c600", "00", "00", "c648e3211c648c"],
];
const PASSES: [usize; 12] = [0, 0, 1, 0, 0, 0, 3, 0, 1, 0, 0, 6];

fn bytes(text: &str) -> Vec<u8> {
    (0..text.len()).step_by(2).map(|at| u8::from_str_radix(&text[at..at + 2], 16).unwrap()).collect()
}

/// The packet of a layer with this header, and with the markers.
fn packet(layer: usize, header: &str, markers: Markers) -> Vec<u8> {
    let sop = if markers.sop { vec![0xff, 0x91, 0, 4, 0, layer as u8] } else { Vec::new() };
    let eph = if markers.eph { &[0xff, 0x92][..] } else { &[] };
    [&sop[..], &bytes(header), eph, &vec![7; 3 * PASSES[layer]]].concat()
}

/// The rows of a check, each as layer, place of the difference and message; and how many packets are the same.
fn checked(headers: &[&str], markers: Markers) -> (Vec<String>, u64) {
    let packets: Vec<Vec<u8>> = headers.iter().enumerate().map(|(layer, header)| packet(layer, header, markers)).collect();
    let file = codestream(3, 2, &packets, markers);
    let first = file.len() - 2 - packets.concat().len();
    let english = Catalogue::of("en").unwrap();
    let check = Check::of("drawing", Form::Csv, &english, Some(&file));
    let row = |row: &str| {
        let fields: Vec<&str> = row.split(',').collect();
        let layer: usize = fields[2].parse().unwrap();
        let before = first + packets[..layer].concat().len();
        let place = fields[7].parse::<usize>().map_or(String::new(), |place| format!(" at {}", place - before));
        format!("{layer}{place}: {}", fields[8])
    };
    let rows: Vec<String> = check.text().lines().map(row).collect();
    assert_eq!(check.whole, rows.iter().all(|row| row.ends_with(": 122")));
    (rows, check.same)
}

#[test]
fn packets_without_contributions_of_both_kinds() {
    for markers in [Markers::NONE, Markers::BOTH, Markers { sop: true, eph: false }, Markers { sop: false, eph: true }] {
        for headers in HEADERS {
            let full = (0..12).filter(|layer| PASSES[*layer] == 0 && headers[*layer] != "00");
            let expected: Vec<String> = full.map(|layer| format!("{layer}: 122")).collect();
            let same = 12 - expected.len() as u64;
            assert_eq!(checked(&headers, markers), (expected, same), "{headers:?} {markers:?}");
        }
    }
}

/// A single 0 bit with other bits behind it, and a full header with a 1 among the bits that fill its last byte.
#[test]
fn other_headers_without_contributions() {
    let mut headers = HEADERS[3];
    headers[4] = "40";
    assert_eq!(checked(&headers, Markers::NONE), (vec!["4 at 0: 121".to_string()], 11));
    assert_eq!(checked(&headers, Markers::BOTH), (vec!["4 at 6: 121".to_string()], 11));
    let mut headers = HEADERS[2];
    headers[10] = "8001";
    let rows = vec!["5: 122".to_string(), "10 at 1: 121".to_string()];
    assert_eq!(checked(&headers, Markers::NONE), (rows, 10));
}
