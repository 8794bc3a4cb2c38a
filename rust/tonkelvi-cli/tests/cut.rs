//! Drawings that end in a packet's header: the row says so, and has no numbers that nobody told.
mod made;
use made::codestream;
use std::collections::HashSet;
use std::path::{Path, PathBuf};
use std::process::{Command, Output};
use tonkelvi::{Band, Contribution, Markers, Writer};
use tonkelvi_cli::catalogue::Catalogue;
use tonkelvi_cli::check::Check;
use tonkelvi_cli::rows::{Form, Sheet};

/// 37 passes of 200 bytes, SCOPE's packet D, and then one pass of 3 bytes.
const D: [u8; 4] = [0xff, 0x78, 0x06, 0x40];

fn packets(markers: Markers) -> Vec<Vec<u8>> {
    let mut writer = Writer::new(&[Band { across: 1, down: 1, planes: 9 }], 0, &[9]).unwrap();
    let mut packet = |passes: u32, bytes: u32, number| {
        let mut lengths = vec![0; passes as usize];
        lengths[0] = bytes;
        let layer = Contribution { counts: &[passes], lengths: &lengths, marks: &vec![0; passes as usize] };
        writer.write(layer, &vec![7; bytes as usize], markers, number).unwrap()
    };
    vec![packet(37, 200, 0), packet(1, 3, 1)]
}

/// The codestream of these packets, and where the packets begin in it.
fn drawing(markers: Markers) -> (Vec<u8>, usize) {
    let packets = packets(markers);
    let file = codestream(1, 1, &packets, markers);
    let first = file.len() - 2 - packets.concat().len();
    (file, first)
}

fn sheet(file: &[u8], form: Form) -> (Vec<String>, bool) {
    let english = Catalogue::of("en").unwrap();
    let mut sheet = Sheet::new("drawing", form, &english);
    sheet.read(Ok(file.to_vec()));
    (sheet.rows.lines().map(str::to_string).collect(), sheet.whole)
}

const SENTENCE: &str = "The packet's header goes past the end of its tile-part or its packed headers; bits that are not there: ";

#[test]
fn every_cut_of_a_header() {
    let (file, first) = drawing(Markers::NONE);
    assert_eq!(file[first..first + 4], D);
    for (bytes, bits) in [(1, 12), (2, 13), (3, 5)] {
        let end = first + bytes;
        let (rows, whole) = sheet(&file[..end], Form::Csv);
        let header = format!("drawing,0,0,0,0,0,{first},,,,,,,123,{SENTENCE}{bits}.");
        assert_eq!((rows, whole), (vec![header, format!("drawing,,,,,,{end},,,,,,,112,The file is cut off here.")], false));
        let (rows, _) = sheet(&file[..end], Form::Json);
        let place = format!("\"tile\":0,\"layer\":0,\"resolution\":0,\"component\":0,\"precinct\":0,\"offset\":{first}");
        assert_eq!(rows[0], format!("{{\"file\":\"drawing\",{place},\"message\":123,\"sentence\":\"{SENTENCE}{bits}.\"}}"));
    }
    // At a header's end and in a body nothing is missing but what 112 says; before the header the tile has no packet.
    for end in [first + 4, first + 5, first + 203] {
        assert!(sheet(&file[..end], Form::Csv).0.iter().all(|row| row.contains(",112,")), "{end}");
    }
    assert!(sheet(&file[..first], Form::Csv).0.iter().all(|row| row.contains(",112,") || row.contains(",115,")));
}

/// The packet before keeps its row, and the tile's later ones are not read.
#[test]
fn the_second_packet() {
    let packets = [packets(Markers::NONE), vec![vec![0], vec![0]]].concat();
    let second = packets[0].len();
    let whole = codestream(1, 1, &packets, Markers::NONE);
    let first = whole.len() - 2 - packets.concat().len();
    let (rows, is_whole) = sheet(&whole, Form::Csv);
    assert_eq!((rows.len(), is_whole, &rows[0][..]), (4, true, &format!("drawing,0,0,0,0,0,{first},4,200,0,37,200,0,,")[..]));
    // The tile-part ends in the second packet's pass count, and the codestream goes on.
    let damaged = codestream(1, 1, &[packets[0].clone(), vec![0xfc], vec![], vec![]], Markers::NONE);
    let (cut, is_whole) = sheet(&damaged, Form::Csv);
    assert_eq!((&cut[0], is_whole, cut.len()), (&rows[0], false, 2));
    assert!(cut[1].starts_with(&format!("drawing,0,1,0,0,0,{},,,,,,,123,", first + second)), "{}", cut[1]);
    let english = Catalogue::of("en").unwrap();
    let check = Check::of("drawing", Form::Csv, &english, Some(&damaged));
    assert_eq!((check.whole, check.packets, check.same), (false, 1, 1));
    assert_eq!(check.text(), format!("drawing,0,1,0,0,0,{},,123,{SENTENCE}9.\n", first + second));
}

/// SOP whole, or a part of it, and nothing behind: the header's first bit is missing. With EPH cut all that the header says is there.
#[test]
fn markers() {
    let (file, first) = drawing(Markers::BOTH);
    for bytes in 1..=6 {
        let (rows, _) = sheet(&file[..first + bytes], Form::Csv);
        assert_eq!(rows[0], format!("drawing,0,0,0,0,0,{first},,,,,,,123,{SENTENCE}1."), "{bytes}");
    }
    for (bytes, bits) in [(7, 12), (8, 13), (9, 5)] {
        let (rows, _) = sheet(&file[..first + bytes], Form::Csv);
        assert_eq!(rows[0], format!("drawing,0,0,0,0,0,{first},,,,,,,123,{SENTENCE}{bits}."), "{bytes}");
    }
    for bytes in 10..212 {
        let (rows, _) = sheet(&file[..first + bytes], Form::Csv);
        assert!(rows.iter().all(|row| row.contains(",112,")), "{bytes} {rows:?}");
    }
}

fn drawings() -> Vec<(PathBuf, Vec<u8>)> {
    let files = tonkelvi_cli::files::collect(&[Path::new(env!("CARGO_MANIFEST_DIR")).join("tests/drawings")]);
    files.into_iter().map(|path| (path.clone(), std::fs::read(path).unwrap())).collect()
}

/// The columns that tell a packet, all up to the message. Where EPH was cut off it is put to the header's bytes.
fn told(row: &str) -> Option<Vec<String>> {
    let mut columns: Vec<String> = row.split(',').take(13).map(str::to_string).collect();
    let header: usize = columns[7].parse().ok()?;
    if row.contains(",102,") {
        columns[7] = (header + 2).to_string();
    }
    Some(columns)
}

/// Wherever a drawing of an encoder is cut, a row that tells a packet is one of the whole drawing's, and `check` finds each of these
/// packets written as it is there.
#[test]
fn rows_of_cut_drawings_are_the_whole_ones() {
    let english = Catalogue::of("en").unwrap();
    let mut cut_headers = 0;
    for (path, file) in drawings() {
        let (whole, _) = sheet(&file, Form::Csv);
        let known: HashSet<Vec<String>> = whole.iter().filter_map(|row| told(row)).collect();
        for end in (0..file.len()).step_by(41) {
            let (rows, is_whole) = sheet(&file[..end], Form::Csv);
            assert!(!is_whole, "{path:?} {end}");
            cut_headers += rows.iter().filter(|row| row.contains(",123,")).count();
            let other = rows.iter().find(|row| told(row).is_some_and(|columns| !known.contains(&columns)));
            assert_eq!(other, None, "{path:?} {end}");
            let check = Check::of("drawing", Form::Csv, &english, Some(&file[..end]));
            assert_eq!((check.same + check.full_headers, check.whole), (check.packets, false), "{path:?} {end}");
        }
    }
    assert!(cut_headers > 100, "{cut_headers} headers were cut");
}

fn tonkelvi(words: &[&str], file: &Path) -> Output {
    let mut command = Command::new(env!("CARGO_BIN_EXE_tonkelvi"));
    command.args(words).arg("--quiet").arg(file).env("LC_ALL", "C.UTF-8").output().unwrap()
}

#[test]
fn through_the_command() {
    let (file, first) = drawing(Markers::NONE);
    let folder = Path::new(env!("CARGO_TARGET_TMPDIR"));
    let (cut, whole) = (folder.join("cut.j2k"), folder.join("uncut.j2k"));
    std::fs::write(&cut, &file[..first + 2]).unwrap();
    std::fs::write(&whole, &file).unwrap();
    for (words, rows) in [(&["sheet"][..], 3), (&["check"], 3), (&["sheet", "--json"], 2), (&["check", "--json", "--lang", "de"], 2)] {
        let output = tonkelvi(words, &cut);
        let text = String::from_utf8(output.stdout).unwrap();
        assert_eq!((output.status.code(), text.lines().count()), (Some(1), rows), "{words:?}");
        let said = if words.contains(&"--json") { "\"message\":123,\"sentence\":" } else { ",123,The packet's header goes past" };
        assert_eq!(text.matches(said).count(), 1, "{words:?} {text}");
        assert!(text.contains(" 13."), "{words:?} {text}");
        assert_eq!(tonkelvi(words, &whole).status.code(), Some(0), "{words:?}");
    }
    let rows = String::from_utf8(tonkelvi(&["sheet"], &whole).stdout).unwrap();
    assert!(rows.lines().skip(1).all(|row| row.ends_with(",,")) && rows.lines().count() == 3, "{rows}");
}

#[test]
fn explained() {
    for (language, said) in [("en", "there: N."), ("de", "fehlende Bits: N."), ("fr", "bits manquants : N.")] {
        let output = Command::new(env!("CARGO_BIN_EXE_tonkelvi")).args(["explain", "123", "--lang", language]).output().unwrap();
        let text = String::from_utf8(output.stdout).unwrap();
        assert!(text.starts_with("123: ") && text.lines().next().unwrap().ends_with(said) && text.lines().count() == 2, "{text}");
    }
}
