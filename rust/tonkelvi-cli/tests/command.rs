//! The command as it is called.
use std::io::Write;
use std::path::{Path, PathBuf};
use std::process::{Command, Output, Stdio};

/// Runs the command in the folder of the drawings, with text on standard input.
fn tonkelvi(words: &[&str], input: &str) -> Output {
    let mut child = Command::new(env!("CARGO_BIN_EXE_tonkelvi"))
        .args(words)
        .current_dir(Path::new(env!("CARGO_MANIFEST_DIR")).join("tests/drawings"))
        .env_remove("LC_ALL")
        .env_remove("LC_MESSAGES")
        .env("LANG", "C.UTF-8")
        .stdin(Stdio::piped())
        .stdout(Stdio::piped())
        .stderr(Stdio::piped())
        .spawn()
        .unwrap();
    let _ = child.stdin.take().unwrap().write_all(input.as_bytes());
    child.wait_with_output().unwrap()
}

fn text(output: &Output) -> String {
    String::from_utf8(output.stdout.clone()).unwrap()
}

#[test]
fn a_whole_file() {
    let output = tonkelvi(&["sheet", "openjpeg_poc.j2k"], "");
    let rows = text(&output);
    assert_eq!(output.status.code(), Some(0));
    let columns = "file,tile,layer,resolution,component,precinct,offset,header bytes,body bytes,blocks,passes,lengths,starts,message,";
    assert!(rows.starts_with(columns));
    assert_eq!(rows.lines().count(), 37);
    assert!(rows.lines().all(|row| row.split(',').count() == 15));
    assert!(output.stderr.is_empty());
}

#[test]
fn a_file_that_is_not_there_and_the_next_one() {
    let output = tonkelvi(&["sheet", "--lang", "de", "none.jp2", "openjpeg_poc.j2k"], "");
    let rows = text(&output);
    assert_eq!(output.status.code(), Some(1));
    assert_eq!(rows.lines().nth(1), Some("none.jp2,,,,,,0,,,,,,,110,Die Datei kann nicht gelesen werden."));
    assert_eq!(rows.lines().count(), 38);
}

#[test]
fn names_on_standard_input_and_threads() {
    let one = tonkelvi(&["sheet", "."], "");
    let four = tonkelvi(&["sheet", "--jobs", "4", "."], "");
    assert_eq!(one.stdout, four.stdout);
    let listed = tonkelvi(&["sheet", "--files-from", "-"], "openjpeg_poc.j2k\n\nopenjpeg_lossy.jp2\n");
    assert_eq!(listed.status.code(), Some(0));
    assert_eq!(text(&listed).lines().count(), 1 + 36 + 27);
}

#[test]
fn json_lines() {
    let output = tonkelvi(&["sheet", "--json", "grok_high_throughput.j2k", "openjpeg_poc.j2k"], "");
    let rows = text(&output);
    assert_eq!(rows.lines().count(), 37);
    assert!(rows.lines().all(|row| row.starts_with("{\"file\":\"") && row.ends_with('}')));
    assert!(rows.lines().next().unwrap().contains("\"message\":2,\"sentence\":\"The style has"));
}

#[test]
fn starts_of_segments() {
    let rows = text(&tonkelvi(&["sheet", "openjpeg_style25.j2k"], ""));
    assert_eq!(rows.lines().nth(2), Some("openjpeg_style25.j2k,0,0,0,1,0,147,4,5,0,15,3+1+0+1,0+3+4+4,,"));
    assert!(rows.contains("\nopenjpeg_style25.j2k,0,1,2,0,0,1136,8,20,0 1 2,11 8 10,5+2 5+2 4+2,0+5 7+12 14+18,,\n"));
    let rows = text(&tonkelvi(&["sheet", "--json", "openjpeg_style25.j2k"], ""));
    assert!(rows.lines().nth(1).unwrap().ends_with("\"passes\":[15],\"lengths\":[[3,1,0,1]],\"starts\":[[0,3,4,4]]}"));
}

#[test]
fn check_names_full_headers_alone() {
    let output = tonkelvi(&["check", "ffmpeg_sampled.jp2"], "");
    assert_eq!((output.status.code(), text(&output).lines().count()), (Some(0), 1));
    let said = String::from_utf8(output.stderr).unwrap();
    assert_eq!(said, "ffmpeg_sampled.jp2: 21 packets, 21 written the same, 0 full headers without contributions, 0 different\n");
    assert!(tonkelvi(&["check", "--quiet", "ffmpeg_sampled.jp2"], "").stderr.is_empty());
    let output = tonkelvi(&["check", "--lang", "de", "openjpeg_poc.j2k"], "");
    let rows = text(&output);
    assert_eq!((output.status.code(), rows.lines().count()), (Some(0), 8));
    let sentence = ",122,\"Der Codierer schrieb für dieses Paket ohne Beiträge einen vollen Kopf, dessen erstes Bit eine 1 ist.\"";
    assert!(rows.lines().skip(1).all(|row| row.ends_with(sentence)), "{rows}");
    let said = String::from_utf8(output.stderr).unwrap();
    assert_eq!(said, "openjpeg_poc.j2k: 36 packets, 29 written the same, 7 full headers without contributions, 0 different\n");
}

/// A path for a test's own file, with nothing there.
fn own(name: &str) -> PathBuf {
    let path = Path::new(env!("CARGO_TARGET_TMPDIR")).join(name);
    let _ = std::fs::remove_file(&path);
    path
}

fn said(output: &Output) -> String {
    String::from_utf8(output.stderr.clone()).unwrap()
}

#[test]
fn headers_gathered_and_spread() {
    let (there, back) = (own("there.jp2"), own("back.jp2"));
    let [there, back] = [&there, &back].map(|path| path.to_str().unwrap());
    std::fs::write(back, "older").unwrap();
    let output = tonkelvi(&["gather", "openjpeg_lossy.jp2", there], "");
    assert_eq!((output.status.code(), output.stdout.len()), (Some(0), 0));
    assert_eq!(said(&output), "openjpeg_lossy.jp2: 27 packets, 298 header bytes moved, 3 tile-parts\n");
    let output = tonkelvi(&["spread", "-q", there, back], "");
    assert_eq!((output.status.code(), output.stdout.len(), output.stderr.len()), (Some(0), 0, 0));
    let drawing = Path::new(env!("CARGO_MANIFEST_DIR")).join("tests/drawings/openjpeg_lossy.jp2");
    assert_eq!(std::fs::read(back).unwrap(), std::fs::read(drawing).unwrap());
    assert_eq!(tonkelvi(&["check", "-q", there], "").status.code(), Some(0));
}

#[test]
fn headers_that_are_not_moved() {
    let out = own("not_moved.jp2");
    let to = out.to_str().unwrap();
    let head = "file,tile,layer,resolution,component,precinct,offset,differs at,message,sentence\n";
    for (words, row) in [
        (&["gather", "none.jp2", to][..], "none.jp2,,,,,,0,,110,The file can't be read.\n"),
        (&["gather", "../command.rs", to], "../command.rs,,,,,,0,,111,The file is not a JPEG 2000 drawing.\n"),
        (&["spread", "openjpeg_poc.j2k", to, "--lang=de"], "openjpeg_poc.j2k,,,,,,0,,125,Kein Paketkopf steht in PPM oder PPT.\n"),
    ] {
        let output = tonkelvi(words, "");
        assert_eq!((output.status.code(), text(&output), said(&output)), (Some(1), format!("{head}{row}"), String::new()));
    }
    let output = tonkelvi(&["gather", "--json", "grok_high_throughput.j2k", to], "");
    assert_eq!(output.status.code(), Some(1));
    let row = text(&output);
    assert!(row.starts_with("{\"file\":\"grok_high_throughput.j2k\",\"tile\":0,") && row.contains("\"message\":2,"), "{row}");
    assert!(!out.exists());
    // An older file stays.
    std::fs::write(&out, "older").unwrap();
    assert_eq!(tonkelvi(&["gather", "none.jp2", to], "").status.code(), Some(1));
    assert_eq!(std::fs::read(&out).unwrap(), b"older");
}

#[test]
fn where_headers_are_not_moved_to() {
    let (file, link) = (own("itself.j2k"), own("link.j2k"));
    let drawing = Path::new(env!("CARGO_MANIFEST_DIR")).join("tests/drawings/openjpeg_poc.j2k");
    std::fs::copy(&drawing, &file).unwrap();
    std::fs::hard_link(&file, &link).unwrap();
    let [path, link] = [&file, &link].map(|path| path.to_str().unwrap());
    let no_folder = own("no folder").join("out.j2k");
    for words in [
        &["gather", path, path][..],
        &["gather", path, link],
        &["gather", path, no_folder.to_str().unwrap()],
        &["gather", path],
        &["gather", path, "a", "b"],
        &["spread"],
        &["gather", "--files-from", "-", path, "a"],
    ] {
        let output = tonkelvi(words, "");
        assert_eq!((output.status.code(), output.stdout.len()), (Some(2), 0), "{words:?}");
        assert!(said(&output).starts_with("tonkelvi: "), "{words:?}");
    }
    assert_eq!(std::fs::read(&file).unwrap(), std::fs::read(drawing).unwrap());
}

/// What could not be written whole is not left.
#[cfg(target_os = "linux")]
#[test]
fn a_full_disk() {
    let output = tonkelvi(&["gather", "openjpeg_poc.j2k", "/dev/full"], "");
    assert_eq!(output.status.code(), Some(2));
    assert!(said(&output).starts_with("tonkelvi: /dev/full can't be written: ") && Path::new("/dev/full").exists());
}

#[test]
fn explain_and_help() {
    let output = tonkelvi(&["explain", "12", "--lang", "fr"], "");
    assert!(text(&output).starts_with("12: L'entrée se termine par un octet FF"));
    assert_eq!(output.status.code(), Some(0));
    assert!(text(&tonkelvi(&["--help"], "")).contains("tonkelvi sheet"));
    for words in [&["explain", "99"][..], &["explain", "120"], &["explain"], &["sheet"], &[], &["sheet", "--lang", "xx", "."]] {
        let output = tonkelvi(words, "");
        assert_eq!((output.status.code(), output.stdout.len()), (Some(2), 0), "{words:?}");
    }
}
