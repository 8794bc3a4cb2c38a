//! crate_answers, and the lists of crates/vectors that tools/make_vectors.py makes with it.
use std::io::Write;
use std::path::Path;
use std::process::{Command, Stdio};

/// What crate_answers answers to these lines.
fn answers(lines: &[&str]) -> Vec<String> {
    let mut child =
        Command::new(env!("CARGO_BIN_EXE_crate_answers")).stdin(Stdio::piped()).stdout(Stdio::piped()).spawn().expect("crate_answers");
    child.stdin.take().unwrap().write_all((lines.join("\n") + "\n").as_bytes()).unwrap();
    let output = child.wait_with_output().unwrap();
    String::from_utf8(output.stdout).unwrap().lines().map(str::to_string).collect()
}

#[test]
#[cfg_attr(not(openjp2), ignore = "crate openjp2's answers: set OPENJP2_SRC to the src folder of its sources")]
fn a_packet_there_and_back() {
    let started = "2 1 0 0 1 1 8 0 0 0 0 0 0 65535 0 0 999 0 0 0 0 0 0";
    let asked = [
        ("start writer 0 1 1 1 8 0 8", "ok"),
        ("write 0 0 0 5 / 1 / 5 / 0 / *", "failed"),
        ("write 0 0 0 6 / 1 / 5 / 0 / *", "ok 6 e5 body="),
        ("start reader 0 1 1 1 8 0", "ok"),
        ("dump", &format!("ok {started}")),
        ("read 0 0 feadff", "failed align"),
        ("dump", &format!("ok {started}")),
        ("read 1 1 e5", "ok 1 1 1 1 1 / 1 0 8 1 / 0 1 1 5"),
        (&format!("load 0 {started}"), "ok"),
        ("read 0 0 e5", "ok 1 1 1 0 0 / 1 0 8 1 / 0 1 1 5"),
        ("write 0 0 0 5 / 1 / 5 / 0 / *", "bad"),
    ];
    let (lines, wanted): (Vec<&str>, Vec<&str>) = asked.into_iter().unzip();
    assert_eq!(answers(&lines), wanted);
}

/// A writer of one block at layer 999 whose inclusion node is this one.
fn loaded(node: &str) -> String {
    format!("load 0 1 1 0 999 1 1 5 0 0 0 0 0 0 {node} 0 0 0 0 0 0 0")
}

#[test]
#[cfg_attr(not(openjp2), ignore = "crate openjp2's answers: set OPENJP2_SRC to the src folder of its sources")]
fn not_yet_included() {
    let left = |node: &str| loaded(node).replace("load 0", "ok");
    let asked = [
        (loaded("999 999 0"), "bad".to_string()),
        (loaded("1000 999 0"), "ok".to_string()),
        ("dump".to_string(), left("1000 999 0")),
        ("write 0 0 0 9 / 0 / / / *".to_string(), "ok 1 80 body=".to_string()),
        (loaded("65535 999 0"), "ok".to_string()),
        ("dump".to_string(), left("65535 999 0")),
        ("write 0 0 0 9 / 0 / / / *".to_string(), "ok 1 c0 body=".to_string()),
    ];
    let (lines, wanted): (Vec<&str>, Vec<&str>) = asked.iter().map(|(line, wanted)| (&line[..], &wanted[..])).unzip();
    assert_eq!(answers(&lines), wanted);
}

#[test]
#[cfg_attr(not(openjp2), ignore = "the lists of crates/vectors from crate openjp2: set OPENJP2_SRC to the src folder of its sources")]
#[cfg_attr(not(python), ignore = "the lists of crates/vectors from crate openjp2: there is no python3")]
fn the_lists_are_the_crates() {
    let root = Path::new(env!("CARGO_MANIFEST_DIR")).join("../..");
    let made = Path::new(env!("CARGO_TARGET_TMPDIR")).join("lists");
    std::fs::create_dir_all(&made).unwrap();
    let tool = Command::new("python3")
        .arg(root.join("tools/make_vectors.py"))
        .args([env!("CARGO_BIN_EXE_crate_answers"), "--out"])
        .arg(&made)
        .env("PYTHONDONTWRITEBYTECODE", "1")
        .output()
        .unwrap();
    assert!(tool.status.success(), "{}", String::from_utf8_lossy(&tool.stderr));
    let mut lists = 0;
    for entry in std::fs::read_dir(root.join("crates/vectors/data")).unwrap() {
        let list = entry.unwrap();
        let again = std::fs::read(made.join(list.file_name())).expect("a list of that name");
        assert!(again == std::fs::read(list.path()).unwrap(), "{:?} is another list", list.file_name());
        lists += 1;
    }
    assert_eq!(lists, 13);
}
