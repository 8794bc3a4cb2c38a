//! include/tonkelvi.h with the C compiler, which cargo links with too, and with a C++ compiler where there is one; and the library's names.
use std::path::{Path, PathBuf};
use std::process::Command;

const WARNINGS: [&str; 4] = ["-Wall", "-Wextra", "-pedantic", "-Werror"];

fn library() -> PathBuf {
    Path::new(env!("TONKELVI_FOLDER")).join("libtonkelvi.a")
}

/// header.c as a program by this compiler.
fn program(compiler: &str, words: &[&str], name: &str) -> PathBuf {
    let here = Path::new(env!("CARGO_MANIFEST_DIR"));
    let program = Path::new(env!("CARGO_TARGET_TMPDIR")).join(name);
    let mut command = Command::new(compiler);
    command.args(words).args(WARNINGS).arg("-I").arg(here.join("../../include")).arg(here.join("tests/header.c"));
    // `-x` of the words is for header.c alone
    let built = command.args(["-x", "none"]).arg(library()).arg("-o").arg(&program).status();
    assert!(built.expect("the compiler").success(), "{compiler}");
    program
}

fn runs(program: &Path) {
    assert_eq!(Command::new(program).status().unwrap().code(), Some(0), "the line of header.c that failed");
}

#[test]
fn header() {
    runs(&program("cc", &["-std=c11"], "header"));
}

#[test]
fn header_in_cpp() {
    if Command::new("g++").arg("--version").output().is_err() {
        println!("left out: there is no g++");
        return;
    }
    runs(&program("g++", &["-std=c++11", "-x", "c++"], "header_cpp"));
}

/// The version is that of the Rust crates, and each sentence the one that Rust has.
#[test]
fn texts() {
    let output = Command::new(program("cc", &["-std=c11"], "texts")).arg("texts").output().unwrap();
    let text = String::from_utf8(output.stdout).unwrap();
    let mut lines = text.lines();
    let version = env!("CARGO_PKG_VERSION");
    let number = version.split('.').fold(0, |sum, part| 100 * sum + part.parse::<u32>().unwrap());
    assert_eq!(lines.next(), Some(&format!("{number} {version}")[..]));
    let sentences: Vec<&str> = tonkelvi::Refusal::ALL.iter().map(|refusal| refusal.sentence()).collect();
    assert_eq!(lines.collect::<Vec<_>>(), sentences);
}

/// The archive gives names of the interface alone, all of them, and asks for memset alone.
#[test]
fn names() {
    let listed = Command::new("nm").arg("--extern-only").arg("--portability").arg(library()).output().expect("nm of binutils");
    let text = String::from_utf8(listed.stdout).unwrap();
    let rows = text.lines().filter_map(|line| line.split_once(' '));
    let (asked, given): (Vec<_>, Vec<_>) = rows.partition(|(_, rest)| rest.starts_with('U'));
    assert!(given.iter().all(|(name, _)| name.starts_with("tonkelvi_")), "{given:?}");
    let header = include_str!("../../../include/tonkelvi.h");
    let declared: Vec<&str> =
        header.lines().filter_map(|line| line.strip_prefix("uint32_t ").or(line.strip_prefix("size_t "))?.strip_suffix('(')).collect();
    let mut names: Vec<&str> = given.iter().map(|(name, _)| *name).collect();
    let mut wanted = declared.clone();
    names.sort_unstable();
    wanted.sort_unstable();
    assert_eq!(names, wanted);
    assert!(asked.iter().all(|(name, _)| *name == "memset"), "{asked:?}");
}

/// As header.c has it of the struct in C.
#[test]
fn layout() {
    use std::mem::{align_of, offset_of, size_of};
    use tonkelvi::words::Segment;
    assert_eq!((size_of::<Segment>(), align_of::<Segment>()), (24, 8));
    let words = [offset_of!(Segment, block), offset_of!(Segment, opens), offset_of!(Segment, passes), offset_of!(Segment, bytes)];
    assert_eq!((words, offset_of!(Segment, start)), ([0, 4, 8, 12], 16));
}
