//! The files that paths name.
use std::io::{self, BufRead, Write};
use std::path::{Path, PathBuf};

const EXTENSIONS: [&str; 5] = ["j2k", "j2c", "jpc", "jp2", "jpx"];

/// The files of these paths in order: a file itself, a folder's drawings by name.
pub fn collect(paths: &[PathBuf]) -> Vec<PathBuf> {
    let mut files = Vec::new();
    for path in paths {
        if path.is_dir() {
            search(path, &mut files);
        } else {
            files.push(path.clone());
        }
    }
    files
}

/// Adds the drawings below a folder; a folder that can't be read is added itself, so that it gets a row.
fn search(folder: &Path, files: &mut Vec<PathBuf>) {
    let Ok(entries) = std::fs::read_dir(folder) else {
        files.push(folder.to_path_buf());
        return;
    };
    let mut paths: Vec<PathBuf> = entries.flatten().map(|entry| entry.path()).collect();
    paths.sort();
    for path in paths {
        if path.is_dir() && !path.is_symlink() {
            search(&path, files);
        } else if is_drawing(&path) && !path.is_dir() {
            files.push(path);
        }
    }
}

fn is_drawing(path: &Path) -> bool {
    let extension = path.extension().and_then(|e| e.to_str()).map(str::to_ascii_lowercase);
    extension.is_some_and(|e| EXTENSIONS.contains(&e.as_str()))
}

/// The paths that a list names, one a line; `-` is standard input.
pub fn listed(list: &Path) -> io::Result<Vec<PathBuf>> {
    let lines: io::Result<Vec<Vec<u8>>> = match list.to_str() {
        Some("-") => io::stdin().lock().split(b'\n').collect(),
        _ => io::BufReader::new(std::fs::File::open(list)?).split(b'\n').collect(),
    };
    Ok(lines?.into_iter().filter(|line| !line.is_empty()).map(path_of).collect())
}

/// Whether both paths name one file that is there.
pub fn are_one(a: &Path, b: &Path) -> bool {
    let same_path = matches!((a.canonicalize(), b.canonicalize()), (Ok(a), Ok(b)) if a == b);
    same_path || are_linked(a, b)
}

#[cfg(unix)]
fn are_linked(a: &Path, b: &Path) -> bool {
    use std::os::unix::fs::MetadataExt;
    let place = |path: &Path| path.metadata().map(|data| (data.dev(), data.ino()));
    matches!((place(a), place(b)), (Ok(a), Ok(b)) if a == b)
}

#[cfg(not(unix))]
fn are_linked(_: &Path, _: &Path) -> bool {
    false
}

/// Writes a file; where that fails, none is left.
pub fn write_whole(path: &Path, bytes: &[u8]) -> io::Result<()> {
    let mut file = std::fs::File::create(path)?;
    let written = file.write_all(bytes).and_then(|()| file.flush());
    if written.is_err() && path.is_file() {
        let _ = std::fs::remove_file(path);
    }
    written
}

/// A name's bytes as they are.
#[cfg(unix)]
fn path_of(name: Vec<u8>) -> PathBuf {
    use std::os::unix::ffi::OsStringExt;
    std::ffi::OsString::from_vec(name).into()
}

#[cfg(not(unix))]
fn path_of(name: Vec<u8>) -> PathBuf {
    String::from_utf8_lossy(&name).trim_end_matches('\r').into()
}
