//! Files that are read, and the sets in them.

use std::io::Read;
use std::path::{Path, PathBuf};

use crate::image::{decode, MAGIC};
use crate::names::assemble;
use crate::report::{image_fault_line, text_fault_line, TEXT_FAULTS};
use crate::set::DriverSet;

/// The bytes of a file; `-` is the standard input.
pub fn read(name: &str) -> std::io::Result<Vec<u8>> {
    if name != "-" {
        return std::fs::read(name);
    }
    let mut bytes = Vec::new();
    std::io::stdin().read_to_end(&mut bytes)?;
    Ok(bytes)
}

/// The set of an image or a text, or the line of its fault.
pub fn read_set(bytes: &[u8]) -> Result<DriverSet, String> {
    if bytes.starts_with(&MAGIC) {
        return decode(bytes).map_err(image_fault_line);
    }
    assemble(bytes).map_err(|it| text_fault_line("text", &TEXT_FAULTS, it.kind, it.line))
}

/// The files that a path stands for: in a folder, those that are sets by their names, in the order
/// of the bytes of their paths. Links in it are passed over.
pub fn sets_at(path: &str) -> Vec<String> {
    if path == "-" || !Path::new(path).is_dir() {
        return vec![path.to_string()];
    }
    let mut found = Vec::new();
    gather(Path::new(path), &mut found);
    let mut names: Vec<String> = found.iter().map(|it| it.to_string_lossy().into()).collect();
    names.sort();
    names
}

fn gather(folder: &Path, found: &mut Vec<PathBuf>) {
    let Ok(entries) = std::fs::read_dir(folder) else { return found.push(folder.into()) };
    for entry in entries.flatten() {
        let (path, kind) = (entry.path(), entry.file_type());
        let is_set = path.extension().is_some_and(|it| it == "drv" || it == "image");
        match kind {
            Ok(kind) if kind.is_dir() => gather(&path, found),
            Ok(kind) if kind.is_file() && is_set => found.push(path),
            _ => {}
        }
    }
}
