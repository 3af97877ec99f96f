//! What an archive is made from, and whether one was made from it.

use std::collections::BTreeMap;
use std::path::{Path, PathBuf};
use std::process::Command;
use std::{env, fs, io};

use crate::sha256::sha256;

/// The archives: the calls on a slot, and the functions outside a slot.
pub const ARCHIVES: [&str; 2] = ["xhci_device", "xhci_functions"];

/// The crate of the repository that is built as an archive: it exports the calls of the library of the archive's name.
pub fn exporting(name: &str) -> String {
    format!("{name}_c")
}

pub fn archive(folder: &Path, name: &str) -> PathBuf {
    folder.join(format!("lib{name}.a"))
}

/// Stands beside an archive, from host/archives: the kit that made it, and the digests of its sources and of the archive itself.
pub fn origin(folder: &Path, name: &str) -> PathBuf {
    folder.join(format!("lib{name}.origin"))
}

/// The crates of the repository that archives are made from, each after those that it uses, with these.
pub fn crates(root: &Path, archives: &[&str]) -> io::Result<Vec<(String, Vec<String>)>> {
    let text = fs::read_to_string(root.join("crates.txt"))?;
    let lines = text.lines().filter_map(|line| line.split('#').next()?.split_once(':'));
    // A static library's line has its kind behind the name.
    let named = lines.filter_map(|(name, uses)| Some((name.split_whitespace().next()?, uses)));
    let uses: BTreeMap<String, Vec<String>> =
        named.map(|(name, uses)| (name.into(), uses.split_whitespace().map(String::from).collect())).collect();
    let mut found = Vec::new();
    archives.iter().for_each(|name| visit(&exporting(name), &uses, &mut found));
    Ok(found)
}

/// The folders of a crate that its archive is made from.
pub fn parts(root: &Path, name: &str) -> Vec<PathBuf> {
    let parts = ["src", "specs", "proofs"].map(|part| root.join("crates").join(name).join(part));
    parts.into_iter().filter(|folder| folder.is_dir()).collect()
}

fn visit(name: &str, uses: &BTreeMap<String, Vec<String>>, found: &mut Vec<(String, Vec<String>)>) {
    let Some(used) = uses.get(name).filter(|_| !found.iter().any(|known| known.0 == name)) else { return };
    for other in used {
        visit(other, uses, found);
    }
    found.push((name.into(), used.clone()));
}

fn files(folder: &Path, found: &mut Vec<PathBuf>) -> io::Result<()> {
    for entry in fs::read_dir(folder)? {
        let path = entry?.path();
        if path.is_dir() { files(&path, found)? } else { found.push(path) }
    }
    Ok(())
}

/// The digest of a text with a line for each crate that an archive is made from, and under it one for each file of its
/// src, specs and proofs. host/origin has the same.
pub fn digest(root: &Path, name: &str) -> io::Result<String> {
    let mut text = String::new();
    for (name, uses) in crates(root, &[name])? {
        text.push_str(&format!("{name}: {}\n", uses.join(" ")));
        let mut found = Vec::new();
        for folder in parts(root, &name) {
            files(&folder, &mut found)?;
        }
        found.sort();
        for path in found {
            let name = path.strip_prefix(root).unwrap_or(&path).display().to_string();
            text.push_str(&format!("{}  {name}\n", sha256(&fs::read(&path)?)));
        }
    }
    Ok(sha256(text.as_bytes()))
}

/// The file that names the kit, beside the folder of `rt`.
pub fn kit_file() -> Option<PathBuf> {
    let path = env::var_os("PATH")?;
    let rt = env::split_paths(&path).map(|folder| folder.join("rt")).find(|rt| rt.is_file())?;
    Some(rt.canonicalize().ok()?.parent()?.parent()?.join("KIT-ID")).filter(|file| file.is_file())
}

/// The kit's one line, if there is a kit here.
pub fn kit() -> Option<String> {
    let run = Command::new("rt").arg("version").output().ok().filter(|run| run.status.success())?;
    Some(String::from_utf8_lossy(&run.stdout).trim().to_string())
}

/// Why an archive cannot be taken for one of these sources (of any, where there are none) and of this kit.
pub fn fault(folder: &Path, name: &str, digest: Option<&str>, kit: Option<&str>) -> Option<String> {
    let archive = match fs::read(archive(folder, name)) {
        Ok(bytes) => sha256(&bytes),
        Err(e) => return Some(format!("lib{name}.a: {e}")),
    };
    let origin = match fs::read_to_string(origin(folder, name)) {
        Ok(text) => text,
        Err(e) => return Some(format!("lib{name}.origin, which says what lib{name}.a was made from: {e}")),
    };
    let said = |key: &str| origin.lines().find_map(|line| line.strip_prefix(key)?.strip_prefix(' ')).unwrap_or("");
    let is_other = |key: &str, here: Option<&str>| here.is_some_and(|here| said(key) != here);
    if is_other("archive", Some(&archive)) {
        return Some(format!("lib{name}.origin is not that archive's"));
    }
    if is_other("sources", digest) {
        let (there, here) = (said("sources"), digest?);
        return Some(format!("lib{name}.a was made from other sources: {there}, and here are {here}"));
    }
    if is_other("kit", kit) {
        return Some(format!("lib{name}.a was made by another kit: {}, and here is {}", said("kit"), kit?));
    }
    None
}
