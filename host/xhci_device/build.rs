//! Links the archives. The folder XHCI_DEVICE_LIB_DIR has ready ones, which must have been made from the sources that are
//! here; XHCI_DEVICE_LIB_UNCHECKED takes those of unknown origin. Otherwise host/archives proves and builds each, unless the
//! last one was made from these sources.

#[path = "build/prove.rs"]
mod prove;
#[path = "build/sha256.rs"]
mod sha256;
#[path = "build/sources.rs"]
mod sources;

use std::env;
use std::path::{Path, PathBuf};
use std::process::exit;

use sources::{ARCHIVES, archive, crates, digest, fault, kit, kit_file, origin, parts};

/// Cargo prints what is wrong.
fn fail(message: &str) -> ! {
    eprintln!("{message}");
    exit(1)
}

/// The repository that the package stands in, if it does.
fn repository() -> Option<PathBuf> {
    let manifest = PathBuf::from(env::var_os("CARGO_MANIFEST_DIR").expect("cargo's variable"));
    let root = manifest.join("../..").canonicalize().ok()?;
    root.join("crates.txt").is_file().then_some(root)
}

/// The archives of a folder that are not taken, each with why.
fn faults(folder: &Path, root: Option<&Path>) -> Vec<(&'static str, String)> {
    let kit = kit().filter(|_| root.is_some());
    let fault = |name| {
        let digest = root.map(|root| digest(root, name).expect("the sources"));
        Some((name, fault(folder, name, digest.as_deref(), kit.as_deref())?))
    };
    ARCHIVES.into_iter().filter_map(fault).collect()
}

fn ready(folder: PathBuf, root: Option<&Path>) -> PathBuf {
    if folder.is_relative() {
        fail(&format!("XHCI_DEVICE_LIB_DIR must be an absolute path, and {} is none", folder.display()));
    }
    let unchecked = env::var_os("XHCI_DEVICE_LIB_UNCHECKED").is_some();
    if let Some((_, fault)) = faults(&folder, root).first().filter(|_| !unchecked) {
        fail(&format!(
            "what XHCI_DEVICE_LIB_DIR names, {}, is not taken: {fault}\n\
             (without the variable the archives are proved and built here; XHCI_DEVICE_LIB_UNCHECKED=1 takes any)",
            folder.display()
        ));
    }
    folder
}

fn built(root: &Path) -> PathBuf {
    let machine = env::var("CARGO_CFG_TARGET_ARCH").expect("cargo's variable");
    if machine != "x86_64" {
        fail(&format!("rt builds for x86_64: XHCI_DEVICE_LIB_DIR must name a folder with archives for {machine}"));
    }
    let folder = root.join("target/staticlib");
    let old: Vec<_> = faults(&folder, Some(root)).into_iter().map(|fault| fault.0).collect();
    if old.is_empty() {
        return folder;
    }
    if kit().is_none() {
        fail(
            "the archives of target/staticlib are not there or not of these sources, and rt of the Rattle kit, which makes \
             them, is not on the path: XHCI_DEVICE_LIB_DIR can name a folder with archives that were made elsewhere",
        );
    }
    prove::build(root, &old);
    if let Some((_, fault)) = faults(&folder, Some(root)).first() {
        fail(&format!("what host/archives has made is not taken: {fault}"));
    }
    folder
}

/// What the archives are made from. (What rt keeps in a crate's out/ is none of it.)
fn sources(root: &Path) -> Vec<PathBuf> {
    let crates = crates(root, &ARCHIVES).expect("crates.txt");
    crates
        .iter()
        .flat_map(|(name, _)| parts(root, name))
        .chain(["crates.txt", "host/archives", "host/origin"].map(|file| root.join(file)))
        .collect()
}

fn main() {
    let root = repository();
    let folder = match (env::var_os("XHCI_DEVICE_LIB_DIR"), &root) {
        (Some(folder), _) => ready(folder.into(), root.as_deref()),
        (None, Some(root)) => built(root),
        (None, None) => fail("there are no sources here: XHCI_DEVICE_LIB_DIR must name a folder with the archives"),
    };
    for name in ["XHCI_DEVICE_LIB_DIR", "XHCI_DEVICE_LIB_UNCHECKED"] {
        println!("cargo:rerun-if-env-changed={name}");
    }
    let sources = root.iter().flat_map(|root| sources(root));
    let made = ARCHIVES.iter().flat_map(|name| [archive(&folder, name), origin(&folder, name)]);
    for path in sources.chain(made).chain(kit_file()).chain(["build.rs".into(), "build".into()]) {
        println!("cargo:rerun-if-changed={}", path.display());
    }
    println!("cargo:rustc-link-search=native={}", folder.display());
    for name in ARCHIVES {
        println!("cargo:rustc-link-lib=static={name}");
    }
}
