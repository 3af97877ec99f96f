//! host/archives, host/origin and the binding's build script agree on what an archive was made from: a build takes it, whoever
//! made it, and it is made again only if its sources have changed.
#![allow(dead_code)]

#[path = "../../xhci_device/build/sha256.rs"]
mod sha256;
#[path = "../../xhci_device/build/sources.rs"]
mod sources;

use std::path::{Path, PathBuf};
use std::process::{Command, Output};
use std::{env, fs};

use sources::{ARCHIVES, digest};

const OWN: &str = "target/staticlib";

/// A repository with this one's scripts and binding, a package outside of it, and a kit whose `rt lib` leaves an empty archive
/// and a line in the file `made`.
struct Place(PathBuf);

impl Drop for Place {
    fn drop(&mut self) {
        let _ = fs::remove_dir_all(&self.0);
    }
}

const RT: &str = r#"#!/bin/sh
case $1 in
version) echo "kit 1" ;;
lib) pwd >> "$(dirname "$0")/../../made" && mkdir -p out && echo "!<arch>" > "out/lib$(basename "$PWD").a" ;;
esac
"#;

const CRATES: &str = "# a line: for each
below:
between: below # used: twice
xhci_device_c staticlib: between  below
xhci_functions_c staticlib:
";

const OUTSIDE: &str = r#"[package]
name = "outside"
edition = "2024"

[dependencies]
xhci_device = { path = "../repository/host/xhci_device" }
"#;

fn copy(from: &Path, to: &Path) {
    if !from.is_dir() {
        fs::create_dir_all(to.parent().expect("a folder")).expect("a folder");
        fs::copy(from, to).expect("a file");
        return;
    }
    for entry in fs::read_dir(from).expect("a folder") {
        let path = entry.expect("an entry").path();
        copy(&path, &to.join(path.file_name().expect("a name")));
    }
}

impl Place {
    fn new(name: &str) -> Place {
        let place = Place(env::temp_dir().join(format!("{name}-{}", std::process::id())));
        let _ = fs::remove_dir_all(&place.0);
        let here = Path::new(env!("CARGO_MANIFEST_DIR")).join("../..");
        for path in ["host/archives", "host/origin", "host/xhci_device"] {
            copy(&here.join(path), &place.0.join("repository").join(path));
        }
        place.put("repository/crates.txt", CRATES);
        for name in ["below", "between", "xhci_device_c", "xhci_functions_c"] {
            place.put(&format!("repository/crates/{name}/src/lib.rt"), name);
        }
        for path in ["src/lib/part.rt", "src/lib-part.rt", "specs/Laws.antt", "specs/Laws/Part.antt", "wrong/a.edit"] {
            place.put(&format!("repository/crates/below/{path}"), "text");
        }
        place.put("outside/Cargo.toml", OUTSIDE);
        place.put("outside/src/lib.rs", "pub use xhci_device;\n");
        place.put("kit/bin/rt", RT);
        let rt = place.0.join("kit/bin/rt");
        let is_run = Command::new("chmod").arg("+x").arg(rt).status().expect("chmod").success();
        assert!(is_run);
        place
    }

    fn put(&self, path: &str, text: &str) {
        let path = self.0.join(path);
        fs::create_dir_all(path.parent().expect("a folder")).expect("a folder");
        fs::write(path, text).expect("a file");
    }

    /// The folders of the path that have no rt.
    fn path_without_kit() -> String {
        let path = env::var_os("PATH").expect("a path");
        let folders = env::split_paths(&path).filter(|folder| !folder.join("rt").exists());
        env::join_paths(folders).expect("a path").into_string().expect("a text")
    }

    /// Runs a program over the kit, with no variable of the build but these, and no configuration of cargo's from outside.
    fn run(&self, program: &str, args: &[&str], folder: &str, variables: &[(&str, &Path)]) -> Output {
        let path = format!("{}:{}", self.0.join("kit/bin").display(), env::var("PATH").expect("a path"));
        let mut command = Command::new(program);
        command.args(args).current_dir(self.0.join(folder)).env("PATH", path);
        for name in ["XHCI_DEVICE_LIB_DIR", "XHCI_DEVICE_LIB_UNCHECKED", "OVER_RT_CI"] {
            command.env_remove(name);
        }
        let (target, home) = (self.0.join("target").join(folder), self.0.join("home"));
        command.env("CARGO_TARGET_DIR", target).env("CARGO_HOME", home).envs(variables.iter().copied());
        command.output().expect("a program")
    }

    /// What a script says that fails.
    fn refusal(&self, name: &str, args: &[&str], variables: &[(&str, &Path)]) -> String {
        let ran = self.run(&format!("host/{name}"), args, "repository", variables);
        assert!(!ran.status.success() && ran.stdout.is_empty(), "{name} {args:?}");
        String::from_utf8(ran.stderr).expect("a text")
    }

    fn script(&self, name: &str, args: &[&str]) -> String {
        let ran = self.run(&format!("host/{name}"), args, "repository", &[]);
        assert!(ran.status.success(), "{name}: {}", String::from_utf8_lossy(&ran.stderr));
        String::from_utf8(ran.stdout).expect("a text")
    }

    /// Has cargo check the package of a folder; None where it succeeds, else what it says.
    fn fault(&self, folder: &str, variables: &[(&str, &Path)]) -> Option<String> {
        let ran = self.run(env!("CARGO"), &["check", "--quiet", "--offline"], folder, variables);
        (!ran.status.success()).then(|| String::from_utf8_lossy(&ran.stderr).into_owned())
    }

    /// How many archives were made.
    fn made(&self) -> usize {
        fs::read_to_string(self.0.join("made")).map_or(0, |text| text.lines().count())
    }
}

#[test]
fn the_digest_is_the_build_scripts() {
    let place = Place::new("digest");
    let mut known = vec![];
    for change in ["text", "another"] {
        place.put("repository/crates/below/specs/Laws.antt", change);
        let root = place.0.join("repository");
        let digests = ARCHIVES.map(|name| digest(&root, name).expect("a digest"));
        for (name, digest) in ARCHIVES.iter().zip(&digests) {
            assert_eq!(place.script("origin", &[name]), format!("kit kit 1\nsources {digest}\n"));
        }
        known.push(digests);
    }
    assert!(known[0][0] != known[1][0] && known[0][1] == known[1][1] && known[0][0] != known[0][1]);
}

#[test]
fn what_is_not_made_is_told_in_words() {
    let place = Place::new("words");
    let path = Place::path_without_kit();
    let without: [(&str, &Path); 1] = [("PATH", Path::new(&path))];
    place.put("folder/libxhci_device.a", "!<arch>");
    for (args, said) in [
        (&[][..], "rt of the Rattle kit, which makes libxhci_device.a, is not on the path"),
        (&["--if-old"], "rt of the Rattle kit, which makes libxhci_device.a, is not on the path"),
        (&["--help"], "usage: host/archives [--if-old] [NAME...]"),
        (&["--check"], "--check takes a folder"),
        (&["--check", "../none"], "--check takes a folder"),
        (&["--check", "../kit"], "kit has no libxhci_device.a"),
        (
            &["--check", "../folder"],
            "folder has no libxhci_device.origin, which says what libxhci_device.a was made from",
        ),
        (&["between", "nothing"], "there is no archive between"),
    ] {
        let message = place.refusal("archives", args, &without);
        assert!(message.starts_with("host/archives: ") && message.lines().count() == 1, "{message}");
        assert!(message.contains(said), "{message}");
    }
    for folder in OUTSIDE_AND_INSIDE {
        let fault = place.fault(folder, &without).expect("no archives");
        assert!(fault.contains("rt of the Rattle kit, which makes them, is not on the path"), "{fault}");
    }
    assert_eq!(place.made(), 0);
}

const OUTSIDE_AND_INSIDE: [&str; 2] = ["outside", "repository/host/xhci_device"];

#[test]
fn a_build_takes_the_archives_that_are_of_its_sources() {
    let place = Place::new("builds");
    let built = || OUTSIDE_AND_INSIDE.iter().for_each(|folder| assert_eq!(place.fault(folder, &[]), None));
    place.script("archives", &[]);
    assert_eq!(place.made(), 2);
    built();
    place.script("archives", &["--if-old"]);
    place.script("archives", &["--check", OWN]);
    assert_eq!(place.made(), 2, "nothing is made again");

    place.put("repository/crates/below/src/lib.rt", "changed");
    built();
    assert_eq!(place.made(), 3, "the one archive, once");
    place.put("repository/crates/below/src/lib.rt", "changed again");
    place.script("archives", &["--if-old"]);
    built();
    assert_eq!(place.made(), 4);

    fs::remove_dir_all(place.0.join("repository").join(OWN)).expect("a folder");
    built();
    assert_eq!(place.made(), 6);
}

#[test]
fn a_folder_is_named_by_the_environment_or_by_the_package() {
    let place = Place::new("folders");
    place.script("archives", &[]);
    let (own, other) = (place.0.join("repository").join(OWN), place.0.join("other"));
    copy(&own, &other);
    let named: [(&str, &Path); 1] = [("XHCI_DEVICE_LIB_DIR", &other)];
    let unchecked = [named[0], ("XHCI_DEVICE_LIB_UNCHECKED", Path::new("1"))];
    OUTSIDE_AND_INSIDE.iter().for_each(|folder| assert_eq!(place.fault(folder, &named), None));
    let fault = place.fault("outside", &[("XHCI_DEVICE_LIB_DIR", Path::new("../other"))]).expect("a relative path");
    assert!(fault.contains("XHCI_DEVICE_LIB_DIR must be an absolute path, and ../other is none"), "{fault}");
    place.put("other/libxhci_device.a", "!<arch>\nanother");
    for folder in OUTSIDE_AND_INSIDE {
        let fault = place.fault(folder, &named).expect("another archive");
        assert!(fault.contains("libxhci_device.origin is not that archive's"), "{fault}");
        assert_eq!(place.fault(folder, &unchecked), None);
    }
    place.put("outside/.cargo/config.toml", &format!("[env]\nXHCI_DEVICE_LIB_DIR = {other:?}\n"));
    assert!(place.fault("outside", &[]).is_some());
    assert_eq!(place.fault("outside", &[("XHCI_DEVICE_LIB_DIR", &own)]), None);

    let check = |folder: &Path| {
        let folder = folder.to_str().expect("a name");
        place.run("host/archives", &["--check", folder], "repository", &[]).status.success()
    };
    assert!(check(&own) && !check(&other));
    assert_eq!(place.made(), 2, "nothing is made again");
}
