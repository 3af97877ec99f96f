// crab-usb's files, with stand-ins at the absent places, as a tree of modules.
//
// The original's text is never changed: a file that declares modules is copied whole, so that they are
// looked for beside the copy; every other file is included from where it stands.

use std::env;
use std::fs;
use std::path::{Path, PathBuf};

/// The original's modules at the crate's root. Much of them is not used here.
const MODULES: &str = "
#[allow(dead_code, unused_imports)]
mod backend;
#[allow(dead_code, unused_imports)]
mod device;
#[allow(dead_code, unused_imports)]
mod err;
";

const DECLARING: [&str; 5] = [
    "backend/kmod/mod.rs",
    "backend/kmod/hub/mod.rs",
    "backend/kmod/xhci/mod.rs",
    "backend/ty/mod.rs",
    "backend/ty/ep/mod.rs",
];

/// The one absent file that declares modules.
const BACKEND: &str = "backend/mod.rs";

const WHOLE: [&str; 3] = ["device.rs", "err.rs", "backend/kmod/xhci/def.rs"];

const ABSENT: [&str; 15] = [
    "backend/kmod/dwc.rs",
    "backend/kmod/dwc2.rs",
    "backend/kmod/ehci.rs",
    "backend/kmod/kcore.rs",
    "backend/kmod/osal.rs",
    "backend/kmod/transfer.rs",
    "backend/kmod/hub/device.rs",
    "backend/kmod/xhci/cmd.rs",
    "backend/kmod/xhci/event.rs",
    "backend/kmod/xhci/host.rs",
    "backend/kmod/xhci/hub.rs",
    "backend/kmod/xhci/reg.rs",
    "backend/kmod/xhci/sync.rs",
    "backend/ty/transfer.rs",
    "backend/ty/ep/ctrl.rs",
];

pub fn write(path: &Path, text: &str) {
    fs::create_dir_all(path.parent().expect("a folder")).expect("the tree's folder");
    if fs::read_to_string(path).ok().as_deref() != Some(text) {
        fs::write(path, text).unwrap_or_else(|e| panic!("{}: {e}", path.display()));
    }
}

pub fn read(path: &Path) -> String {
    println!("cargo:rerun-if-changed={}", path.display());
    fs::read_to_string(path).unwrap_or_else(|e| panic!("{}: {e}", path.display()))
}

pub fn include(path: &Path) -> String {
    println!("cargo:rerun-if-changed={}", path.display());
    format!("include!({:?});\n", path.display().to_string())
}

/// The folder with the original's `src`: CRAB_USB_SRC, or shared/docs/src beside the repository or beside one of the folders above it.
fn source(manifest: &Path) -> Option<PathBuf> {
    println!("cargo:rerun-if-env-changed=CRAB_USB_SRC");
    let source = match env::var_os("CRAB_USB_SRC") {
        Some(given) => PathBuf::from(given).join("src"),
        None => {
            let beside = |folder: &Path| folder.join("shared/docs/src/src");
            manifest.ancestors().map(beside).find(|folder| folder.is_dir())?
        }
    };
    Some(fs::canonicalize(&source).unwrap_or_else(|e| panic!("CRAB_USB_SRC: {}: {e}", source.display())))
}

/// Where the original's files stand, and the tree that is made.
pub struct Places {
    pub source: PathBuf,
    pub tree: PathBuf,
}

/// Lays out what is the same in every tree, with the stand-ins of `absent`. Without a source there is nothing to lay out.
pub fn lay_out(manifest: &Path, absent: &Path, left_out: &str) -> Option<Places> {
    println!("cargo:rustc-check-cfg=cfg(crab_usb, kmod, umod)");
    let Some(source) = source(manifest) else {
        println!("cargo:warning=no crab-usb source found: {left_out} is left out (CRAB_USB_SRC names its folder)");
        return None;
    };
    let tree = PathBuf::from(env::var_os("OUT_DIR").expect("cargo's variable")).join("tree");
    write(&tree.join("modules.rs"), MODULES);
    for file in DECLARING {
        write(&tree.join(file), &read(&source.join(file)));
    }
    write(&tree.join(BACKEND), &read(&absent.join(BACKEND)));
    for file in WHOLE {
        write(&tree.join(file), &include(&source.join(file)));
    }
    for file in ABSENT {
        write(&tree.join(file), &include(&absent.join(file)));
    }
    println!("cargo:rustc-cfg=crab_usb");
    println!("cargo:rustc-cfg=kmod");
    Some(Places { source, tree })
}

pub fn manifest() -> PathBuf {
    PathBuf::from(env::var_os("CARGO_MANIFEST_DIR").expect("cargo's variable"))
}
