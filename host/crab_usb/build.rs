//! Lays out crab-usb with the layer in it: tree/ in the place of its files, added/ behind the last line of others. Its event
//! handler, registers and what it keeps elsewhere are the stand-ins of host/original; harness/ is seen by nothing but the tests.

#[path = "../original/build/tree.rs"]
mod tree;

use std::path::Path;

use tree::{Places, include, lay_out, manifest, read, write};

const XHCI: &str = "backend/kmod/xhci";

/// In the place of crab-usb's. (Each is copied: device.rs has modules.)
const REPLACED: [&str; 8] = [
    "device.rs",
    "device/answer.rs",
    "device/attach.rs",
    "device/handles.rs",
    "device/pool.rs",
    "device/request.rs",
    "device/wire.rs",
    "transfer.rs",
];

/// With something behind their last line.
const ADDED: [&str; 3] = ["context.rs", "endpoint.rs", "ring.rs"];

/// Of these the tests must see what is private.
const SEEN: [&str; 3] = ["context.rs", "device.rs", "transfer.rs"];

const QUEUE: &str = "backend/kmod/queue.rs";

fn seen(harness: &Path, file: &str) -> String {
    if SEEN.contains(&file) { include(&harness.join(XHCI).join(file)) } else { String::new() }
}

fn main() {
    let manifest = manifest();
    let absent = manifest.join("../original/absent");
    let Some(Places { source, tree }) = lay_out(&manifest, &absent, "crab-usb over this layer") else {
        return;
    };
    let harness = manifest.join("harness");
    for file in REPLACED {
        let ours = read(&manifest.join("tree").join(XHCI).join(file));
        write(&tree.join(XHCI).join(file), &(ours + &seen(&harness, file)));
    }
    for file in ADDED {
        let theirs = include(&source.join(XHCI).join(file));
        let ours = include(&manifest.join("added").join(XHCI).join(file));
        write(&tree.join(XHCI).join(file), &(theirs + &ours + &seen(&harness, file)));
    }
    write(&tree.join(QUEUE), &(include(&source.join(QUEUE)) + &include(&harness.join(QUEUE))));
}
