//! Lays out the original's files, with stand-ins at the absent places, as a tree of modules.

#[path = "build/tree.rs"]
mod tree;

use tree::{Places, include, lay_out, manifest, read, write};

/// Files whose private fields the host must see: something of ours follows them in the same module.
const EXTENDED: [&str; 2] = ["backend/kmod/xhci/device.rs", "backend/kmod/xhci/transfer.rs"];

const CONTEXT: &str = "backend/kmod/xhci/context.rs";

/// Of endpoint.rs only what begins here.
const ENDPOINT: &str = "backend/kmod/xhci/endpoint.rs";
const ENDPOINT_TAIL: &str = "pub(crate) trait EndpointDescriptorExt";

/// Rings and queues are addresses.
const ADDRESSES: [&str; 2] = ["backend/kmod/queue.rs", "backend/kmod/xhci/ring.rs"];

fn main() {
    let manifest = manifest();
    let absent = manifest.join("absent");
    let Some(Places { source, tree }) = lay_out(&manifest, &absent, "the original") else {
        return;
    };
    write(&tree.join(CONTEXT), &include(&source.join(CONTEXT)));
    for file in EXTENDED {
        let ours = include(&absent.join(file));
        write(&tree.join(file), &(include(&source.join(file)) + &ours));
    }
    for file in ADDRESSES {
        write(&tree.join(file), &include(&absent.join(file)));
    }
    let endpoint = read(&source.join(ENDPOINT));
    let tail = endpoint.find(ENDPOINT_TAIL).expect("endpoint_type in endpoint.rs");
    let tail_file = tree.join("endpoint_tail.rs");
    write(&tail_file, &endpoint[tail..]);
    write(&tree.join(ENDPOINT), &(include(&absent.join(ENDPOINT)) + &include(&tail_file)));
}
