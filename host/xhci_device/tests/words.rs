//! Descriptor words by their fields.

use xhci_device::{Descriptor, READ_WORDS, read_descriptors};

/// The word of a descriptor, field by field from the highest bit on.
fn word(descriptor: Descriptor) -> u32 {
    let fields: &[(u32, u32)] = match descriptor {
        Descriptor::Configuration { value } => &[(0, 2), (value.into(), 8)],
        Descriptor::Interface { interface, alternate } => &[(1, 2), (interface.into(), 8), (alternate.into(), 8)],
        Descriptor::Endpoint { address, transfer_type, packet_size, packets, interval } => &[
            (2, 2),
            (u32::from(address) >> 7, 1),
            (u32::from(address) & 15, 4),
            (transfer_type.into(), 2),
            (packet_size.into(), 11),
            (packets.into(), 2),
            (interval.into(), 8),
        ],
        Descriptor::Companion { burst, mult, bytes } => {
            &[(3, 2), (burst.into(), 4), (mult.into(), 2), (bytes.into(), 16)]
        }
        other => panic!("{other:?}"),
    };
    let width: u32 = fields.iter().map(|field| field.1).sum();
    fields.iter().fold(0, |word, (value, width)| word << width | value) << (32 - width)
}

/// Every word but for its lowest ten bits, and those one by one.
#[test]
fn words_and_fields_are_the_same() {
    let high = (0..1 << 22).map(|high: u32| high << 10);
    let low = (0..4).flat_map(|kind| (0..10).map(move |bit| kind << 30 | 0x0280_0000 | 1 << bit));
    let mut counts = [0; 4];
    for read in high.chain(low) {
        let kind = (read >> 30) as usize;
        let unused = [22, 14, 2, 8][kind];
        let (number, transfer_type) = (read >> 25 & 15, read >> 23 & 3);
        let none = read & ((1 << unused) - 1) != 0 || kind == 2 && (number == 0 || transfer_type == 0);
        let descriptor = Descriptor::of(read);
        assert_eq!(descriptor.is_none(), none, "{read:08x}");
        if let Some(descriptor) = descriptor {
            assert_eq!(word(descriptor), read, "{descriptor:?}");
            counts[kind] += 1;
        }
    }
    // The last two: also with one bit of the interval, and of the bytes.
    assert_eq!(counts, [256, 65536, 2 * 15 * 3 * (1 << 13) + 8, (1 << 20) + 2]);
}

#[test]
fn what_the_reader_reads_has_fields() {
    let bytes =
        [9, 2, 31, 0, 1, 1, 0, 0x80, 50, 9, 4, 0, 0, 1, 14, 0, 0, 0, 7, 5, 0x81, 1, 0, 0x14, 1, 6, 48, 15, 2, 0, 0xC0];
    let mut words = [0; READ_WORDS];
    let count = read_descriptors(&bytes, 4, &mut words).expect("a configuration");
    let fields: Vec<_> = words[..count].iter().filter_map(|word| Descriptor::of(*word)).collect();
    assert_eq!(
        fields,
        [
            Descriptor::Configuration { value: 1 },
            Descriptor::Interface { interface: 0, alternate: 0 },
            Descriptor::Endpoint { address: 0x81, transfer_type: 1, packet_size: 1024, packets: 3, interval: 1 },
            Descriptor::Companion { burst: 15, mult: 2, bytes: 0xC000 },
        ]
    );
}
