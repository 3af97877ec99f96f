/* Where the ground stands on which a device's descriptors are refused: docs/FORMATS.md, "Raw configuration descriptors" and
 * "Descriptor list". Only the library judges; here is found what it has judged. */
#include "xhci_device_parts.h"

/* Descriptor types. */
enum { CONFIGURATION = 2, INTERFACE = 4, ENDPOINT = 5, COMPANION = 48 };

/* Where the fields of a descriptor stand. */
enum {
    TYPE = 1,
    TOTAL_LENGTH = 2, NUM_INTERFACES = 4, CONFIGURATION_VALUE = 5,
    INTERFACE_NUMBER = 2, ALTERNATE_SETTING = 3, NUM_ENDPOINTS = 4,
    ENDPOINT_ADDRESS = 2, ENDPOINT_ATTRIBUTES = 3, MAX_PACKET_SIZE = 4, PACKETS = 5, INTERVAL = 6,
    MAX_BURST = 2, COMPANION_ATTRIBUTES = 3, BYTES_PER_INTERVAL = 4
};

enum { ISOCHRONOUS = 1, HIGHEST_BURST = 15, HIGHEST_MULT = 2 };

static bool is_super(uint8_t speed) {
    return speed == 4 || speed == 5;
}

static uint32_t two_bytes(const uint8_t *bytes) {
    return (uint32_t)bytes[0] | (uint32_t)bytes[1] << 8;
}

static size_t least_length(uint8_t type, uint8_t speed) {
    switch (type) {
    case CONFIGURATION:
    case INTERFACE:
        return 9;
    case ENDPOINT:
        return 7;
    case COMPANION:
        return is_super(speed) ? 6 : 2;
    default:
        return 2;
    }
}

/* Whether the descriptor at a byte has a length of its type's size at least and ends before the bytes do. */
static bool is_whole(const uint8_t *bytes, size_t len, size_t at, uint8_t speed) {
    return bytes[at] >= 2 && bytes[at] <= len - at && bytes[at] >= least_length(bytes[at + TYPE], speed);
}

/* Where the descriptors behind one end: at the next configuration, or at the next interface too. */
static size_t end_behind(const uint8_t *bytes, size_t len, size_t at, bool at_interfaces) {
    for (at += bytes[at]; at < len; at += bytes[at]) {
        if (bytes[at + TYPE] == CONFIGURATION || (at_interfaces && bytes[at + TYPE] == INTERFACE)) {
            break;
        }
    }
    return at;
}

/* How many distinct interfaces there are up to an end. */
static size_t count_interfaces(const uint8_t *bytes, size_t at, size_t end) {
    bool seen[256] = {false};
    size_t count = 0;
    for (; at < end; at += bytes[at]) {
        if (bytes[at + TYPE] == INTERFACE && !seen[bytes[at + INTERFACE_NUMBER]]) {
            seen[bytes[at + INTERFACE_NUMBER]] = true;
            count++;
        }
    }
    return count;
}

static size_t count_endpoints(const uint8_t *bytes, size_t at, size_t end) {
    size_t count = 0;
    for (; at < end; at += bytes[at]) {
        count += bytes[at + TYPE] == ENDPOINT;
    }
    return count;
}

/* The field of the descriptor at a byte that is not so, as its place in the descriptor; 0: all is so. */
static size_t untrue_field(const uint8_t *bytes, size_t len, size_t at) {
    const uint8_t *this_one = bytes + at;
    size_t end;
    switch (this_one[TYPE]) {
    case CONFIGURATION:
        end = end_behind(bytes, len, at, false);
        if (two_bytes(this_one + TOTAL_LENGTH) != end - at) {
            return TOTAL_LENGTH;
        }
        return this_one[NUM_INTERFACES] == count_interfaces(bytes, at, end) ? 0 : (size_t)NUM_INTERFACES;
    case INTERFACE:
        end = end_behind(bytes, len, at, true);
        return this_one[NUM_ENDPOINTS] == count_endpoints(bytes, at, end) ? 0 : (size_t)NUM_ENDPOINTS;
    case ENDPOINT:
        return (this_one[PACKETS] >> 3 & 3) == 3 ? (size_t)PACKETS : 0;
    default:
        return 0;
    }
}

/* Lengths come first: behind a wrong one nothing can be told. */
size_t xhci_device_malformed_byte(const uint8_t *bytes, size_t len, uint8_t speed) {
    size_t at, field;
    for (at = 0; at < len; at += bytes[at]) {
        if (!is_whole(bytes, len, at, speed)) {
            return at;
        }
    }
    for (at = 0; at < len; at += bytes[at]) {
        field = untrue_field(bytes, len, at);
        if (field != 0) {
            return at + field;
        }
    }
    return len;
}

static bool is_endpoint(uint32_t word) {
    return word >> 30 == XHCI_DEVICE_DESCRIPTOR_ENDPOINT;
}

static bool is_companion(uint32_t word) {
    return word >> 30 == XHCI_DEVICE_DESCRIPTOR_COMPANION;
}

static bool is_isochronous(uint32_t word) {
    return is_endpoint(word) && (word >> 23 & 3) == ISOCHRONOUS;
}

static uint32_t endpoint_word(const uint8_t *descriptor) {
    uint32_t address = descriptor[ENDPOINT_ADDRESS], field = two_bytes(descriptor + MAX_PACKET_SIZE);
    return (uint32_t)XHCI_DEVICE_DESCRIPTOR_ENDPOINT << 30 | (address >> 7) << 29 | (address & 15) << 25
        | (descriptor[ENDPOINT_ATTRIBUTES] & UINT32_C(3)) << 23 | (field & 0x7FF) << 12 | ((field >> 11 & 3) + 1) << 10
        | (uint32_t)descriptor[INTERVAL] << 2;
}

/* Mult is read behind an isochronous endpoint only. */
static uint32_t companion_word(const uint8_t *descriptor, uint32_t before) {
    uint32_t mult = is_isochronous(before) ? descriptor[COMPANION_ATTRIBUTES] & UINT32_C(3) : 0;
    return (uint32_t)XHCI_DEVICE_DESCRIPTOR_COMPANION << 30 | (descriptor[MAX_BURST] & UINT32_C(15)) << 26 | mult << 24
        | two_bytes(descriptor + BYTES_PER_INTERVAL) << 8;
}

/* Bytes that are not malformed, descriptor by descriptor. */
struct walk {
    const uint8_t *bytes;
    size_t len;
    uint8_t speed;
    size_t at, next;    /* the descriptor that made the last word, and the one behind it */
    uint32_t word;      /* the last word; before the first 0 */
};

/* Goes on to the next word; false at the end. */
static bool walks(struct walk *walk) {
    while (walk->next < walk->len) {
        const uint8_t *descriptor = walk->bytes + walk->next;
        walk->at = walk->next;
        walk->next += descriptor[0];
        switch (descriptor[TYPE]) {
        case CONFIGURATION:
            walk->word = (uint32_t)descriptor[CONFIGURATION_VALUE] << 22;
            return true;
        case INTERFACE:
            walk->word = (uint32_t)XHCI_DEVICE_DESCRIPTOR_INTERFACE << 30 | (uint32_t)descriptor[INTERFACE_NUMBER] << 22
                | (uint32_t)descriptor[ALTERNATE_SETTING] << 14;
            return true;
        case ENDPOINT:
            walk->word = endpoint_word(descriptor);
            return true;
        case COMPANION:
            if (is_super(walk->speed)) {
                walk->word = companion_word(descriptor, walk->word);
                return true;
            }
            break;
        default:
            break;
        }
    }
    return false;
}

size_t xhci_device_words_of_bytes(const uint8_t *bytes, size_t len, uint8_t speed,
                                  uint32_t words[XHCI_DEVICE_LIST_ROOM + 1]) {
    struct walk walk = {bytes, len, speed, 0, 0, 0};
    size_t count = 0;
    while (walks(&walk)) {
        if (count <= XHCI_DEVICE_LIST_ROOM) {
            words[count] = walk.word;
        }
        count++;
    }
    return count;
}

/* Whether no companion stands where an endpoint's word wants one. */
static bool lacks(uint32_t before, uint32_t word) {
    return is_endpoint(before) && !is_companion(word);
}

/* Whether a companion stands behind no endpoint's word, or has a mult that is out of range there. */
static bool misfits(uint32_t before, uint32_t word) {
    return is_companion(word)
        && (!is_endpoint(before) || (word >> 24 & 3) > (is_isochronous(before) ? (uint32_t)HIGHEST_MULT : 0));
}

size_t xhci_device_companion_byte(const uint8_t *bytes, size_t len, uint8_t speed) {
    struct walk walk = {bytes, len, speed, 0, 0, 0};
    uint32_t before = 0;
    size_t at = len;
    while (walks(&walk)) {
        if (lacks(before, walk.word)) {
            return at;
        }
        if (misfits(before, walk.word) || (is_companion(walk.word) && bytes[walk.at + MAX_BURST] > HIGHEST_BURST)) {
            return walk.at;
        }
        before = walk.word;
        at = walk.at;
    }
    return is_endpoint(before) ? at : len;
}

size_t xhci_device_companion_word(const uint32_t *list, size_t len) {
    uint32_t before = 0;
    size_t i;
    for (i = 0; i < len; i++) {
        if (lacks(before, list[i])) {
            return i - 1;
        }
        if (misfits(before, list[i])) {
            return i;
        }
        before = list[i];
    }
    return is_endpoint(before) ? len - 1 : len;
}

/* The library judges a list where it converts settings by it: none at all, here. */
size_t xhci_device_invalid_word(const uint32_t *list, size_t len, uint8_t speed) {
    uint8_t none[1] = {0}, bytes[XHCI_DEVICE_SETTINGS_BYTES];
    size_t i;
    for (i = 0; i < len; i++) {
        if (xhci_device_settings_to_new(none, 0, list, i + 1, speed, bytes, sizeof bytes).answer
            == XHCI_DEVICE_ANSWER_DESCRIPTOR_LIST) {
            break;
        }
    }
    return i;
}
