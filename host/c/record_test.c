/* What a record says, after calls and where it is not sound, and what descriptor words say. Prints nothing; a wrong answer ends
 * it with 1. */
#include "test.h"

#include <string.h>

enum { N = 2, SLOT = 1, ROUTES = XHCI_DEVICE_ROUTES_OF_SLOT * (N + 1), WORDS = XHCI_DEVICE_RECORD_WORDS };

/* Interface 0: 81 and 02 in alternate 1. Interface 3: 83. */
static const uint32_t LIST[] = {0x00c00000, 0x40000000, 0x40004000, 0xa3840410, 0x85200000, 0x40c00000, 0xa7840410};
enum { LIST_LEN = sizeof LIST / sizeof LIST[0] };

static const uint64_t RINGS[] = {0x5000, 0x4000, 0x1000, 0x2000, 0x3000, 0x6000};

static const uint8_t DONE[XHCI_DEVICE_LOG_ROOM] = {0};

static uint64_t image[WORDS], routes[ROUTES], free_rings[XHCI_DEVICE_GIVEN_ROOM];
static uint8_t ctx[XHCI_DEVICE_CONTEXT_BYTES_64];
static uint32_t lines[XHCI_DEVICE_LOG_ROOM];

static void claim(uint8_t interface, uint8_t alternate, size_t outcomes, uint32_t answer) {
    struct xhci_device_answered left = xhci_device_claim(image, WORDS, ctx, sizeof ctx, routes, ROUTES, lines,
        XHCI_DEVICE_LOG_ROOM, DONE, outcomes, interface, alternate);
    expect(left.answer == answer, "a claim");
}

static void bring_up(void) {
    const uint64_t none[1] = {0};
    struct xhci_device_answered left = xhci_device_bring_up(image, WORDS, ctx, sizeof ctx, routes, ROUTES, lines,
        XHCI_DEVICE_LOG_ROOM, DONE, sizeof DONE, RINGS, 6, none, 0, LIST, LIST_LEN, SLOT, N, 3, 0, 0, 1, 1, 8, 64, 3);
    expect(left.answer == XHCI_DEVICE_ANSWER_ACCEPTED, "the bring-up");
}

static void is_endpoint(size_t i, uint8_t address, uint8_t interface, uint64_t ring, bool active) {
    struct xhci_device_held_endpoint e = xhci_device_endpoint(image, i);
    expect(e.address == address && e.interface == interface && e.ring == ring && e.active == active, "an endpoint");
}

static void is_free(size_t count, const uint64_t *rings) {
    memset(free_rings, 0, sizeof free_rings);
    expect(xhci_device_free_rings(image, free_rings) == count, "how many rings are free");
    expect(memcmp(free_rings, rings, count * sizeof rings[0]) == 0 && free_rings[count] == 0, "the free rings");
}

static void nothing(void) {
    uint8_t value = 9;
    expect(xhci_device_slot(image) == 0 && xhci_device_n(image) == 0 && xhci_device_spacing(image) == 0, "no numbers");
    expect(!xhci_device_configuration(image, &value) && value == 0, "no configuration");
    expect(xhci_device_held_count(image) == 0 && xhci_device_endpoint_count(image) == 0, "nothing held");
    expect(xhci_device_given_count(image) == 0 && xhci_device_list_count(image) == 0, "nothing given");
    is_free(0, RINGS);
    is_endpoint(0, 0, 0, 0, false);
}

static void brought_up(void) {
    const uint64_t left[] = {0x2000, 0x3000, 0x4000, 0x5000, 0x6000};
    uint8_t value = 9;
    size_t i;
    expect(xhci_device_slot(image) == SLOT && xhci_device_n(image) == N && xhci_device_spacing(image) == 64, "numbers");
    expect(xhci_device_port_speed(image) == 3 && xhci_device_control(image) == 0x1000, "speed and control");
    expect(!xhci_device_control_revoked(image), "control is active");
    expect(xhci_device_configuration(image, &value) && value == 3, "the configuration");
    expect(xhci_device_list_count(image) == LIST_LEN && xhci_device_list_word(image, LIST_LEN) == 0, "the list");
    for (i = 0; i < LIST_LEN; i++) {
        expect(xhci_device_list_word(image, i) == LIST[i], "a word of the list");
    }
    expect(xhci_device_given_count(image) == 6 && xhci_device_given(image, 6) == 0, "the given rings");
    for (i = 0; i < 6; i++) {
        expect(xhci_device_given(image, i) == RINGS[i], "a given ring");
    }
    is_free(5, left);
}

static void claimed(void) {
    const uint64_t left[] = {0x5000, 0x6000};
    claim(3, 0, sizeof DONE, XHCI_DEVICE_ANSWER_ACCEPTED);
    claim(0, 1, sizeof DONE, XHCI_DEVICE_ANSWER_ACCEPTED);
    expect(xhci_device_held_count(image) == 2 && xhci_device_endpoint_count(image) == 3, "what is held");
    expect(xhci_device_held(image, 0).interface == 3 && xhci_device_held(image, 0).alternate == 0, "the first");
    expect(xhci_device_held(image, 1).interface == 0 && xhci_device_held(image, 1).alternate == 1, "the second");
    expect(xhci_device_held(image, 2).alternate == 0, "no third");
    is_endpoint(0, 0x02, 0, 0x4000, true);
    is_endpoint(1, 0x81, 0, 0x3000, true);
    is_endpoint(2, 0x83, 3, 0x2000, true);
    is_endpoint(3, 0, 0, 0, false);
    expect(routes[xhci_device_route_index(SLOT, xhci_device_dci(0x81))] == 0x3000 && xhci_device_dci(0x02) == 4, "a Dci");
    is_free(2, left);
}

/* A claim that is cut behind its Configure: its ring is in doubt. */
static void lost(void) {
    const uint64_t left[] = {0x6000};
    claim(3, 0, 2, XHCI_DEVICE_ANSWER_CUT);
    expect(xhci_device_quarantined_count(image) == 1 && xhci_device_quarantined(image, 0) == 0x5000, "a ring in doubt");
    expect(xhci_device_quarantined(image, 1) == 0, "no second");
    is_endpoint(2, 0x83, 3, 0x2000, false);
    is_free(1, left);
}

/* Counts that no sound record has: nothing past the arrays is read. */
static void cut_to_the_room(void) {
    size_t i;
    uint64_t most = UINT64_MAX;
    for (i = 0; i < WORDS; i++) {
        image[i] = most;
    }
    expect(xhci_device_control_revoked(image), "control is revoked");
    expect(xhci_device_held_count(image) == XHCI_DEVICE_HELD_ROOM && xhci_device_held(image, 31).interface == 255, "held");
    expect(xhci_device_held(image, XHCI_DEVICE_HELD_ROOM).interface == 0, "held, past the room");
    expect(xhci_device_endpoint_count(image) == XHCI_DEVICE_EP_ROOM, "endpoints");
    is_endpoint(XHCI_DEVICE_EP_ROOM - 1, 255, 255, most, false);
    is_endpoint(XHCI_DEVICE_EP_ROOM, 0, 0, 0, false);
    expect(xhci_device_quarantined_count(image) == XHCI_DEVICE_RING_ROOM && xhci_device_quarantined(image, 61) == 0, "doubt");
    expect(xhci_device_given_count(image) == XHCI_DEVICE_GIVEN_ROOM && xhci_device_given(image, 64) == 0, "given");
    expect(xhci_device_list_count(image) == XHCI_DEVICE_LIST_ROOM && xhci_device_list_word(image, 256) == 0, "list");
    for (i = 0; i < XHCI_DEVICE_GIVEN_ROOM; i++) {
        image[XHCI_DEVICE_AT_GIVEN + i] = XHCI_DEVICE_GIVEN_ROOM - i;
        free_rings[i] = 0;
    }
    expect(xhci_device_free_rings(image, free_rings) == XHCI_DEVICE_GIVEN_ROOM, "all are free");
    for (i = 0; i < XHCI_DEVICE_GIVEN_ROOM; i++) {
        expect(free_rings[i] == i + 1, "free rings rise");
    }
}

/* The word of a descriptor's fields: docs/FORMATS.md, "Descriptor word". */
static uint32_t word_of(struct xhci_device_descriptor d) {
    switch (d.kind) {
    case XHCI_DEVICE_DESCRIPTOR_CONFIGURATION:
        return (uint32_t)d.value << 22;
    case XHCI_DEVICE_DESCRIPTOR_INTERFACE:
        return UINT32_C(1) << 30 | (uint32_t)d.interface << 22 | (uint32_t)d.alternate << 14;
    case XHCI_DEVICE_DESCRIPTOR_ENDPOINT:
        return UINT32_C(2) << 30 | (uint32_t)(d.address >> 7) << 29 | (d.address & UINT32_C(15)) << 25
            | (uint32_t)d.type << 23 | (uint32_t)d.packet_size << 12 | (uint32_t)d.packets << 10 | (uint32_t)d.interval << 2;
    default:
        return UINT32_C(3) << 30 | (uint32_t)d.burst << 26 | (uint32_t)d.mult << 24 | (uint32_t)d.bytes << 8;
    }
}

/* How the library judges a word in a list that is in order before it. */
static uint32_t judged(uint32_t word) {
    const uint32_t lists[4][4] = {{word}, {0x00400000, word}, {0x00400000, 0x40000000, word},
        {0x00400000, 0x40000000, 0xa2c00404, word}};
    uint8_t none[1] = {0}, bytes[XHCI_DEVICE_SETTINGS_BYTES];
    uint32_t kind = word >> 30;
    return xhci_device_settings_to_new(none, 0, lists[kind], kind + 1, kind == 3 ? 4 : 3, bytes, sizeof bytes).answer;
}

/* Each word is read as the library judges it, and its fields make it up again. */
static void words(void) {
    uint64_t seed = 0x5EED0037;
    uint32_t i, kinds[5] = {0};
    for (i = 0; i < 200000; i++) {
        uint32_t word;
        struct xhci_device_descriptor d;
        seed = seed * UINT64_C(6364136223846793005) + 1442695040888963407u;
        word = (uint32_t)(seed >> 32) & (i % 4 == 0 ? UINT32_MAX : UINT32_C(0xffffff00) << i % 16);
        d = xhci_device_descriptor_of(word);
        kinds[d.kind]++;
        if (d.kind == XHCI_DEVICE_DESCRIPTOR_NONE) {
            expect(judged(word) == XHCI_DEVICE_ANSWER_DESCRIPTOR_LIST, "a word that is none");
            d.kind = 0;
            expect(word_of(d) == 0 && d.interface == 0 && d.address == 0 && d.type == 0 && d.bytes == 0, "no fields");
        } else {
            expect(judged(word) != XHCI_DEVICE_ANSWER_DESCRIPTOR_LIST && word_of(d) == word, "a descriptor word");
        }
    }
    for (i = 0; i < 5; i++) {
        expect(kinds[i] > 100, "each kind of word");
    }
}

static void fields(void) {
    struct xhci_device_descriptor d = xhci_device_descriptor_of(0xa3840410);
    expect(d.kind == XHCI_DEVICE_DESCRIPTOR_ENDPOINT && d.address == 0x81 && d.type == 3 && d.packet_size == 64
            && d.packets == 1 && d.interval == 4 && d.value == 0 && d.burst == 0,
        "an endpoint");
    d = xhci_device_descriptor_of(0xfec00000);
    expect(d.kind == XHCI_DEVICE_DESCRIPTOR_COMPANION && d.burst == 15 && d.mult == 2 && d.bytes == 49152, "a companion");
    d = xhci_device_descriptor_of(0x40404000);
    expect(d.kind == XHCI_DEVICE_DESCRIPTOR_INTERFACE && d.interface == 1 && d.alternate == 1, "an alternate");
    d = xhci_device_descriptor_of(0x3fc00000);
    expect(d.kind == XHCI_DEVICE_DESCRIPTOR_CONFIGURATION && d.value == 255, "a configuration");
    expect(xhci_device_descriptor_of(0xa1840410).kind == XHCI_DEVICE_DESCRIPTOR_NONE, "endpoint number 0");
}

/* The hubs of docs/FORMATS.md, "Hub word", and what a word has no bits for. */
static void hubs(void) {
    const struct xhci_device_hub root = {false, 9, 0, -1, 4, 0, false}, first = {true, 0, 1, 0, 3, 3, true},
                                 second = {true, 1, 2, 1, 3, 4, false}, third = {true, 1, 3, 1, 1, 20, false},
                                 outside = {true, 255, 255, -2, 255, 255, true};
    expect(xhci_device_hub_word(root) == UINT64_C(0x8000040000000000), "a root hub");
    expect(xhci_device_hub_word(first) == UINT64_C(0xc0004b0380000000), "a hub on it");
    expect(xhci_device_hub_word(second) == UINT64_C(0xc040930400000000), "a hub on that");
    expect(xhci_device_hub_word(third) == UINT64_C(0xc040d11400000000), "one beside it");
    expect(xhci_device_hub_word(outside) == UINT64_C(0xffffffff80000000), "what has no bits");
}

int main(void) {
    hubs();
    nothing();
    bring_up();
    brought_up();
    claimed();
    lost();
    cut_to_the_room();
    words();
    fields();
    return 0;
}
