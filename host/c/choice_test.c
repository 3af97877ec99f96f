/* A choice of settings for C: alternates for names and a longest context interval, each refusal, and the claims of what was
 * chosen. Prints nothing; a wrong answer ends it with 1. */
#include "xhci_device.h"

#include <stdio.h>
#include <stdlib.h>
#include <string.h>

enum { N = 1, SLOT = 1, HIGH = 3 };

/* Configuration 1: interface 0 with alternates 2 (0x81 every 4 ms), 1 (0x82 every ms) and 0 (none); interface 1 with
 * alternate 0 (0x82, bulk). Configuration 2: interface 5. */
static const uint32_t LIST[] = {0x00400000, 0x40008000, 0xa3840418, 0x40004000, 0xa5840410, 0x40000000,
    0x40400000, 0xa5200000, 0x00800000, 0x41400000};

static uint64_t image[XHCI_DEVICE_RECORD_WORDS];
static uint8_t ctx[XHCI_DEVICE_CONTEXT_BYTES_32];
static uint64_t routes[XHCI_DEVICE_ROUTES_OF_SLOT * (N + 1)];
static uint32_t words[XHCI_DEVICE_LOG_ROOM];
static const uint8_t done[XHCI_DEVICE_LOG_ROOM] = {0};

static void fail(const char *what, uint32_t answer) {
    fprintf(stderr, "%s: %s\n", what, xhci_device_answer_name(answer));
    exit(1);
}

static void bring_up(void) {
    static const uint64_t rings[] = {0x1000, 0x2000, 0x3000, 0x4000}, hubs[1] = {0};
    struct xhci_device_answered answered = xhci_device_bring_up(image, XHCI_DEVICE_RECORD_WORDS, ctx, sizeof ctx, routes,
        sizeof routes / sizeof routes[0], words, XHCI_DEVICE_LOG_ROOM, done, sizeof done, rings, 4, hubs, 0, LIST,
        sizeof LIST / sizeof LIST[0], SLOT, N, HIGH, 0, 0, 1, 1, 8, 64, 0);
    if (answered.answer != XHCI_DEVICE_ANSWER_ACCEPTED) {
        fail("bring-up", answered.answer);
    }
}

/* What must be answered, with the alternates, 0 past them. The image stays. */
static void expect(const char *what, const uint8_t *names, size_t names_len, uint32_t longest, uint32_t answer,
    const uint8_t alternates[XHCI_DEVICE_NAMES]) {
    static uint64_t before[XHCI_DEVICE_RECORD_WORDS];
    struct xhci_device_chosen chosen;
    memcpy(before, image, sizeof image);
    chosen = xhci_device_choose(image, XHCI_DEVICE_RECORD_WORDS, names, names_len, longest);
    if (chosen.answer != answer || memcmp(chosen.alternates, alternates, XHCI_DEVICE_NAMES) != 0 ||
        memcmp(image, before, sizeof image) != 0) {
        fail(what, chosen.answer);
    }
}

/* The claims of a choice, one after the other. */
static void claim_all(const uint8_t *names, size_t names_len, const uint8_t *alternates) {
    size_t i;
    for (i = 0; i < names_len; i++) {
        struct xhci_device_answered answered = xhci_device_claim(image, XHCI_DEVICE_RECORD_WORDS, ctx, sizeof ctx, routes,
            sizeof routes / sizeof routes[0], words, XHCI_DEVICE_LOG_ROOM, done, sizeof done, names[i], alternates[i]);
        if (answered.answer != XHCI_DEVICE_ANSWER_ACCEPTED) {
            fail("claim", answered.answer);
        }
    }
}

int main(void) {
    static const uint8_t both[] = {0, 1}, thrice[] = {0, 1, 0}, nine[9] = {0}, later[] = {5}, unknown[] = {0, 7};
    static const uint8_t none[XHCI_DEVICE_NAMES] = {0}, two[XHCI_DEVICE_NAMES] = {2}, again[XHCI_DEVICE_NAMES] = {2, 0, 2},
                         one[XHCI_DEVICE_NAMES] = {1};
    expect("no record", both, 2, 15, XHCI_DEVICE_ANSWER_UNUSABLE, none);
    bring_up();
    expect("the first that is short enough", both, 1, 5, XHCI_DEVICE_ANSWER_ACCEPTED, two);
    expect("a shorter one", both, 1, 4, XHCI_DEVICE_ANSWER_ACCEPTED, one);
    expect("an address of both", both, 2, 4, XHCI_DEVICE_ANSWER_ACCEPTED, none);
    expect("a name twice", thrice, 3, 5, XHCI_DEVICE_ANSWER_ACCEPTED, again);
    expect("no names", both, 0, 0, XHCI_DEVICE_ANSWER_ACCEPTED, none);
    expect("bulk endpoints alone", both + 1, 1, 0, XHCI_DEVICE_ANSWER_ACCEPTED, none);
    expect("nine names", nine, 9, 15, XHCI_DEVICE_ANSWER_TOO_MANY_NAMES, none);
    expect("a later configuration", later, 1, 15, XHCI_DEVICE_ANSWER_NO_CHOICE, none);
    expect("an unknown interface", unknown, 2, 15, XHCI_DEVICE_ANSWER_NO_CHOICE, none);
    claim_all(thrice, 3, again);
    expect("what is held", both, 2, 5, XHCI_DEVICE_ANSWER_ACCEPTED, two);
    image[XHCI_DEVICE_AT_USABLE] = 0;
    expect("unusable, and nine names", nine, 9, 15, XHCI_DEVICE_ANSWER_UNUSABLE, none);
    return 0;
}
