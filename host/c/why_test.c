/* Reasons and blocks for C: each kind of reason of a claim, of a driven claim and a driven commit, and where an endpoint's
 * block stands. Prints nothing; a wrong answer ends it with 1. */
#include "xhci_device_driver.h"

#include <stdio.h>
#include <stdlib.h>
#include <string.h>

enum { N = 1, ROUTES = XHCI_DEVICE_ROUTES_OF_SLOT * (N + 1), WORDS = XHCI_DEVICE_RECORD_WORDS };

/* Interface 0: 81 in alternate 0, 82 in alternate 1. Interface 1: 02 and 81; in alternate 1 02, 03 and 04. */
static const uint32_t LIST[] = {0x00400000, 0x40000000, 0xa3840410, 0x40004000, 0xa5200000, 0x40400000, 0x85200000,
    0xa3840410, 0x40404000, 0x85200000, 0x87200000, 0x89200000};

static const uint64_t RINGS[] = {0x1000, 0x2000, 0x3000, 0x4000};

static const uint8_t DONE[XHCI_DEVICE_LOG_ROOM] = {0};

static uint64_t image[WORDS], routes[ROUTES];
static uint8_t ctx[XHCI_DEVICE_CONTEXT_BYTES_32];
static uint32_t lines[XHCI_DEVICE_LOG_ROOM];

static void fail(const char *what) {
    fprintf(stderr, "%s\n", what);
    exit(1);
}

/* A slot on which interface 0 holds alternate 0. */
static void begin(void) {
    const uint64_t none[1] = {0};
    struct xhci_device_answered up, claimed;
    memset(routes, 0, sizeof routes);
    memset(ctx, 0, sizeof ctx);
    up = xhci_device_bring_up(image, WORDS, ctx, sizeof ctx, routes, ROUTES, lines, XHCI_DEVICE_LOG_ROOM, DONE, sizeof DONE,
        RINGS, sizeof RINGS / sizeof RINGS[0], none, 0, LIST, sizeof LIST / sizeof LIST[0], 1, N, 3, 0, 0, 1, 1, 8, 64, 1);
    claimed = xhci_device_claim(image, WORDS, ctx, sizeof ctx, routes, ROUTES, lines, XHCI_DEVICE_LOG_ROOM, DONE,
        sizeof DONE, 0, 0);
    if (up.answer != XHCI_DEVICE_ANSWER_ACCEPTED || claimed.answer != XHCI_DEVICE_ANSWER_ACCEPTED) {
        fail("the device");
    }
}

static void same(const char *what, struct xhci_device_reason reason, struct xhci_device_reason expected) {
    if (reason.kind != expected.kind || reason.interface != expected.interface || reason.alternate != expected.alternate
        || reason.word != expected.word || reason.number != expected.number || reason.place != expected.place) {
        fprintf(stderr, "%s: %s\n", what, xhci_device_reason_name(reason.kind));
        exit(1);
    }
}

static struct xhci_device_reason reason_of(uint32_t kind, uint8_t interface, uint8_t alternate, uint32_t word,
    uint32_t number, size_t place) {
    struct xhci_device_reason reason;
    reason.kind = kind;
    reason.interface = interface;
    reason.alternate = alternate;
    reason.word = word;
    reason.number = number;
    reason.place = place;
    return reason;
}

/* A claim over outcomes that are known. */
static void claim(const char *what, uint8_t interface, uint8_t alternate, const uint8_t *outcomes, size_t len,
    uint32_t answer, struct xhci_device_reason expected) {
    static uint64_t before[WORDS];
    struct xhci_device_answered left = xhci_device_claim(image, WORDS, ctx, sizeof ctx, routes, ROUTES, lines,
        XHCI_DEVICE_LOG_ROOM, outcomes, len, interface, alternate);
    struct xhci_device_reason reason;
    memcpy(before, image, sizeof image);
    reason = xhci_device_why(image, WORDS, interface, alternate, left.answer, lines, left.count, outcomes, len);
    if (left.answer != answer || memcmp(before, image, sizeof image) != 0) {
        fail(what);
    }
    same(what, reason, expected);
    begin();
}

static void send(struct xhci_device_pending *call, const uint64_t *all_routes, void *failing) {
    (void)all_routes;
    if (call->log[call->told] == *(const uint32_t *)failing) {
        xhci_device_pending_failed(call, 7);
    } else {
        xhci_device_pending_done(call);
    }
}

static void driven(const char *what, struct xhci_device_pending *call, uint32_t failing, uint32_t answer,
    struct xhci_device_reason expected) {
    if (xhci_device_pending_run(call, routes, ROUTES, send, &failing).answer != answer) {
        fail(what);
    }
    same(what, call->reason, expected);
    begin();
}

static void claims(void) {
    const uint8_t set_interface[] = {0, 0, 7, 0, 0}, resume_too[] = {0, 7, 9}, cut[] = {0, 7};
    struct xhci_device_reason nothing = reason_of(XHCI_DEVICE_REASON_NOTHING, 0, 0, 0, 0, 0);
    claim("accepted", 0, 1, DONE, sizeof DONE, XHCI_DEVICE_ANSWER_ACCEPTED, nothing);
    claim("alternate", 2, 5, DONE, 0, XHCI_DEVICE_ANSWER_NOT_FOUND, reason_of(XHCI_DEVICE_REASON_ALTERNATE, 2, 5, 0, 0, 0));
    claim("endpoint", 1, 0, DONE, 0, XHCI_DEVICE_ANSWER_INVALID_PARAMETER,
        reason_of(XHCI_DEVICE_REASON_ENDPOINT, 0, 0, 0xa3840410, 0, 0));
    claim("rings", 1, 1, DONE, 0, XHCI_DEVICE_ANSWER_TOO_FEW_RINGS, reason_of(XHCI_DEVICE_REASON_RINGS, 0, 0, 0, 0, 0));
    claim("command", 0, 1, set_interface, sizeof set_interface, XHCI_DEVICE_ANSWER_FAILED,
        reason_of(XHCI_DEVICE_REASON_COMMAND, 0, 0, 0x60001000, 0, 2));
    claim("the first", 0, 1, resume_too, sizeof resume_too, XHCI_DEVICE_ANSWER_FAILED,
        reason_of(XHCI_DEVICE_REASON_COMMAND, 0, 0, 0x30000000, 0, 1));
    claim("cut", 0, 1, cut, sizeof cut, XHCI_DEVICE_ANSWER_CUT, reason_of(XHCI_DEVICE_REASON_NUMBER, 0, 0, 0, 15, 0));
    routes[XHCI_DEVICE_ROUTES_OF_SLOT + 3] = 0x7000;
    claim("routes", 0, 1, DONE, sizeof DONE, XHCI_DEVICE_ANSWER_INTERFACE_BROKEN,
        reason_of(XHCI_DEVICE_REASON_NUMBER, 0, 0, 0, 14, 0));
}

static void driven_calls(void) {
    static struct xhci_device_pending call;
    struct xhci_device_asked asked;
    uint64_t drawn[XHCI_DEVICE_EP_ROOM];
    xhci_device_pending_claim(&call, image, ctx, sizeof ctx, 0, 1);
    driven("a driven claim", &call, 0x60001000, XHCI_DEVICE_ANSWER_FAILED,
        reason_of(XHCI_DEVICE_REASON_COMMAND, 0, 0, 0x60001000, 0, 2));
    xhci_device_pending_claim(&call, image, ctx, sizeof ctx, 1, 0);
    driven("a refused claim", &call, 0, XHCI_DEVICE_ANSWER_INVALID_PARAMETER,
        reason_of(XHCI_DEVICE_REASON_ENDPOINT, 0, 0, 0xa3840410, 0, 0));
    asked = xhci_device_ask(image, WORDS, sizeof ctx, ROUTES, XHCI_DEVICE_LOG_ROOM, 0, 1, drawn, XHCI_DEVICE_EP_ROOM);
    xhci_device_pending_commit(&call, image, ctx, sizeof ctx, &asked, drawn);
    driven("a driven commit", &call, 0x40300000, XHCI_DEVICE_ANSWER_FAILED,
        reason_of(XHCI_DEVICE_REASON_COMMAND, 0, 0, 0x40300000, 0, 0));
    asked.interface = 2;
    xhci_device_pending_commit(&call, image, ctx, sizeof ctx, &asked, drawn);
    driven("a refused commit", &call, 0, XHCI_DEVICE_ANSWER_NOT_FOUND, reason_of(XHCI_DEVICE_REASON_ALTERNATE, 2, 1, 0, 0, 0));
    xhci_device_pending_release(&call, image, ctx, sizeof ctx, 0);
    driven("a release", &call, 0x40300000, XHCI_DEVICE_ANSWER_FAILED, reason_of(XHCI_DEVICE_REASON_NUMBER, 0, 0, 0, 13, 0));
    xhci_device_pending_release(&call, image, ctx, sizeof ctx, 0);
    driven("a done release", &call, 0, XHCI_DEVICE_ANSWER_ACCEPTED, reason_of(XHCI_DEVICE_REASON_NOTHING, 0, 0, 0, 0, 0));
}

static void block(size_t input, size_t output, uint8_t from_output, uint8_t dci, uint32_t answer, size_t offset,
    size_t length) {
    struct xhci_device_placed placed = xhci_device_block(input, output, from_output, dci);
    if (placed.answer != answer || placed.offset != offset || placed.length != length) {
        fail("a block");
    }
}

static void blocks(void) {
    uint8_t dci;
    for (dci = 1; dci < 32; dci++) {
        block(XHCI_DEVICE_CONTEXT_BYTES_32, XHCI_DEVICE_OUTPUT_BYTES_32, 0, dci, 0, 32 * (size_t)dci + 32, 32);
        block(XHCI_DEVICE_CONTEXT_BYTES_32, XHCI_DEVICE_OUTPUT_BYTES_32, 1, dci, 0, 32 * (size_t)dci, 32);
        block(XHCI_DEVICE_CONTEXT_BYTES_64, XHCI_DEVICE_OUTPUT_BYTES_64, 0, dci, 0, 64 * (size_t)dci + 64, 64);
        block(XHCI_DEVICE_CONTEXT_BYTES_64, XHCI_DEVICE_OUTPUT_BYTES_64, 255, dci, 0, 64 * (size_t)dci, 64);
    }
    block(XHCI_DEVICE_CONTEXT_BYTES_32, XHCI_DEVICE_OUTPUT_BYTES_32, 0, 0, XHCI_DEVICE_ANSWER_DESCRIPTOR_LIST, 0, 0);
    block(XHCI_DEVICE_CONTEXT_BYTES_32, XHCI_DEVICE_OUTPUT_BYTES_32, 1, 32, XHCI_DEVICE_ANSWER_DESCRIPTOR_LIST, 0, 0);
    block(XHCI_DEVICE_CONTEXT_BYTES_32, XHCI_DEVICE_OUTPUT_BYTES_64, 0, 3, XHCI_DEVICE_ANSWER_CONTEXT_LENGTH, 0, 0);
    block(XHCI_DEVICE_CONTEXT_BYTES_64, XHCI_DEVICE_CONTEXT_BYTES_64, 1, 32, XHCI_DEVICE_ANSWER_CONTEXT_LENGTH, 0, 0);
}

int main(void) {
    begin();
    claims();
    driven_calls();
    blocks();
    return 0;
}
