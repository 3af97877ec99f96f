/* Driven calls where a user stumbles: a bring-up of a slot that is in use, a loop that tells no outcome, codes, an ask. Prints
 * nothing; a wrong answer ends it with 1. */
#include "test.h"

#include <string.h>

enum { N = 1, SLOT = 1, ROUTES = XHCI_DEVICE_ROUTES_OF_SLOT * (N + 1), WORDS = XHCI_DEVICE_RECORD_WORDS };

/* Interface 0: 81 in alternate 0, 81 and 02 in alternate 1. */
static const uint32_t LIST[] = {0x00400000, 0x40000000, 0xa3840410, 0x40004000, 0xa3840410, 0x85200000};

static const uint64_t RINGS[] = {0x4000, 0x1000, 0x2000, 0x3000};

static const struct xhci_device_attached ATTACHED = {SLOT, N, 3, false, 0, 1, 1, RINGS, 4, NULL, 0};

static struct device device;
static uint64_t image[WORDS], routes[ROUTES], before[WORDS];
static uint8_t ctx[XHCI_DEVICE_CONTEXT_BYTES_32];
static struct xhci_device_pending call;

static uint32_t run(void) {
    return xhci_device_pending_run(&call, routes, ROUTES, test_send, &device).answer;
}

/* A device that is brought up, and interface 0 holds alternate 0. */
static void bring_up_and_claim(void) {
    memset(&device, 0, sizeof device);
    device.configurations = 1;
    device.packet = 64;
    device.words[0] = LIST;
    device.words_len[0] = sizeof LIST / sizeof LIST[0];
    device.descriptor_len = 18;
    device.value_len = 1;
    memset(routes, 0, sizeof routes);
    memset(image, 0, sizeof image);
    xhci_device_pending_bring_up(&call, image, ctx, sizeof ctx, &ATTACHED);
    expect(run() == XHCI_DEVICE_ANSWER_ACCEPTED, "a bring-up");
    xhci_device_pending_claim(&call, image, ctx, sizeof ctx, 0, 0);
    expect(run() == XHCI_DEVICE_ANSWER_ACCEPTED, "a claim");
    memcpy(before, image, sizeof image);
}

static bool no_routes(void) {
    size_t i;
    for (i = 0; i < ROUTES; i++) {
        if (routes[i] != 0) {
            return false;
        }
    }
    return true;
}

/* The slot is in use: the driven bring-up keeps the record, and the device is claimed on and unplugged. */
static void again(void) {
    bring_up_and_claim();
    xhci_device_pending_bring_up(&call, image, ctx, sizeof ctx, &ATTACHED);
    expect(run() == XHCI_DEVICE_ANSWER_QUEUE_FULL && call.answered.count == 0, "a second bring-up");
    expect(memcmp(image, before, sizeof image) == 0, "a refused bring-up keeps the image");
    xhci_device_pending_claim(&call, image, ctx, sizeof ctx, 0, 1);
    expect(run() == XHCI_DEVICE_ANSWER_ACCEPTED && xhci_device_held(image, 0).alternate == 1, "a claim behind it");
    xhci_device_pending_disconnect(&call, image, ctx, sizeof ctx);
    expect(run() == XHCI_DEVICE_ANSWER_ACCEPTED && no_routes(), "an unplugging behind it");
}

/* The same of the library's function, which empties the image: the device can no longer be unplugged. */
static void again_at_once(void) {
    const uint64_t none[1] = {0};
    static const uint8_t done[XHCI_DEVICE_LOG_ROOM] = {0};
    uint32_t log[XHCI_DEVICE_LOG_ROOM];
    struct xhci_device_answered left;
    size_t i;
    bring_up_and_claim();
    left = xhci_device_bring_up(image, WORDS, ctx, sizeof ctx, routes, ROUTES, log, XHCI_DEVICE_LOG_ROOM, done, sizeof done,
        RINGS, 4, none, 0, LIST, sizeof LIST / sizeof LIST[0], SLOT, N, 3, 0, 0, 1, 1, 8, 64, 0);
    expect(left.answer == XHCI_DEVICE_ANSWER_QUEUE_FULL, "a second bring-up at once");
    for (i = 0; i < WORDS; i++) {
        expect(image[i] == 0, "the exported bring-up leaves an empty record");
    }
    xhci_device_pending_disconnect(&call, image, ctx, sizeof ctx);
    expect(run() == XHCI_DEVICE_ANSWER_UNUSABLE && !no_routes(), "an unplugging without a record");
}

/* A refusal of each kind that a bring-up has keeps the image. */
static void refused(void) {
    static const uint64_t twice[] = {0x1000, 0x1000};
    struct xhci_device_attached attached[4] = {ATTACHED, ATTACHED, ATTACHED, ATTACHED};
    const uint32_t wanted[4] = {XHCI_DEVICE_ANSWER_SLOT_LIMIT_REACHED, XHCI_DEVICE_ANSWER_SPEED, XHCI_DEVICE_ANSWER_HUB_CHAIN,
        XHCI_DEVICE_ANSWER_RINGS};
    size_t i;
    bring_up_and_claim();
    attached[0].slot = 0;
    attached[1].speed = 6;
    attached[2].has_parent = true;
    attached[3].rings = twice;
    attached[3].rings_len = 2;
    for (i = 0; i < 4; i++) {
        xhci_device_pending_bring_up(&call, image, ctx, sizeof ctx, &attached[i]);
        expect(run() == wanted[i] && memcmp(image, before, sizeof image) == 0, "a refused bring-up");
    }
    xhci_device_pending_bring_up(&call, image, ctx, sizeof ctx - 1, &ATTACHED);
    expect(run() == XHCI_DEVICE_ANSWER_CONTEXT_LENGTH && memcmp(image, before, sizeof image) == 0, "a short context");
}

/* A loop that tells no outcome ends, and goes on when the outcome is told. */
static void untold(void) {
    size_t sent = 0;
    bring_up_and_claim();
    xhci_device_pending_claim(&call, image, ctx, sizeof ctx, 0, 1);
    expect(call.state == XHCI_DEVICE_PENDING_NEW, "a call that was begun");
    while (xhci_device_pending_next(&call, routes, ROUTES)) {
        expect(call.state == XHCI_DEVICE_PENDING_DUE, "a command is due");
        sent++;
        expect(sent == 1, "the loop does not end");
    }
    expect(sent == 1 && call.state == XHCI_DEVICE_PENDING_UNTOLD, "no outcome was told");
    expect(call.answered.answer == XHCI_DEVICE_ANSWER_CUT && call.answered.count == 1, "an untold call is cut");
    expect(!xhci_device_pending_next(&call, routes, ROUTES) && call.state == XHCI_DEVICE_PENDING_UNTOLD, "asked once more");
    expect(call.command.operation == XHCI_DEVICE_OP_STOP && call.command.first == 3, "the command that was not told");
    xhci_device_pending_done(&call);
    expect(call.state == XHCI_DEVICE_PENDING_TOLD, "the outcome was told");
    while (xhci_device_pending_next(&call, routes, ROUTES)) {
        sent++;
        expect(call.command.operation != XHCI_DEVICE_OP_CONFIGURE
                || (xhci_device_pending_added(&call) == 0x18 && xhci_device_pending_dropped(&call) == 8),
            "what a Configure adds and drops");
        xhci_device_pending_done(&call);
    }
    expect(sent == 3 && call.state == XHCI_DEVICE_PENDING_ENDED, "the call went on to its end");
    expect(call.answered.answer == XHCI_DEVICE_ANSWER_ACCEPTED && xhci_device_held(image, 0).alternate == 1, "accepted");
    xhci_device_pending_failed(&call, 7);
    expect(!xhci_device_pending_next(&call, routes, ROUTES) && call.told == 3, "an outcome that nobody waits for");
}

static void send_nothing(struct xhci_device_pending *pending, const uint64_t *all_routes, void *sent) {
    (void)pending, (void)all_routes;
    ++*(size_t *)sent;
}

/* The same of a call that is run: left there it is cut, and the device can be unplugged. */
static void run_untold(void) {
    size_t sent = 0;
    struct xhci_device_answered left;
    bring_up_and_claim();
    xhci_device_pending_claim(&call, image, ctx, sizeof ctx, 0, 1);
    left = xhci_device_pending_run(&call, routes, ROUTES, send_nothing, &sent);
    expect(sent == 1 && call.state == XHCI_DEVICE_PENDING_UNTOLD && left.answer == XHCI_DEVICE_ANSWER_CUT, "a run untold");
    xhci_device_pending_disconnect(&call, image, ctx, sizeof ctx);
    expect(run() == XHCI_DEVICE_ANSWER_ACCEPTED && no_routes(), "an unplugging of a cut call");
}

/* Codes of one's own are 1 to 254. */
static void codes(void) {
    static const uint8_t told[] = {0, 255, 254, 1}, wanted[] = {254, 254, 254, 1};
    size_t i;
    for (i = 0; i < sizeof told; i++) {
        bring_up_and_claim();
        device.failing = 0x40300000;
        device.code = told[i];
        xhci_device_pending_claim(&call, image, ctx, sizeof ctx, 0, 1);
        expect(run() == XHCI_DEVICE_ANSWER_FAILED && call.answered.code == wanted[i], "a code");
        expect(xhci_device_pending_unreadable(&call).operation == 0, "nothing was unreadable");
    }
    device.failing = 0xb0000000;
    device.code = XHCI_DEVICE_UNREADABLE;
    memset(routes, 0, sizeof routes);
    xhci_device_pending_bring_up(&call, image, ctx, sizeof ctx, &ATTACHED);
    expect(run() == XHCI_DEVICE_ANSWER_FAILED && call.answered.code == 254, "code 255 of a bring-up");
    expect(xhci_device_pending_unreadable(&call).operation == 0, "a read that failed was not unreadable");
}

/* An ask of the driver is one with a log of LOG_ROOM words. */
static void asks(void) {
    uint8_t alternate;
    bring_up_and_claim();
    for (alternate = 0; alternate < 3; alternate++) {
        uint64_t rings[2][XHCI_DEVICE_EP_ROOM] = {{0}, {0}};
        struct xhci_device_asked asked[2];
        asked[0] = xhci_device_pending_ask(image, sizeof ctx, ROUTES, 0, alternate, rings[0]);
        asked[1] = xhci_device_ask(image, WORDS, sizeof ctx, ROUTES, XHCI_DEVICE_LOG_ROOM, 0, alternate, rings[1],
            XHCI_DEVICE_EP_ROOM);
        expect(asked[0].answer == asked[1].answer && asked[0].interface == asked[1].interface
                && asked[0].alternate == asked[1].alternate && asked[0].drops == asked[1].drops
                && asked[0].adds == asked[1].adds && asked[0].count == asked[1].count
                && memcmp(rings[0], rings[1], sizeof rings[0]) == 0,
            "an ask of the driver");
        expect(asked[0].answer == (alternate < 2 ? 0 : 8) && asked[0].count == (alternate < 2 ? alternate + 1u : 0), "an ask");
    }
}

/* A refused ask is not committed, though its zeros are an ask that would be shown. */
static void refused_ask(void) {
    static const uint32_t bare[] = {0x00400000, 0x40000000};
    uint64_t rings[XHCI_DEVICE_EP_ROOM];
    struct xhci_device_asked asked;
    bring_up_and_claim();
    device.words[0] = bare;
    device.words_len[0] = 2;
    memset(routes, 0, sizeof routes);
    xhci_device_pending_bring_up(&call, image, ctx, sizeof ctx, &ATTACHED);
    expect(run() == XHCI_DEVICE_ANSWER_ACCEPTED, "a bring-up");
    asked = xhci_device_pending_ask(image, sizeof ctx, ROUTES, 0, 1, rings);
    expect(asked.answer == XHCI_DEVICE_ANSWER_NOT_FOUND, "a refused ask");
    xhci_device_pending_commit(&call, image, ctx, sizeof ctx, &asked, rings);
    expect(run() == XHCI_DEVICE_ANSWER_OUTDATED_ASK && call.answered.count == 0, "its commit");
    asked.answer = XHCI_DEVICE_ANSWER_ACCEPTED;
    xhci_device_pending_commit(&call, image, ctx, sizeof ctx, &asked, rings);
    expect(run() == XHCI_DEVICE_ANSWER_ACCEPTED && xhci_device_held_count(image) == 1, "the commit of its zeros");
}

static char printed[4096];

static void put(char c, void *to) {
    size_t *len = (size_t *)to;
    expect(*len < sizeof printed - 1, "a printed call is too long");
    printed[(*len)++] = c;
    printed[*len] = '\0';
}

/* The form of a printed call: docs/SCENARIOS.md. */
static void prints(void) {
    static const char wanted[] =
        "scenario pending\n"
        "claim\n"
        "interface 0\n"
        "alternate 1\n"
        "record usable=1 up=1 slot=1 n=1 spacing=32 speed=3 config=1 control=1000/active\n"
        "reclist 00400000 40000000 a3840410 40004000 a3840410 85200000\n"
        "eps 81:2000:0:active\n"
        "held 0:0\n"
        "quarantined\n"
        "given 4000 1000 2000 3000\n"
        "ctxlen 1056\n"
        "routes 33=1000 35=2000\n"
        "routeslen 64\n"
        "loglen 64\n"
        "outcomes 0007\n"
        "go\n"
        "end\n";
    size_t len = 0;
    bring_up_and_claim();
    memset(ctx, 0, sizeof ctx);
    device.failing = 0x30000000;
    device.code = 7;
    xhci_device_pending_claim(&call, image, ctx, sizeof ctx, 0, 1);
    while (call.told < 2 && xhci_device_pending_next(&call, routes, ROUTES)) {
        test_send(&call, routes, &device);
    }
    expect(xhci_device_pending_next(&call, routes, ROUTES), "a Resume is due");
    xhci_device_pending_print(&call, put, &len);
    expect(strcmp(printed, wanted) == 0, "a printed call");
}

int main(void) {
    again();
    again_at_once();
    refused();
    untold();
    run_untold();
    codes();
    asks();
    refused_ask();
    prints();
    return 0;
}
