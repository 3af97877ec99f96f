/* A device is brought up, its interface claimed, a switch to the other setting fails on the bus, the interface is
 * released, and the device unplugged. host/xhci_device/examples/switch.rs is the same in Rust and prints the same. */
#include <inttypes.h>
#include <stdio.h>

#include "xhci_device_driver.h"

enum { SLOT = 1, N = 2 };

/* Configuration 1, interface 0: alternate 0 with endpoint 0x81, interrupt; alternate 1 with 0x81 and 0x02, bulk. */
static const uint8_t configuration[48] = {
    9, 2, 48, 0, 1, 1, 0, 0x80, 50,
    9, 4, 0, 0, 1, 0xFF, 0, 0, 0,
    7, 5, 0x81, 3, 64, 0, 4,
    9, 4, 0, 1, 2, 0xFF, 0, 0, 0,
    7, 5, 0x81, 3, 64, 0, 4,
    7, 5, 0x02, 2, 0, 2, 0};

/* The device descriptor: 64 bytes for control, one configuration. */
static const uint8_t descriptor[18] = {18, 1, 0, 2, 0, 0, 0, 64, 0x34, 0x12, 1, 0, 0, 1, 0, 0, 0, 1};

static const uint8_t value_now[1] = {0};

static uint64_t image[XHCI_DEVICE_RECORD_WORDS];
static uint8_t ctx[XHCI_DEVICE_CONTEXT_BYTES_32];
static uint64_t routes[XHCI_DEVICE_ROUTES_OF_SLOT * (N + 1)];
enum { ROUTES = sizeof routes / sizeof routes[0] };

static void print_command(struct xhci_device_command command) {
    const char *name = xhci_device_operation_name(command.operation);
    switch (command.operation) {
    case XHCI_DEVICE_OP_STOP:
    case XHCI_DEVICE_OP_RESUME:
        printf("%s Dci %u", name, command.first);
        break;
    case XHCI_DEVICE_OP_SET_INTERFACE:
        printf("%s %u, alternate %u", name, command.first, command.second);
        break;
    case XHCI_DEVICE_OP_SET_CONFIGURATION:
    case XHCI_DEVICE_OP_READ_CONFIG:
        printf("%s %u", name, command.first);
        break;
    default:
        printf("%s", name);
    }
}

/* The controller with the device on it, which fails the command of one log word. A real one sends the command and
 * waits for its event. */
static void bus_send(struct xhci_device_pending *call, const uint64_t *all_routes, void *bus) {
    uint8_t dci;
    uint32_t failing = *(const uint32_t *)bus;
    (void)all_routes;
    printf("  ");
    print_command(call->command);
    for (dci = 1; dci < 32; dci++) {
        if (xhci_device_pending_dropped(call) >> dci & 1) {
            printf(", gives up Dci %u", dci);
        }
    }
    for (dci = 1; dci < 32; dci++) {
        if (xhci_device_pending_added(call) >> dci & 1) {
            /* Here the ring is cleared: the controller begins at its base, with cycle state 1. */
            printf(", begins Dci %u on ring %" PRIx64, dci, xhci_device_pending_ring(call, dci));
        }
    }
    if (call->log[call->told] == failing) {
        printf(": failed, code 7\n");
        xhci_device_pending_failed(call, 7);
        return;
    }
    printf(": done\n");
    switch (call->command.operation) {
    case XHCI_DEVICE_OP_READ_HEADER:
        xhci_device_pending_read_bytes(call, descriptor, 8);
        break;
    case XHCI_DEVICE_OP_READ_DEVICE:
        xhci_device_pending_read_bytes(call, descriptor, sizeof descriptor);
        break;
    case XHCI_DEVICE_OP_READ_CONFIGURATION:
        xhci_device_pending_read_bytes(call, value_now, sizeof value_now);
        break;
    case XHCI_DEVICE_OP_READ_CONFIG:
        xhci_device_pending_read_bytes(call, configuration, sizeof configuration);
        break;
    default:
        xhci_device_pending_done(call);
    }
}

/* Why a claim or a commit was not accepted, where its answer does not say it all. */
static void print_reason(const struct xhci_device_reason *reason) {
    if (reason->kind == XHCI_DEVICE_REASON_COMMAND) {
        printf("  the command at place %zu of the log failed first: ", reason->place);
        print_command(xhci_device_command_of(reason->word));
        printf("\n");
    } else {
        printf("  %s\n", xhci_device_reason_name(reason->kind));
    }
}

static void run(const char *what, struct xhci_device_pending *call, uint32_t failing) {
    struct xhci_device_answered answered;
    uint8_t dci;
    size_t i;
    printf("%s\n", what);
    answered = xhci_device_pending_run(call, routes, ROUTES, bus_send, &failing);
    printf("  answer %" PRIu32 ": %s", answered.answer, xhci_device_answer_name(answered.answer));
    if (answered.answer == XHCI_DEVICE_ANSWER_FAILED) {
        printf(", with code %" PRIu32, answered.code);
    }
    printf("\n");
    if (call->reason.kind != XHCI_DEVICE_REASON_NOTHING && call->reason.kind != XHCI_DEVICE_REASON_NUMBER) {
        print_reason(&call->reason);
    }
    for (i = 0; i < xhci_device_held_count(image); i++) {
        struct xhci_device_setting held = xhci_device_held(image, i);
        printf("  interface %u holds alternate %u\n", held.interface, held.alternate);
    }
    for (dci = 0; dci < 32; dci++) {
        uint64_t ring = routes[xhci_device_route_index(SLOT, dci)];
        if (ring != 0) {
            printf("  Dci %u goes to ring %" PRIx64 "\n", dci, ring);
        }
    }
    printf("\n");
}

/* What the claim would do. */
static void show(const struct xhci_device_asked *asked, const uint64_t *rings) {
    uint8_t dci;
    size_t i;
    printf("ask for interface %u, alternate %u\n", asked->interface, asked->alternate);
    for (dci = 0; dci < 32; dci++) {
        if (asked->drops >> dci & 1) {
            printf("  Dci %u would go\n", dci);
        }
    }
    for (dci = 0; dci < 32; dci++) {
        if (asked->adds >> dci & 1) {
            printf("  Dci %u would come\n", dci);
        }
    }
    for (i = 0; i < asked->count; i++) {
        printf("  ring %" PRIx64 " would be drawn\n", rings[i]);
    }
    printf("\n");
}

int main(void) {
    static struct xhci_device_pending call;
    /* The rings that the slot is given; the lowest is control's. */
    const uint64_t rings[4] = {0x1000, 0x2000, 0x3000, 0x3400};
    struct xhci_device_attached attached = {SLOT, N, 3, false, 0, 1, 1, rings, 4, NULL, 0};
    struct xhci_device_asked asked;
    uint64_t drawn[XHCI_DEVICE_EP_ROOM];

    xhci_device_pending_bring_up(&call, image, ctx, sizeof ctx, &attached);
    run("bring-up of slot 1", &call, 0);
    xhci_device_pending_claim(&call, image, ctx, sizeof ctx, 0, 0);
    run("claim of interface 0, alternate 0", &call, 0);
    asked = xhci_device_pending_ask(image, sizeof ctx, ROUTES, 0, 1, drawn);
    if (asked.answer != XHCI_DEVICE_ANSWER_ACCEPTED) {
        return 1;
    }
    show(&asked, drawn);
    xhci_device_pending_commit(&call, image, ctx, sizeof ctx, &asked, drawn);
    run("commit of interface 0, alternate 1", &call, 0x60001000);
    xhci_device_pending_release(&call, image, ctx, sizeof ctx, 0);
    run("release of interface 0", &call, 0);
    xhci_device_pending_disconnect(&call, image, ctx, sizeof ctx);
    run("unplugging of slot 1", &call, 0);
    return 0;
}
