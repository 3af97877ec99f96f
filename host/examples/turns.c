/* Three devices behind one command ring: their calls wait for their turns in a dispatcher and run whole, by rising slot.
 * Who waits is kept here, whose turn it is the dispatcher says. host/xhci_device/examples/turns.rs is the same in Rust and
 * prints the same. */
#include <inttypes.h>
#include <stdio.h>

#include "xhci_device_driver.h"

enum { N = 8, DEVICES = 3 };

/* Configuration 1, interface 0, alternate 0 with endpoint 0x81, interrupt. */
static const uint8_t configuration[25] = {
    9, 2, 25, 0, 1, 1, 0, 0x80, 50,
    9, 4, 0, 0, 1, 0xFF, 0, 0, 0,
    7, 5, 0x81, 3, 64, 0, 4};

/* The device descriptor: 64 bytes for control, one configuration. */
static const uint8_t descriptor[18] = {18, 1, 0, 2, 0, 0, 0, 64, 0x34, 0x12, 1, 0, 0, 1, 0, 0, 0, 1};

static const uint8_t value_now[1] = {0};

/* A device, the rings that its slot is given, and the call that waits for its turn. */
static struct device {
    uint8_t slot;
    uint64_t rings[3];
    uint64_t image[XHCI_DEVICE_RECORD_WORDS];
    uint8_t ctx[XHCI_DEVICE_CONTEXT_BYTES_32];
    bool is_claim;
} devices[DEVICES] = {
    {7, {0x1000, 0x1400, 0x1800}, {0}, {0}, false},
    {2, {0x2000, 0x2400, 0x2800}, {0}, {0}, false},
    {5, {0x3000, 0x3400, 0x3800}, {0}, {0}, false}};

static uint64_t routes[XHCI_DEVICE_ROUTES_OF_SLOT * (N + 1)];
enum { ROUTES = sizeof routes / sizeof routes[0] };

static struct xhci_device_dispatcher dispatcher;

static void print_command(struct xhci_device_command command) {
    const char *name = xhci_device_operation_name(command.operation);
    switch (command.operation) {
    case XHCI_DEVICE_OP_SET_INTERFACE:
        printf("%s %u, alternate %u\n", name, command.first, command.second);
        break;
    case XHCI_DEVICE_OP_SET_CONFIGURATION:
    case XHCI_DEVICE_OP_READ_CONFIG:
        printf("%s %u\n", name, command.first);
        break;
    default:
        printf("%s\n", name);
    }
}

/* The controller with such a device on each slot. */
static void bus_send(struct xhci_device_pending *call, const uint64_t *all_routes, void *bus) {
    (void)all_routes;
    printf("  slot %u: ", *(const uint8_t *)bus);
    print_command(call->command);
    switch (call->command.operation) {
    case XHCI_DEVICE_OP_READ_HEADER:
        xhci_device_pending_read_bytes(call, descriptor, 8);
        break;
    case XHCI_DEVICE_OP_READ_DEVICE:
        xhci_device_pending_read_bytes(call, descriptor, sizeof descriptor);
        break;
    case XHCI_DEVICE_OP_READ_CONFIGURATION:
        xhci_device_pending_read_bytes(call, value_now, sizeof value_now);
        break;
    case XHCI_DEVICE_OP_READ_CONFIG:
        xhci_device_pending_read_bytes(call, configuration, sizeof configuration);
        break;
    default:
        xhci_device_pending_done(call);
    }
}

static void submit(struct device *device, bool is_claim) {
    struct xhci_device_submitted submitted = xhci_device_submit(dispatcher, device->slot);
    dispatcher = submitted.dispatcher;
    printf("%s of slot %u: ", is_claim ? "claim" : "bring-up", device->slot);
    if (submitted.answer != XHCI_DEVICE_ANSWER_ACCEPTED) {
        printf("%" PRIu32 ", %s\n", submitted.answer, xhci_device_answer_name(submitted.answer));
        return;
    }
    printf("waits\n");
    device->is_claim = is_claim;
}

/* Runs the call whose turn it is. NULL where none waits. */
static struct device *turn(void) {
    static struct xhci_device_pending call;
    struct xhci_device_turned turned = xhci_device_turn(dispatcher);
    struct xhci_device_answered answered;
    struct device *device = devices;
    dispatcher = turned.dispatcher;
    printf("turn\n");
    if (!turned.served) {
        printf("  none waits\n");
        return NULL;
    }
    while (device->slot != turned.slot) {
        device++;
    }
    if (device->is_claim) {
        xhci_device_pending_claim(&call, device->image, device->ctx, sizeof device->ctx, 0, 0);
    } else {
        struct xhci_device_attached attached = {device->slot, N, 3, false, 0, 1, device->slot, device->rings, 3, NULL, 0};
        xhci_device_pending_bring_up(&call, device->image, device->ctx, sizeof device->ctx, &attached);
    }
    answered = xhci_device_pending_run(&call, routes, ROUTES, bus_send, &device->slot);
    printf("  slot %u: answer %" PRIu32 ": %s\n", device->slot, answered.answer, xhci_device_answer_name(answered.answer));
    return device;
}

int main(void) {
    struct device *device;
    int at, claims = DEVICES;
    dispatcher = xhci_device_new_dispatcher();
    for (at = 0; at < DEVICES; at++) {
        submit(&devices[at], false);
    }
    /* A second call of slot 7. */
    submit(&devices[0], false);

    /* Slot 2 has its turn first, and may wait again at once; slots 5 and 7 come before it. */
    while ((device = turn()) != NULL) {
        if (claims > 0) {
            claims--;
            submit(device, true);
        }
    }
    for (at = 0; at < DEVICES; at++) {
        uint8_t dci;
        for (dci = 1; dci <= 3; dci = (uint8_t)(dci + 2)) {
            printf("slot %u, Dci %u goes to ring %" PRIx64 "\n", devices[at].slot, dci,
                routes[xhci_device_route_index(devices[at].slot, dci)]);
        }
    }
    return 0;
}
