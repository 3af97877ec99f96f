/* The driver and this are compiled with a header whose record has a word more than the archive's: no driven call runs. Prints
 * nothing; a wrong answer ends it with 1. */
#include "test.h"

#include <string.h>

enum { N = 1, ROUTES = XHCI_DEVICE_ROUTES_OF_SLOT * (N + 1) };

static struct device device;
static uint64_t image[XHCI_DEVICE_RECORD_WORDS], before[XHCI_DEVICE_RECORD_WORDS], routes[ROUTES];
static uint8_t ctx[XHCI_DEVICE_CONTEXT_BYTES_32];
static struct xhci_device_pending call;

static void refuses(const char *what) {
    struct xhci_device_answered left = xhci_device_pending_run(&call, routes, ROUTES, test_send, &device);
    size_t i;
    expect(left.answer == XHCI_DEVICE_ANSWER_UNUSABLE && left.count == 0, what);
    expect(call.state == XHCI_DEVICE_PENDING_MISFIT && call.reason.number == XHCI_DEVICE_ANSWER_UNUSABLE, what);
    expect(!xhci_device_pending_next(&call, routes, ROUTES) && call.state == XHCI_DEVICE_PENDING_MISFIT, what);
    expect(memcmp(image, before, sizeof image) == 0, what);
    for (i = 0; i < ROUTES; i++) {
        expect(routes[i] == 0, what);
    }
}

int main(void) {
    static const uint64_t rings[] = {0x1000};
    const struct xhci_device_attached attached = {1, N, 3, false, 0, 1, 1, rings, 1, NULL, 0};
    expect(xhci_device_record_words() + 1 == XHCI_DEVICE_RECORD_WORDS, "the header was to have a word more");
    memset(image, 0xa5, sizeof image);
    memcpy(before, image, sizeof image);
    xhci_device_pending_bring_up(&call, image, ctx, sizeof ctx, &attached);
    refuses("a bring-up");
    xhci_device_pending_claim(&call, image, ctx, sizeof ctx, 0, 0);
    refuses("a claim");
    xhci_device_pending_disconnect(&call, image, ctx, sizeof ctx);
    refuses("an unplugging");
    return 0;
}
