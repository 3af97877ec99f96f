/* See script.h. */
#include "script.h"

#include <string.h>

/* Configurations, without their companions; the last four cannot be used: no word; one of kind 3 that stands behind an
 * alternate; one that says a mult behind an interrupt endpoint; two configurations. */
static const struct {
    size_t len;
    uint32_t words[8];
} pool[] = {
    {1, {0x00400000}},
    {4, {0x00400000, 0x40000000, 0xA3840410, 0x40004000}},
    {7, {0x00800000, 0x40000000, 0xA3840410, 0x85200000, 0x40004000, 0xA5000410, 0xA3900804}},
    {8, {0x00400000, 0x40000000, 0xA3840410, 0x40004000, 0x87840410, 0x40400000, 0xA5840410, 0x40404000}},
    {6, {0x00400000, 0x40000000, 0xA3840410, 0x40400000, 0x85200000, 0xA3840410}},
    {0, {0}},
    {3, {0x00400000, 0x40000000, 0xC0000000}},
    {4, {0x00400000, 0x40000000, 0xA3840410, 0xC1000800}},
    {2, {0x00400000, 0x00800000}},
};
enum { POOL = sizeof pool / sizeof pool[0], USABLE = POOL - 4 };

static uint64_t seed = 0x5EED0002;

uint64_t any(void) {
    seed ^= seed >> 12;
    seed ^= seed << 25;
    seed ^= seed >> 27;
    return seed * UINT64_C(0x2545F4914F6CDD1D);
}

size_t below(size_t n) {
    return (size_t)((any() >> 33) % n);
}

uint8_t any_byte(void) {
    return (uint8_t)(any() >> 56);
}

void begin_anew(struct world *w) {
    memset(w, 0, sizeof *w);
    w->ctx_len = below(2) == 0 ? XHCI_DEVICE_CONTEXT_BYTES_32 : XHCI_DEVICE_CONTEXT_BYTES_64;
    if (below(50) == 0) {
        w->ctx_len = below(2) == 0 ? 1000 : sizeof w->ctx;
    }
    memset(w->ctx, below(2) == 0 ? 0 : any_byte(), w->ctx_len);
}

bool can_be_used(size_t which) {
    return which < USABLE;
}

static void bring_up_script(struct script *s) {
    struct xhci_device_attached *at = &s->attached;
    size_t i;
    at->slot = below(30) == 0 ? any_byte() : 1;
    at->n = below(30) == 0 ? below(300) : (size_t)N;
    at->speed = (uint8_t)(below(30) == 0 ? any_byte() : 1 + below(5));
    at->has_parent = below(6) == 0;
    at->parent = below(3);
    at->port = (uint8_t)below(20);
    at->root_port = any_byte();
    at->rings_len = below(8) == 0 ? below(9) : 8;
    for (i = 0; i < at->rings_len; i++) {
        s->rings[i] = 0x1000 + 16 * below(4096) + (below(90) == 0);
    }
    at->rings = s->rings;
    s->hubs[0] = UINT64_C(0x8000030000000000);
    s->hubs[1] = UINT64_C(0xC0008B0400000000);
    at->hubs = s->hubs;
    at->hubs_len = 2;
    s->header_len = below(20) == 0 ? below(12) : 8;
    for (i = 0; i < s->header_len; i++) {
        s->header[i] = any_byte();
    }
    if (at->speed > 3 && below(10) != 0) {
        s->header[7] = 9;
    }
    s->value = (uint8_t)below(3);
    s->count = below(20) == 0 ? below(MOST_CONFIGURATIONS) : below(4);
    for (i = 0; i < s->count; i++) {
        s->configurations[i] = below(20) == 0 ? below(POOL) : below(USABLE);
    }
}

void any_script(struct script *s, bool usable, bool up) {
    size_t i, failures = below(2) == 0 ? below(3) : 0;
    memset(s, 0, sizeof *s);
    bring_up_script(s);
    s->kind = usable == (below(20) != 0) ? (int)(A_CLAIM + below(4)) : A_BRING_UP;
    if (up && below(usable ? 20 : 2) == 0) {
        s->kind = A_DISCONNECT;
    }
    s->interface = (uint8_t)below(3);
    s->alternate = (uint8_t)below(2);
    s->multi = below(2) == 0;
    s->ns = (uint32_t)below(4000);
    s->outcomes_len = below(8) == 0 ? below(16) : (size_t)OUTCOMES;
    for (i = 0; i < failures; i++) {
        size_t at = below(12);
        s->outcomes[at] = (uint8_t)below(XHCI_DEVICE_UNREADABLE);
    }
}

size_t words_of(size_t which, uint8_t speed, uint32_t *words) {
    size_t i, len = 0;
    for (i = 0; i < pool[which].len; i++) {
        uint32_t word = pool[which].words[i];
        bool has_one = i + 1 < pool[which].len && pool[which].words[i + 1] >> 30 == 3;
        words[len++] = word;
        if ((speed == 4 || speed == 5) && word >> 30 == 2 && !has_one) {
            words[len++] = UINT32_C(0xC4000800) + (uint32_t)i * UINT32_C(0x04000100); /* burst and bytes per interval */
        }
    }
    return len;
}

void begin(struct xhci_device_pending *call, struct world *w, const struct script *s) {
    switch (s->kind) {
    case A_BRING_UP:
        xhci_device_pending_bring_up(call, w->image, w->ctx, w->ctx_len, &s->attached);
        break;
    case A_CLAIM:
        xhci_device_pending_claim(call, w->image, w->ctx, w->ctx_len, s->interface, s->alternate);
        break;
    case A_COMMIT:
        xhci_device_pending_commit(call, w->image, w->ctx, w->ctx_len, &s->asked, s->drawn);
        break;
    case A_RELEASE:
        xhci_device_pending_release(call, w->image, w->ctx, w->ctx_len, s->interface);
        break;
    case A_SET_CONFIGURATION:
        xhci_device_pending_set_configuration(call, w->image, w->ctx, w->ctx_len, s->interface);
        break;
    case A_DISCONNECT:
        xhci_device_pending_disconnect(call, w->image, w->ctx, w->ctx_len);
        break;
    default:
        xhci_device_pending_hub_update(call, w->image, w->ctx, w->ctx_len, s->interface, s->multi, s->ns);
    }
}

/* A configuration as words and, where it can be written, in turn as bytes. */
static void read_config(struct xhci_device_pending *call, const struct script *s) {
    static uint8_t bytes[XHCI_DEVICE_WRITE_BYTES];
    uint32_t words[MOST_WORDS];
    size_t len = words_of(s->configurations[call->command.first], s->attached.speed, words);
    struct xhci_device_answered written =
        xhci_device_write_descriptors(words, len, s->attached.speed, bytes, sizeof bytes);
    if (written.answer == XHCI_DEVICE_ANSWER_ACCEPTED && len % 2 == 0) {
        xhci_device_pending_read_bytes(call, bytes, written.count);
    } else {
        xhci_device_pending_read_words(call, words, len);
    }
}

void bus_send(struct xhci_device_pending *call, const uint64_t *routes, void *bus) {
    const struct script *s = (const struct script *)bus;
    uint8_t device[18] = {0};
    (void)routes;
    if (call->told >= s->outcomes_len) {
        return;
    }
    if (s->outcomes[call->told] != 0) {
        xhci_device_pending_failed(call, s->outcomes[call->told]);
        return;
    }
    device[17] = (uint8_t)s->count;
    switch (call->command.operation) {
    case XHCI_DEVICE_OP_READ_HEADER:
        xhci_device_pending_read_bytes(call, s->header, s->header_len);
        break;
    case XHCI_DEVICE_OP_READ_CONFIGURATION:
        xhci_device_pending_read_bytes(call, &s->value, 1);
        break;
    case XHCI_DEVICE_OP_READ_DEVICE:
        xhci_device_pending_read_bytes(call, device, sizeof device);
        break;
    case XHCI_DEVICE_OP_READ_CONFIG:
        read_config(call, s);
        break;
    default:
        xhci_device_pending_done(call);
    }
}
