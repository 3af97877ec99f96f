/* Makes the calls that come on standard input, and writes what they leave to standard output. */
#include "remote.h"

#include <stdlib.h>
#include <string.h>
#include <unistd.h>

static bool get(void *to, size_t bytes) {
    unsigned char *at = to;
    while (bytes > 0) {
        ssize_t got = read(0, at, bytes);
        if (got <= 0) {
            return false;
        }
        at += got;
        bytes -= (size_t)got;
    }
    return true;
}

static void put(const void *from, size_t bytes) {
    const unsigned char *at = from;
    while (bytes > 0) {
        ssize_t done = write(1, at, bytes);
        if (done <= 0) {
            exit(1);
        }
        at += done;
        bytes -= (size_t)done;
    }
}

/* The buffers of a request, each in memory of its own. */
static void get_buffers(const struct request *r, void *buffers[BUFFERS]) {
    for (int i = 0; i < BUFFERS; i++) {
        size_t bytes = (size_t)r->count[i] * size_of[i];
        buffers[i] = malloc(bytes + 1);
        if (buffers[i] == NULL || !get(buffers[i], bytes)) {
            exit(1);
        }
    }
}

#define LENT                                                                                       \
    b[IMAGE], (size_t)c[IMAGE], b[CTX], (size_t)c[CTX], b[ROUTES], (size_t)c[ROUTES], b[LOG],       \
        (size_t)c[LOG], b[OUTCOMES], (size_t)c[OUTCOMES]

static struct xhci_device_dispatcher dispatcher(void *b[BUFFERS]) {
    struct xhci_device_dispatcher dispatcher;
    memcpy(&dispatcher, b[CTX], sizeof dispatcher);
    return dispatcher;
}

static struct xhci_device_answered dispatched(
    struct xhci_device_dispatcher dispatcher, uint32_t answer, uint32_t served, uint8_t slot, void *b[BUFFERS]) {
    memcpy(b[CTX], &dispatcher, sizeof dispatcher);
    return (struct xhci_device_answered){answer, served, slot};
}

static struct xhci_device_answered make_call(const struct request *r, void *b[BUFFERS]) {
    const uint64_t *c = r->count, *n = r->number;
    switch (r->function) {
    case BRING_UP:
        return xhci_device_bring_up(LENT, b[RINGS], (size_t)c[RINGS], b[HUBS], (size_t)c[HUBS], b[LIST],
            (size_t)c[LIST], (uint8_t)n[0], (size_t)n[1], (uint8_t)n[2], (uint8_t)n[3], (size_t)n[4], (uint8_t)n[5],
            (uint8_t)n[6], (size_t)n[7], (uint8_t)n[8], (uint8_t)n[9]);
    case CLAIM:
        return xhci_device_claim(LENT, (uint8_t)n[0], (uint8_t)n[1]);
    case COMMIT:
        return xhci_device_commit(LENT, (uint8_t)n[0], (uint8_t)n[1], (uint32_t)n[2], (uint32_t)n[3], b[RINGS],
            (size_t)c[RINGS]);
    case RELEASE:
        return xhci_device_release(LENT, (uint8_t)n[0]);
    case SET_CONFIGURATION:
        return xhci_device_set_configuration(LENT, (uint8_t)n[0]);
    case HUB_UPDATE:
        return xhci_device_hub_update(LENT, (uint8_t)n[0], (uint8_t)n[1], (uint32_t)n[2]);
    case DISCONNECT:
        return xhci_device_disconnect(LENT);
    case READ_DESCRIPTORS:
        return xhci_device_read_descriptors(b[OUTCOMES], (size_t)c[OUTCOMES], (uint8_t)n[0], b[LOG], (size_t)c[LOG]);
    case WRITE_DESCRIPTORS:
        return xhci_device_write_descriptors(b[LIST], (size_t)c[LIST], (uint8_t)n[0], b[CTX], (size_t)c[CTX]);
    case SETTINGS_TO_NEW:
        return xhci_device_settings_to_new(
            b[OUTCOMES], (size_t)c[OUTCOMES], b[LIST], (size_t)c[LIST], (uint8_t)n[0], b[CTX], (size_t)c[CTX]);
    case SETTINGS_TO_OLD:
        return xhci_device_settings_to_old(
            b[OUTCOMES], (size_t)c[OUTCOMES], b[LIST], (size_t)c[LIST], (uint8_t)n[0], b[CTX], (size_t)c[CTX]);
    case NEW_DISPATCHER:
        return dispatched(xhci_device_new_dispatcher(), 0, 0, 0, b);
    case SUBMIT: {
        struct xhci_device_submitted submitted = xhci_device_submit(dispatcher(b), (uint8_t)n[0]);
        return dispatched(submitted.dispatcher, submitted.answer, 0, 0, b);
    }
    case TURN: {
        struct xhci_device_turned turned = xhci_device_turn(dispatcher(b));
        return dispatched(turned.dispatcher, 0, turned.served, turned.slot, b);
    }
    default:
        exit(1);
    }
}

static uint64_t command(struct xhci_device_command c) {
    return (uint64_t)c.operation << 16 | (uint64_t)c.first << 8 | c.second;
}

_Static_assert(sizeof(struct xhci_device_asked) == 24, "the size that host/cross/build names");
_Static_assert(sizeof(struct xhci_device_reason) == 24, "the size that host/cross/build names");
_Static_assert(sizeof(struct xhci_device_placed) == 24, "the size that host/cross/build names");
_Static_assert(sizeof(struct xhci_device_dispatcher) == 260, "the size that host/cross/build names");
_Static_assert(sizeof(struct xhci_device_submitted) == 264, "the size that host/cross/build names");
_Static_assert(sizeof(struct xhci_device_turned) == 262, "the size that host/cross/build names");

static struct xhci_device_asked show(const struct request *r, void *b[BUFFERS]) {
    const uint64_t *n = r->number;
    return xhci_device_ask(b[IMAGE], (size_t)r->count[IMAGE], (size_t)n[0], (size_t)n[1], (size_t)n[2], (uint8_t)n[3],
        (uint8_t)n[4], b[RINGS], (size_t)r->count[RINGS]);
}

static struct xhci_device_reason why(const struct request *r, void *b[BUFFERS]) {
    const uint64_t *c = r->count, *n = r->number;
    return xhci_device_why(b[IMAGE], (size_t)c[IMAGE], (uint8_t)n[0], (uint8_t)n[1], (uint32_t)n[2], b[LOG],
        (size_t)c[LOG], b[OUTCOMES], (size_t)c[OUTCOMES]);
}

static struct xhci_device_placed block(const struct request *r) {
    const uint64_t *n = r->number;
    return xhci_device_block((size_t)n[0], (size_t)n[1], (uint8_t)n[2], (uint8_t)n[3]);
}

static struct reply choose(const struct request *r, void *b[BUFFERS]) {
    const uint64_t *c = r->count;
    struct xhci_device_chosen chosen =
        xhci_device_choose(b[IMAGE], (size_t)c[IMAGE], b[OUTCOMES], (size_t)c[OUTCOMES], (uint32_t)r->number[0]);
    struct reply reply = {chosen.answer, 0, 0, 0};
    memcpy(&reply.value, chosen.alternates, sizeof chosen.alternates);
    return reply;
}

static uint64_t ask(const struct request *r, void *b[BUFFERS]) {
    switch (r->function) {
    case IS_USABLE:
        return xhci_device_is_usable(b[IMAGE], (size_t)r->count[IMAGE]);
    case IS_UP:
        return xhci_device_is_up(b[IMAGE], (size_t)r->count[IMAGE]);
    case IS_SOUND:
        return xhci_device_is_sound(b[IMAGE], (size_t)r->count[IMAGE]);
    case COMMAND_OF:
        return command(xhci_device_command_of((uint32_t)r->number[0]));
    default:
        return xhci_device_record_words();
    }
}

int main(void) {
    struct request r;
    while (get(&r, sizeof r)) {
        void *buffers[BUFFERS];
        struct reply reply = {0, 0, 0, 0};
        struct xhci_device_asked asked;
        struct xhci_device_reason reason;
        struct xhci_device_placed placed;
        bool writes = r.function <= TURN;
        get_buffers(&r, buffers);
        if (writes) {
            struct xhci_device_answered answered = make_call(&r, buffers);
            reply = (struct reply){answered.answer, answered.code, answered.count, 0};
        } else if (r.function == ASK) {
            asked = show(&r, buffers);
        } else if (r.function == WHY) {
            reason = why(&r, buffers);
        } else if (r.function == BLOCK) {
            placed = block(&r);
        } else if (r.function == CHOOSE) {
            reply = choose(&r, buffers);
        } else {
            reply.value = ask(&r, buffers);
        }
        put(&reply, sizeof reply);
        if (r.function == ASK) {
            put(&asked, sizeof asked);
            put(buffers[RINGS], (size_t)r.count[RINGS] * size_of[RINGS]);
        } else if (r.function == WHY) {
            put(&reason, sizeof reason);
        } else if (r.function == BLOCK) {
            put(&placed, sizeof placed);
        }
        for (int i = 0; i < BUFFERS; i++) {
            if (writes && i < WRITTEN) {
                put(buffers[i], (size_t)r.count[i] * size_of[i]);
            }
            free(buffers[i]);
        }
    }
    return 0;
}
