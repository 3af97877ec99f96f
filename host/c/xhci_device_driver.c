/* The steps of a driven call: see xhci_device_driver.h. */
#include "xhci_device_parts.h"

#include <string.h>

/* The last code of one's own. */
enum { HIGHEST_CODE = XHCI_DEVICE_UNREADABLE - 1 };

const char *xhci_device_operation_name(uint8_t operation) {
    static const char *const names[] = {"Address", "Evaluate", "Configure", "Stop", "Resume", "SetInterface",
        "SetConfiguration", "ReadHeader", "ReadConfiguration", "ReadDevice", "ReadConfig", "Disable"};
    size_t count = sizeof names / sizeof names[0];
    return operation >= 1 && operation <= count ? names[operation - 1] : "an unknown operation";
}

/* The library wants a pointer even where there is nothing. */
static const uint64_t *words_or_none(const uint64_t *words, size_t len) {
    static const uint64_t none[1] = {0};
    return len == 0 ? none : words;
}

/* How much of the context is kept: one that is longer is refused, and not written to. */
static size_t kept(size_t ctx_len) {
    return ctx_len < XHCI_DEVICE_CONTEXT_BYTES_64 ? ctx_len : XHCI_DEVICE_CONTEXT_BYTES_64;
}

static void begin(struct xhci_device_pending *call, int which, uint64_t *image, uint8_t *ctx, size_t ctx_len) {
    struct xhci_device_pending_own *own = &call->own;
    memset(call, 0, sizeof *call);
    call->state = XHCI_DEVICE_PENDING_NEW;
    call->answered.answer = XHCI_DEVICE_ANSWER_CUT;
    call->slot = xhci_device_slot(image);
    call->image = own->image = image;
    call->ctx = own->ctx = ctx;
    call->ctx_len = ctx_len;
    own->call = which;
    memcpy(own->begun_image, image, sizeof own->begun_image);
    memcpy(own->begun_ctx, ctx, kept(ctx_len));
}

void xhci_device_pending_bring_up(struct xhci_device_pending *call, uint64_t *image, uint8_t *ctx, size_t ctx_len,
                                  const struct xhci_device_attached *attached) {
    begin(call, BRING_UP, image, ctx, ctx_len);
    call->own.attached = *attached;
    call->own.attached.rings = words_or_none(attached->rings, attached->rings_len);
    call->own.attached.hubs = words_or_none(attached->hubs, attached->hubs_len);
    call->slot = attached->slot;
}

void xhci_device_pending_claim(struct xhci_device_pending *call, uint64_t *image, uint8_t *ctx, size_t ctx_len,
                               uint8_t interface, uint8_t alternate) {
    begin(call, CLAIM, image, ctx, ctx_len);
    call->own.interface = interface;
    call->own.alternate = alternate;
}

void xhci_device_pending_commit(struct xhci_device_pending *call, uint64_t *image, uint8_t *ctx, size_t ctx_len,
                                const struct xhci_device_asked *asked, const uint64_t *rings) {
    begin(call, COMMIT, image, ctx, ctx_len);
    call->own.asked = *asked;
    if (asked->answer != XHCI_DEVICE_ANSWER_ACCEPTED) {
        call->own.asked.drops = 1; /* No ask shows that. */
    }
    call->own.rings = words_or_none(rings, asked->count);
    call->own.interface = asked->interface;
    call->own.alternate = asked->alternate;
}

void xhci_device_pending_release(struct xhci_device_pending *call, uint64_t *image, uint8_t *ctx, size_t ctx_len,
                                 uint8_t interface) {
    begin(call, RELEASE, image, ctx, ctx_len);
    call->own.interface = interface;
}

void xhci_device_pending_set_configuration(struct xhci_device_pending *call, uint64_t *image, uint8_t *ctx,
                                           size_t ctx_len, uint8_t value) {
    begin(call, SET_CONFIGURATION, image, ctx, ctx_len);
    call->own.value = value;
}

void xhci_device_pending_hub_update(struct xhci_device_pending *call, uint64_t *image, uint8_t *ctx, size_t ctx_len,
                                    uint8_t ports, bool multi, uint32_t ns) {
    begin(call, HUB_UPDATE, image, ctx, ctx_len);
    call->own.ports = ports;
    call->own.multi = multi;
    call->own.ns = ns;
}

void xhci_device_pending_disconnect(struct xhci_device_pending *call, uint64_t *image, uint8_t *ctx, size_t ctx_len) {
    begin(call, DISCONNECT, image, ctx, ctx_len);
}

struct xhci_device_asked xhci_device_pending_ask(
    const uint64_t *image, size_t ctx_len, size_t routes_len, uint8_t interface, uint8_t alternate,
    uint64_t rings[XHCI_DEVICE_EP_ROOM]) {
    return xhci_device_ask(image, XHCI_DEVICE_RECORD_WORDS, ctx_len, routes_len, XHCI_DEVICE_LOG_ROOM, interface, alternate,
        rings, XHCI_DEVICE_EP_ROOM);
}

/* What each call is lent. */
#define LENT                                                                                                     \
    own->image, XHCI_DEVICE_RECORD_WORDS, own->ctx, call->ctx_len, routes, routes_len, call->log,                \
        XHCI_DEVICE_LOG_ROOM, call->outcomes, call->told

/* A bring-up that is refused before its first command leaves the image: its device may be in use. */
static struct xhci_device_answered brought_up(struct xhci_device_pending *call, uint64_t *routes, size_t routes_len) {
    struct xhci_device_pending_own *own = &call->own;
    const struct xhci_device_attached *at = &own->attached;
    const struct xhci_device_learned *learned = &own->learned;
    struct xhci_device_answered answered = xhci_device_bring_up(LENT, at->rings, at->rings_len, at->hubs, at->hubs_len,
        own->list, learned->read + learned->unread, at->slot, at->n, at->speed, at->has_parent, at->parent, at->port,
        at->root_port, learned->header, learned->packet, learned->value);
    if (answered.count == 0) {
        memcpy(own->image, own->begun_image, sizeof own->begun_image);
    }
    return answered;
}

static struct xhci_device_answered played(struct xhci_device_pending *call, uint64_t *routes, size_t routes_len) {
    struct xhci_device_pending_own *own = &call->own;
    const struct xhci_device_asked *asked = &own->asked;
    switch (own->call) {
    case BRING_UP:
        return brought_up(call, routes, routes_len);
    case CLAIM:
        return xhci_device_claim(LENT, own->interface, own->alternate);
    case COMMIT:
        return xhci_device_commit(LENT, asked->interface, asked->alternate, asked->drops, asked->adds, own->rings,
            asked->count);
    case RELEASE:
        return xhci_device_release(LENT, own->interface);
    case SET_CONFIGURATION:
        return xhci_device_set_configuration(LENT, own->value);
    case HUB_UPDATE:
        return xhci_device_hub_update(LENT, own->ports, own->multi, own->ns);
    default:
        return xhci_device_disconnect(LENT);
    }
}

/* Where the routes have the slot's own words; null where they have none. */
static uint64_t *own_routes(const struct xhci_device_pending *call, uint64_t *routes, size_t routes_len) {
    size_t first = xhci_device_route_index(call->slot, 0);
    return first + XHCI_DEVICE_ROUTES_OF_SLOT <= routes_len ? routes + first : NULL;
}

/* Runs the call with the outcomes so far, over what it began with. */
static void play(struct xhci_device_pending *call, uint64_t *routes, size_t routes_len) {
    struct xhci_device_pending_own *own = &call->own;
    uint64_t *words = own_routes(call, routes, routes_len);
    if (words != NULL) {
        memcpy(words, own->begun_routes, sizeof own->begun_routes);
    }
    memcpy(own->image, own->begun_image, sizeof own->begun_image);
    memcpy(own->ctx, own->begun_ctx, kept(call->ctx_len));
    call->answered = played(call, routes, routes_len);
}

/* Why the call got its answer. */
static struct xhci_device_reason reason_of(const struct xhci_device_pending *call) {
    struct xhci_device_reason reason = {0, 0, 0, 0, 0, 0};
    const struct xhci_device_pending_own *own = &call->own;
    if (call->state == XHCI_DEVICE_PENDING_ENDED && (own->call == CLAIM || own->call == COMMIT)) {
        return xhci_device_why(call->image, XHCI_DEVICE_RECORD_WORDS, own->interface, own->alternate,
            call->answered.answer, call->log, call->answered.count, call->outcomes, call->told);
    }
    if (call->answered.answer != XHCI_DEVICE_ANSWER_ACCEPTED) {
        reason.kind = XHCI_DEVICE_REASON_NUMBER;
        reason.number = call->answered.answer;
    }
    return reason;
}

static void end(struct xhci_device_pending *call, uint32_t state) {
    call->state = state;
    call->reason = reason_of(call);
}

/* Goes on to the next command or to the end. */
static void step(struct xhci_device_pending *call, uint64_t *routes, size_t routes_len) {
    play(call, routes, routes_len);
    if (call->answered.count < call->told) {
        /* Refused, though commands were sent: for the list, with what the last one read. */
        xhci_device_unlearn(call);
        call->outcomes[call->told - 1] = XHCI_DEVICE_UNREADABLE;
        play(call, routes, routes_len);
    }
    call->own.before = call->own.learned;
    call->own.played = call->told;
    if (call->answered.answer == XHCI_DEVICE_ANSWER_CUT && call->answered.count > call->told) {
        call->state = XHCI_DEVICE_PENDING_DUE;
        call->command = xhci_device_command_of(call->log[call->told]);
    } else {
        end(call, XHCI_DEVICE_PENDING_ENDED);
    }
}

static void first_step(struct xhci_device_pending *call, uint64_t *routes, size_t routes_len) {
    const uint64_t *words = own_routes(call, routes, routes_len);
    if (xhci_device_record_words() != XHCI_DEVICE_RECORD_WORDS) {
        call->answered.answer = XHCI_DEVICE_ANSWER_UNUSABLE;
        end(call, XHCI_DEVICE_PENDING_MISFIT);
        return;
    }
    if (words != NULL) {
        memcpy(call->own.begun_routes, words, sizeof call->own.begun_routes);
    }
    call->own.routes_len = routes_len;
    step(call, routes, routes_len);
}

bool xhci_device_pending_next(struct xhci_device_pending *call, uint64_t *routes, size_t routes_len) {
    switch (call->state) {
    case XHCI_DEVICE_PENDING_NEW:
        first_step(call, routes, routes_len);
        break;
    case XHCI_DEVICE_PENDING_DUE:
        call->state = XHCI_DEVICE_PENDING_UNTOLD;
        break;
    case XHCI_DEVICE_PENDING_TOLD:
        if (routes_len == call->own.routes_len) {
            step(call, routes, routes_len);
        } else {
            call->answered.answer = XHCI_DEVICE_ANSWER_ROUTES_LENGTH;
            end(call, XHCI_DEVICE_PENDING_ENDED);
        }
        break;
    default:
        break;
    }
    return call->state == XHCI_DEVICE_PENDING_DUE;
}

/* Whether a command has no outcome yet. */
static bool waits(const struct xhci_device_pending *call) {
    return call->state == XHCI_DEVICE_PENDING_DUE || call->state == XHCI_DEVICE_PENDING_UNTOLD;
}

static void tell(struct xhci_device_pending *call, uint8_t code) {
    call->outcomes[call->told] = code;
    call->told++;
    call->state = XHCI_DEVICE_PENDING_TOLD;
}

void xhci_device_pending_failed(struct xhci_device_pending *call, uint8_t code) {
    if (waits(call)) {
        tell(call, code >= 1 && code <= HIGHEST_CODE ? code : (uint8_t)HIGHEST_CODE);
    }
}

static void done(struct xhci_device_pending *call, const uint8_t *bytes, size_t bytes_len, const uint32_t *words,
                 size_t words_len) {
    if (waits(call)) {
        tell(call, xhci_device_learn(call, bytes, bytes_len, words, words_len) ? 0 : XHCI_DEVICE_UNREADABLE);
    }
}

void xhci_device_pending_done(struct xhci_device_pending *call) {
    done(call, NULL, 0, NULL, 0);
}

void xhci_device_pending_read_bytes(struct xhci_device_pending *call, const uint8_t *bytes, size_t len) {
    done(call, bytes, len, NULL, 0);
}

void xhci_device_pending_read_words(struct xhci_device_pending *call, const uint32_t *words, size_t len) {
    done(call, NULL, 0, words, len);
}

/* The context's doubleword at a byte; 0 past its end. */
static uint32_t doubleword(const struct xhci_device_pending *call, size_t at) {
    uint32_t value = 0;
    for (size_t i = 0; i < 4 && at + i < call->ctx_len; i++) {
        value |= (uint32_t)call->ctx[at + i] << (8 * i);
    }
    return value;
}

uint32_t xhci_device_pending_added(const struct xhci_device_pending *call) {
    uint32_t flags = waits(call) ? doubleword(call, 4) : 0;
    switch (call->command.operation) {
    case XHCI_DEVICE_OP_ADDRESS:
        return flags & UINT32_C(2);
    case XHCI_DEVICE_OP_CONFIGURE:
        return flags & ~UINT32_C(3);
    default:
        return 0;
    }
}

uint32_t xhci_device_pending_dropped(const struct xhci_device_pending *call) {
    bool configures = waits(call) && call->command.operation == XHCI_DEVICE_OP_CONFIGURE;
    return configures ? doubleword(call, 0) & ~UINT32_C(3) : 0;
}

uint64_t xhci_device_pending_ring(const struct xhci_device_pending *call, uint8_t dci) {
    size_t block = (1 + (size_t)dci) * (call->ctx_len / 33);
    uint64_t high = doubleword(call, block + 12);
    return (high << 32 | doubleword(call, block + 8)) & ~UINT64_C(15);
}

struct xhci_device_answered xhci_device_pending_run(
    struct xhci_device_pending *call, uint64_t *routes, size_t routes_len,
    void (*send)(struct xhci_device_pending *call, const uint64_t *routes, void *bus), void *bus) {
    while (xhci_device_pending_next(call, routes, routes_len)) {
        send(call, routes, bus);
    }
    return call->answered;
}
