/* A driven call as a scenario: docs/SCENARIOS.md. */
#include "xhci_device_parts.h"

/* What the reader of scenarios takes at most: a longer table, or more slots, are refused alike. */
static const size_t MOST_ROUTES = (size_t)1 << 24, MOST_SLOTS = 0xFFFF;

struct printer {
    void (*put)(char c, void *to);
    void *to;
};

static void text(const struct printer *p, const char *characters) {
    for (; *characters != '\0'; characters++) {
        p->put(*characters, p->to);
    }
}

/* With so many digits at least. */
static void number(const struct printer *p, uint64_t value, uint64_t base, size_t digits) {
    char reversed[20];
    size_t count = 0;
    while (value != 0 || count < digits) {
        reversed[count++] = "0123456789abcdef"[value % base];
        value /= base;
    }
    while (count > 0) {
        p->put(reversed[--count], p->to);
    }
}

static void decimal(const struct printer *p, uint64_t value) {
    number(p, value, 10, 1);
}

static void hexadecimal(const struct printer *p, uint64_t value, size_t digits) {
    number(p, value, 16, digits);
}

static void key(const struct printer *p, const char *name, uint64_t value) {
    text(p, name);
    text(p, " ");
    decimal(p, value);
    text(p, "\n");
}

/* A number behind a text. */
static void field(const struct printer *p, const char *before, uint64_t value) {
    text(p, before);
    decimal(p, value);
}

static void ring(const struct printer *p, uint64_t address) {
    text(p, " ");
    hexadecimal(p, address, 1);
}

static uint64_t least(size_t value, size_t most) {
    return value < most ? value : most;
}

static void bring_up(const struct printer *p, const struct xhci_device_pending_own *own) {
    const struct xhci_device_attached *at = &own->attached;
    const struct xhci_device_learned *learned = &own->before;
    size_t i;
    text(p, "bringup\n");
    key(p, "slot", at->slot);
    key(p, "n", least(at->n, MOST_SLOTS));
    key(p, "speed", at->speed);
    field(p, "parent ", at->has_parent);
    field(p, " ", least(at->parent, UINT32_MAX));
    text(p, "\n");
    key(p, "port", at->port);
    key(p, "rootport", at->root_port);
    field(p, "header ", least(learned->header, UINT32_MAX));
    field(p, " ", learned->packet);
    text(p, "\n");
    key(p, "config", learned->value);
    text(p, "rings");
    for (i = 0; i < at->rings_len; i++) {
        text(p, " 0x");
        hexadecimal(p, at->rings[i], 1);
    }
    text(p, "\nlist");
    for (i = 0; i < learned->read + learned->unread; i++) {
        text(p, " ");
        hexadecimal(p, i < learned->read ? own->list[i] : 0, 8);
    }
    text(p, "\nhubs");
    for (i = 0; i < at->hubs_len; i++) {
        text(p, " ");
        hexadecimal(p, at->hubs[i], 16);
    }
    text(p, "\n");
}

static void asked(const struct printer *p, const struct xhci_device_pending_own *own) {
    size_t i;
    field(p, "commit\nasked ", own->asked.interface);
    field(p, " ", own->asked.alternate);
    text(p, " ");
    hexadecimal(p, own->asked.drops, 8);
    text(p, " ");
    hexadecimal(p, own->asked.adds, 8);
    for (i = 0; i < own->asked.count; i++) {
        ring(p, own->rings[i]);
    }
    text(p, "\n");
}

/* The call's name and its own keys. */
static void name(const struct printer *p, const struct xhci_device_pending_own *own) {
    switch (own->call) {
    case BRING_UP:
        bring_up(p, own);
        break;
    case CLAIM:
        text(p, "claim\n");
        key(p, "interface", own->interface);
        key(p, "alternate", own->alternate);
        break;
    case COMMIT:
        asked(p, own);
        break;
    case RELEASE:
        text(p, "release\n");
        key(p, "interface", own->interface);
        break;
    case SET_CONFIGURATION:
        text(p, "setconfig\n");
        key(p, "value", own->value);
        break;
    case HUB_UPDATE:
        text(p, "hubupdate\n");
        key(p, "ports", own->ports);
        key(p, "multi", own->multi);
        key(p, "think", own->ns);
        break;
    default:
        text(p, "disconnect\n");
    }
}

/* Whether the words from one place up to another are so large at most. */
static bool within(const uint64_t *image, size_t from, size_t to, uint64_t most) {
    for (; from < to; from++) {
        if (image[from] > most) {
            return false;
        }
    }
    return true;
}

/* Whether an image is a record, and its arrays have room for what their counts say. */
static bool is_record(const uint64_t *image) {
    return within(image, XHCI_DEVICE_AT_USABLE, XHCI_DEVICE_AT_SLOT, 1)
        && within(image, XHCI_DEVICE_AT_SLOT, XHCI_DEVICE_AT_LIST, UINT8_MAX)
        && within(image, XHCI_DEVICE_AT_LIST, XHCI_DEVICE_AT_SPACING, UINT32_MAX) && image[XHCI_DEVICE_AT_UP] <= 1
        && image[XHCI_DEVICE_AT_LIST_LEN] <= XHCI_DEVICE_LIST_ROOM && image[XHCI_DEVICE_AT_EP_COUNT] <= XHCI_DEVICE_EP_ROOM
        && image[XHCI_DEVICE_AT_HELD_COUNT] <= XHCI_DEVICE_HELD_ROOM
        && image[XHCI_DEVICE_AT_QUARANTINED_COUNT] <= XHCI_DEVICE_RING_ROOM
        && image[XHCI_DEVICE_AT_GIVEN_COUNT] <= XHCI_DEVICE_GIVEN_ROOM;
}

static void numbers(const struct printer *p, const uint64_t *image) {
    bool sane = is_record(image);
    uint8_t value;
    field(p, "record usable=", sane && image[XHCI_DEVICE_AT_USABLE] != 0);
    field(p, " up=", sane && image[XHCI_DEVICE_AT_UP] != 0);
    field(p, " slot=", xhci_device_slot(image));
    field(p, " n=", xhci_device_n(image));
    field(p, " spacing=", xhci_device_spacing(image));
    field(p, " speed=", xhci_device_port_speed(image));
    if (xhci_device_configuration(image, &value)) {
        field(p, " config=", value);
    } else {
        text(p, " config=NONE");
    }
    text(p, " control=");
    hexadecimal(p, xhci_device_control(image), 1);
    text(p, xhci_device_control_revoked(image) ? "/revoked\n" : "/active\n");
}

static void endpoint(const struct printer *p, struct xhci_device_held_endpoint endpoint) {
    text(p, " ");
    hexadecimal(p, endpoint.address, 2);
    text(p, ":");
    hexadecimal(p, endpoint.ring, 1);
    field(p, ":", endpoint.interface);
    text(p, endpoint.active ? ":active" : ":revoked");
}

/* The record that a call on one began with, in the order of its arrays. */
static void record(const struct printer *p, const uint64_t *image) {
    size_t i;
    numbers(p, image);
    text(p, "reclist");
    for (i = 0; i < xhci_device_list_count(image); i++) {
        text(p, " ");
        hexadecimal(p, xhci_device_list_word(image, i), 8);
    }
    text(p, "\neps");
    for (i = 0; i < xhci_device_endpoint_count(image); i++) {
        endpoint(p, xhci_device_endpoint(image, i));
    }
    text(p, "\nheld");
    for (i = 0; i < xhci_device_held_count(image); i++) {
        field(p, " ", xhci_device_held(image, i).interface);
        field(p, ":", xhci_device_held(image, i).alternate);
    }
    text(p, "\nquarantined");
    for (i = 0; i < xhci_device_quarantined_count(image); i++) {
        ring(p, xhci_device_quarantined(image, i));
    }
    text(p, "\ngiven");
    for (i = 0; i < xhci_device_given_count(image); i++) {
        ring(p, xhci_device_given(image, i));
    }
    text(p, "\n");
}

/* A byte of the context that the call began with. What is longer than any context is not written to. */
static uint8_t begun_byte(const struct xhci_device_pending *call, size_t at) {
    return at < XHCI_DEVICE_CONTEXT_BYTES_64 ? call->own.begun_ctx[at] : call->ctx[at];
}

static void context(const struct printer *p, const struct xhci_device_pending *call) {
    size_t i;
    bool blank = true;
    for (i = 0; i < call->ctx_len; i++) {
        blank = blank && begun_byte(call, i) == 0;
    }
    if (blank) {
        key(p, "ctxlen", call->ctx_len);
        return;
    }
    text(p, "ctx ");
    for (i = 0; i < call->ctx_len; i++) {
        hexadecimal(p, begun_byte(call, i), 2);
    }
    text(p, "\n");
}

/* The slot's own words, and the length of the table: known from the first step on. */
static void routes(const struct printer *p, const struct xhci_device_pending *call) {
    uint8_t dci;
    if (call->state == XHCI_DEVICE_PENDING_NEW) {
        return;
    }
    text(p, "routes");
    for (dci = 0; dci < XHCI_DEVICE_ROUTES_OF_SLOT; dci++) {
        if (call->own.begun_routes[dci] != 0) {
            field(p, " ", xhci_device_route_index(call->slot, dci));
            text(p, "=");
            hexadecimal(p, call->own.begun_routes[dci], 1);
        }
    }
    text(p, "\n");
    key(p, "routeslen", least(call->own.routes_len, MOST_ROUTES));
}

/* A count that is not what is wanted. */
static void counted(const struct printer *p, const struct xhci_device_unreadable *u) {
    bool few = u->cause == XHCI_DEVICE_UNREADABLE_TOO_SHORT;
    decimal(p, u->had);
    text(p, few ? " bytes" : u->cause == XHCI_DEVICE_UNREADABLE_CONFIGURATIONS ? " configurations" : " words");
    field(p, ", and ", u->wanted);
    text(p, few ? " are needed\n" : " are allowed\n");
}

/* Which read a bring-up could not use, and why, as a comment. */
static void unreadable(const struct printer *p, const struct xhci_device_unreadable *u) {
    text(p, "# ");
    text(p, xhci_device_operation_name(u->operation));
    if (u->operation == XHCI_DEVICE_OP_READ_CONFIG) {
        field(p, " ", u->index);
    }
    text(p, ": ");
    if (u->wanted != 0) {
        counted(p, u);
        return;
    }
    if (u->cause == XHCI_DEVICE_UNREADABLE_MALFORMED) {
        field(p, "the descriptors are malformed at byte ", u->place);
        text(p, "\n");
        return;
    }
    if (u->cause == XHCI_DEVICE_UNREADABLE_COMPANION && u->word == 0) {
        field(p, "descriptor at byte ", u->place);
    } else {
        text(p, "word ");
        hexadecimal(p, u->word, 8);
        field(p, " at place ", u->place);
    }
    text(p, ": ");
    text(p, u->cause == XHCI_DEVICE_UNREADABLE_LIST ? xhci_device_answer_name(XHCI_DEVICE_ANSWER_DESCRIPTOR_LIST)
        : u->cause == XHCI_DEVICE_UNREADABLE_COMPANION ? xhci_device_answer_name(XHCI_DEVICE_ANSWER_COMPANION)
                                                       : "not one configuration");
    text(p, "\n");
}

void xhci_device_pending_print(const struct xhci_device_pending *call, void (*put)(char c, void *to), void *to) {
    struct printer printer = {put, to};
    size_t i;
    text(&printer, "scenario pending\n");
    if (call->answered.code == XHCI_DEVICE_UNREADABLE) {
        unreadable(&printer, &call->own.unreadable);
    }
    name(&printer, &call->own);
    if (call->own.call != BRING_UP) {
        record(&printer, call->own.begun_image);
    }
    context(&printer, call);
    routes(&printer, call);
    key(&printer, "loglen", XHCI_DEVICE_LOG_ROOM);
    text(&printer, "outcomes");
    for (i = 0; i < call->own.played; i++) {
        text(&printer, i == 0 ? " " : "");
        hexadecimal(&printer, call->outcomes[i], 2);
    }
    text(&printer, "\ngo\nend\n");
}
