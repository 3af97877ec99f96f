/* Random calls, driven by xhci_device_driver.c, leave what the library leaves when it is given everything at once, and
 * have the same reason; a refused bring-up keeps the image. */
#include <inttypes.h>
#include <stdio.h>
#include <stdlib.h>
#include <string.h>

#include "script.h"

enum { CALLS = 100000, ANSWERS = XHCI_DEVICE_ANSWER_COMPANION + 1 };

/* How many of the script's configurations can be read, as words after which those not read are one word each. */
static size_t known_list(const struct script *s, uint32_t *list, size_t *readable) {
    size_t len = 0;
    *readable = 0;
    if (s->count > 8) {
        return 0;
    }
    while (*readable < s->count && can_be_used(s->configurations[*readable])) {
        len += words_of(s->configurations[*readable], s->attached.speed, list + len);
        ++*readable;
    }
    memset(list + len, 0, (s->count - *readable) * sizeof list[0]);
    return len + s->count - *readable;
}

#define LENT(w, log, outcomes, outcomes_len)                                                                       \
    (w)->image, XHCI_DEVICE_RECORD_WORDS, (w)->ctx, (w)->ctx_len, (w)->routes, ROUTES, log, XHCI_DEVICE_LOG_ROOM,  \
        outcomes, outcomes_len

/* A refused one empties the image: the driven one keeps it. */
static struct xhci_device_answered bring_up(struct world *w, const struct script *s, uint32_t *log) {
    const struct xhci_device_attached *at = &s->attached;
    uint64_t before[XHCI_DEVICE_RECORD_WORDS];
    uint32_t list[XHCI_DEVICE_LIST_ROOM] = {0};
    uint8_t outcomes[OUTCOMES];
    size_t readable, list_len = known_list(s, list, &readable);
    /* The first command that brings something of no use counts as failed: ReadDevice is the fifth. */
    size_t bad = s->count > 8 ? 4 : 5 + readable;
    struct xhci_device_answered left;
    memcpy(before, w->image, sizeof before);
    memcpy(outcomes, s->outcomes, sizeof outcomes);
    if (readable < s->count && outcomes[bad] == 0) {
        outcomes[bad] = XHCI_DEVICE_UNREADABLE;
    }
    left = xhci_device_bring_up(LENT(w, log, outcomes, s->outcomes_len), at->rings, at->rings_len, at->hubs, at->hubs_len,
        list, list_len, at->slot, at->n, at->speed, at->has_parent, at->parent, at->port, at->root_port, s->header_len,
        s->header_len > 7 ? s->header[7] : 0, s->value);
    if (left.count == 0) {
        memcpy(w->image, before, sizeof before);
    }
    return left;
}

static struct xhci_device_answered one_shot(struct world *w, const struct script *s, uint32_t *log) {
    switch (s->kind) {
    case A_BRING_UP:
        return bring_up(w, s, log);
    case A_CLAIM:
        return xhci_device_claim(LENT(w, log, s->outcomes, s->outcomes_len), s->interface, s->alternate);
    case A_COMMIT:
        return xhci_device_commit(LENT(w, log, s->outcomes, s->outcomes_len), s->asked.interface, s->asked.alternate,
            s->asked.drops, s->asked.adds, s->drawn, s->asked.count);
    case A_RELEASE:
        return xhci_device_release(LENT(w, log, s->outcomes, s->outcomes_len), s->interface);
    case A_SET_CONFIGURATION:
        return xhci_device_set_configuration(LENT(w, log, s->outcomes, s->outcomes_len), s->interface);
    case A_DISCONNECT:
        return xhci_device_disconnect(LENT(w, log, s->outcomes, s->outcomes_len));
    default:
        return xhci_device_hub_update(LENT(w, log, s->outcomes, s->outcomes_len), s->interface, s->multi, s->ns);
    }
}

/* An ask. Whether it leaves the words past its rings, all of them where it is refused; it is lent all, or one less. */
static bool asks(const struct world *w, struct script *s, bool all) {
    const uint64_t mark = UINT64_C(0xA5A5A5A5A5A5A5A5);
    size_t i;
    bool kept = true;
    for (i = 0; i < XHCI_DEVICE_EP_ROOM; i++) {
        s->drawn[i] = mark;
    }
    s->asked = all ? xhci_device_pending_ask(w->image, w->ctx_len, ROUTES, s->interface, s->alternate, s->drawn)
                   : xhci_device_ask(w->image, XHCI_DEVICE_RECORD_WORDS, w->ctx_len, ROUTES, XHCI_DEVICE_LOG_ROOM,
                         s->interface, s->alternate, s->drawn, XHCI_DEVICE_EP_ROOM - 1);
    for (i = s->asked.count; i < XHCI_DEVICE_EP_ROOM; i++) {
        kept = kept && s->drawn[i] == mark;
    }
    return kept && (s->asked.answer == XHCI_DEVICE_ANSWER_ACCEPTED || s->asked.count == 0);
}

/* A claim becomes a commit of its ask, now and then of another. One that is lent too few words answers 3, after 12, 1
 * and 2. */
static bool ask(const struct world *w, struct script *s) {
    bool kept = true;
    if (s->kind == A_CLAIM && below(2) == 0) {
        uint32_t few;
        s->kind = A_COMMIT;
        kept = asks(w, s, false);
        few = s->asked.answer;
        kept = kept && asks(w, s, true);
        kept = kept
            && few == (few == 12 || few == 1 || few == 2 ? s->asked.answer : (uint32_t)XHCI_DEVICE_ANSWER_LOG_TOO_SHORT);
        s->asked.adds ^= below(10) == 0 ? 1u << below(32) : 0;
        if (s->asked.answer != XHCI_DEVICE_ANSWER_ACCEPTED && below(2) == 0) {
            s->asked.drops = 1; /* as the driver has it */
        } else {
            s->asked.answer = XHCI_DEVICE_ANSWER_ACCEPTED;
        }
    }
    return kept;
}

/* Drives a call; words of other slots are written in between, in the one-shot call's table too. A call whose outcomes have
 * run out is left, cut. */
static struct xhci_device_answered drive(struct xhci_device_pending *call, struct world *w, struct world *whole,
                                         struct script *s) {
    begin(call, w, s);
    if (below(2) == 0) {
        return xhci_device_pending_run(call, w->routes, ROUTES, bus_send, s);
    }
    while (xhci_device_pending_next(call, w->routes, ROUTES)) {
        size_t at = below(ROUTES);
        bus_send(call, w->routes, s);
        if (at / XHCI_DEVICE_ROUTES_OF_SLOT != call->slot) {
            w->routes[at] = whole->routes[at] = any();
        }
    }
    return call->answered;
}

/* Whether a claim or a commit that was driven to its end has the reason of the one-shot call. */
static bool same_reason(const struct xhci_device_pending *call, const struct world *whole, const struct script *s,
                        const struct xhci_device_answered *left, const uint32_t *log) {
    struct xhci_device_reason reason;
    if ((s->kind != A_CLAIM && s->kind != A_COMMIT) || left->answer == XHCI_DEVICE_ANSWER_CUT) {
        return true;
    }
    reason = xhci_device_why(whole->image, XHCI_DEVICE_RECORD_WORDS,
        s->kind == A_CLAIM ? s->interface : s->asked.interface, s->kind == A_CLAIM ? s->alternate : s->asked.alternate,
        left->answer, log, left->count, s->outcomes, s->outcomes_len);
    return reason.kind == call->reason.kind && reason.interface == call->reason.interface
        && reason.alternate == call->reason.alternate && reason.word == call->reason.word
        && reason.number == call->reason.number && reason.place == call->reason.place;
}

/* Whether the call says that it has ended, or that an outcome is wanting, and what was unreadable where something was. */
static bool says_so(const struct xhci_device_pending *call) {
    bool cut = call->answered.answer == XHCI_DEVICE_ANSWER_CUT;
    bool unreadable = call->answered.answer == XHCI_DEVICE_ANSWER_FAILED && call->answered.code == XHCI_DEVICE_UNREADABLE;
    return call->state == (cut ? (uint32_t)XHCI_DEVICE_PENDING_UNTOLD : (uint32_t)XHCI_DEVICE_PENDING_ENDED)
        && (xhci_device_pending_unreadable(call).operation != 0) == unreadable;
}

static bool same(const struct world *a, const struct world *b) {
    return memcmp(a->image, b->image, sizeof a->image) == 0 && memcmp(a->ctx, b->ctx, sizeof a->ctx) == 0
        && memcmp(a->routes, b->routes, sizeof a->routes) == 0;
}

/* The next script, for a slot that is begun anew now and then, and where its record is lost. */
static bool next_script(struct world *w, struct script *s) {
    bool usable = xhci_device_is_usable(w->image, XHCI_DEVICE_RECORD_WORDS);
    if ((!usable && below(4) != 0) || below(30) == 0) {
        begin_anew(w);
        usable = false;
    }
    any_script(s, usable, xhci_device_is_up(w->image, XHCI_DEVICE_RECORD_WORDS));
    return ask(w, s);
}

int main(void) {
    static struct world now, whole;
    static struct xhci_device_pending call;
    static struct script s;
    size_t i, sent = 0, unplugged = 0, answers[ANSWERS] = {0};
    begin_anew(&now);
    for (i = 0; i < CALLS; i++) {
        uint32_t log[XHCI_DEVICE_LOG_ROOM];
        struct xhci_device_answered left, driven;
        if (!next_script(&now, &s)) {
            printf("call %zu: the ask, answer %" PRIu32 "\n", i, s.asked.answer);
            return EXIT_FAILURE;
        }
        whole = now;
        left = one_shot(&whole, &s, log);
        driven = drive(&call, &now, &whole, &s);
        if (driven.answer != left.answer || driven.code != left.code || driven.count != left.count
            || memcmp(call.log, log, left.count * sizeof log[0]) != 0 || !same(&now, &whole) || !says_so(&call)
            || !same_reason(&call, &whole, &s, &left, log)) {
            printf("call %zu, kind %d: answer %" PRIu32 ", one-shot %" PRIu32 "\n", i, s.kind, driven.answer, left.answer);
            return EXIT_FAILURE;
        }
        answers[left.answer]++;
        sent += left.count;
        unplugged += s.kind == A_DISCONNECT && left.answer == XHCI_DEVICE_ANSWER_ACCEPTED;
    }
    printf("%d calls, %zu commands: each driven call leaves what the one-shot call leaves\n", (int)CALLS, sent);
    if (unplugged == 0 || answers[XHCI_DEVICE_ANSWER_NOT_CLAIMED] == 0 || answers[XHCI_DEVICE_ANSWER_QUEUE_FULL] == 0) {
        printf("no unplugging was accepted, or no release or bring-up refused\n");
        return EXIT_FAILURE;
    }
    printf("answers:");
    for (i = 0; i < ANSWERS; i++) {
        printf(" %zu: %zu", i, answers[i]);
    }
    printf("\n");
    return EXIT_SUCCESS;
}
