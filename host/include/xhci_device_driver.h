/* A call of xhci_device.h command by command: host/c/xhci_device_*.c, C11 or C++, no allocation.
 *
 * The library runs a call whole, over outcomes that are known. Here the call is run again after each outcome,
 * with the outcomes so far, over what it began with. Where it is cut, the last command it logged is the next
 * one to send, over the context that it left:
 *
 *     static struct xhci_device_pending call;
 *     xhci_device_pending_claim(&call, image, ctx, sizeof ctx, 0, 1);
 *     while (xhci_device_pending_next(&call, routes, routes_len)) {
 *         ... send call.command and wait; then tell one of
 *         xhci_device_pending_done(&call); xhci_device_pending_failed(&call, code);
 *         xhci_device_pending_read_bytes(&call, bytes, len); xhci_device_pending_read_words(&call, words, len);
 *     }
 *     if (call.state == XHCI_DEVICE_PENDING_UNTOLD) {
 *         ... no outcome was told of call.command: tell it and go on with the loop, or leave the call there, cut
 *     } else {
 *         ... call.answered, and of a claim or a commit call.reason
 *     }
 *
 * After each step image, context and routes are as the call leaves them when it is cut there: to give a pending
 * call up is to cut it, and the rings that a Configure may have begun are in quarantine then. A call that is
 * refused has changed nothing, and a bring-up that sends no command is refused: it keeps the image, whatever
 * stands there, where xhci_device_bring_up leaves an empty record.
 *
 * From its begin to its end nobody else may write image, context or the slot's own 32 routes; other slots' calls
 * may run between two steps, over the same routes. While a step runs, nobody may read these routes: the slot's own
 * are put back first and then written again.
 *
 * Before Address and Configure the rings of xhci_device_pending_added are cleared and begun anew. Resume sets the
 * dequeue pointer to where the ring is next written, and rings the doorbell; an endpoint that the output context
 * calls running was added by the Configure before it: there the doorbell is all. A control endpoint that a request
 * has halted is reset before the outcome is told. Completions that come while a command waits go to the rings that
 * the routes name now; the next step may move them.
 */
#ifndef XHCI_DEVICE_DRIVER_H
#define XHCI_DEVICE_DRIVER_H

#include "xhci_device.h"

#ifdef __cplusplus
extern "C" {
#endif

/* "Stop", say. Operands are not in it. */
const char *xhci_device_operation_name(uint8_t operation);

/* A device that is to be brought up, as far as it is known before it is asked. */
struct xhci_device_attached {
    uint8_t slot;
    size_t n;               /* the number of slots that the routes serve */
    uint8_t speed;          /* xHCI's speed id, 1 to 5 */
    bool has_parent;        /* whether it is on a hub, */
    size_t parent;          /* that hub's place among the hub words, */
    uint8_t port;           /* and the port on it */
    uint8_t root_port;
    const uint64_t *rings;  /* that the slot is given: 1 to 64, in any order; the lowest is control's */
    size_t rings_len;
    const uint64_t *hubs;   /* hub words (xhci_device_hub_word), of every hub between the root hub and the device at least */
    size_t hubs_len;
};

/* Where a driven call stands. */
enum {
    XHCI_DEVICE_PENDING_NEW = 0,    /* begun; xhci_device_pending_next was not called yet */
    XHCI_DEVICE_PENDING_DUE = 1,    /* `command` is to be sent */
    XHCI_DEVICE_PENDING_TOLD = 2,   /* its outcome was told */
    XHCI_DEVICE_PENDING_UNTOLD = 3, /* xhci_device_pending_next was called again, and its outcome was not told */
    XHCI_DEVICE_PENDING_ENDED = 4,  /* with `answered` */
    XHCI_DEVICE_PENDING_MISFIT = 5  /* the archive has a record of other words than this header: 12, and nothing was run */
};

/* The code of a command that was done but brought what a bring-up cannot use; codes of your own are 1 to 254. */
#define XHCI_DEVICE_UNREADABLE 255

/* Why it cannot be used. */
enum {
    XHCI_DEVICE_UNREADABLE_TOO_SHORT = 1,       /* it brought `had` bytes, and `wanted` are the least */
    XHCI_DEVICE_UNREADABLE_CONFIGURATIONS = 2,  /* the device has `had` configurations, and `wanted`, 8, are the most */
    XHCI_DEVICE_UNREADABLE_MALFORMED = 3,       /* malformed descriptors (20); `place`: the byte with the first ground */
    XHCI_DEVICE_UNREADABLE_LIST = 4,            /* no valid list (4); `place` and `word`: the first with which it is none */
    XHCI_DEVICE_UNREADABLE_COMPANION = 5,       /* the same, for its companions (26); where the bytes were refused for them,
                                                   `word` is 0 and `place` is the descriptor's first byte */
    XHCI_DEVICE_UNREADABLE_NOT_ONE = 6,         /* not one configuration: `place` and `word` of the first that is none, or of
                                                   a second one */
    XHCI_DEVICE_UNREADABLE_NO_ROOM = 7          /* a list of `had` words, and `wanted`, 256, are the most */
};

/* A read that a bring-up could not use. What a cause has not is 0. */
struct xhci_device_unreadable {
    uint8_t operation;  /* XHCI_DEVICE_OP_READ_CONFIGURATION, .._READ_DEVICE or .._READ_CONFIG; 0: nothing was unreadable */
    uint8_t index;      /* of ReadConfig */
    uint32_t cause;     /* XHCI_DEVICE_UNREADABLE_... */
    size_t place;       /* from 0: a byte's in what was read; a word's in the device's list, configurations read before included */
    uint32_t word;
    size_t had, wanted;
};

/* What a bring-up has read: each configuration not read yet is one word of the list, 0. */
struct xhci_device_learned {
    size_t header;              /* bytes */
    uint8_t packet, value;
    size_t read, unread;        /* words of the configurations read, and how many are not */
};

/* The driver's own part of a call: not to be read or written by anyone else. */
struct xhci_device_pending_own {
    /* The call and its arguments, */
    int call;
    uint8_t interface, alternate, value, ports;
    bool multi;
    uint32_t ns;
    struct xhci_device_attached attached;
    struct xhci_device_asked asked;
    const uint64_t *rings;      /* of a commit */
    uint64_t *image;
    uint8_t *ctx;
    /* what it began with, */
    uint64_t begun_image[XHCI_DEVICE_RECORD_WORDS];
    uint8_t begun_ctx[XHCI_DEVICE_CONTEXT_BYTES_64];
    uint64_t begun_routes[XHCI_DEVICE_ROUTES_OF_SLOT];
    size_t routes_len;
    /* with how many outcomes it was run last, */
    size_t played;
    /* and what a bring-up has read, now and before the last command that was told. */
    struct xhci_device_learned learned, before;
    uint32_t list[XHCI_DEVICE_LIST_ROOM];
    struct xhci_device_unreadable unreadable;
};

/* A call that is being driven. What it points to must stay where it is until the end. */
struct xhci_device_pending {
    /* To be read: */
    uint32_t state;                         /* XHCI_DEVICE_PENDING_... */
    struct xhci_device_command command;     /* to be sent, where xhci_device_pending_next says true */
    struct xhci_device_answered answered;   /* of a call that has ended; before that 15; `count` counts the log's words always */
    struct xhci_device_reason reason;       /* of a call that has ended: why a claim or a commit got its answer; of any other
                                               call its number, or nothing where it is accepted */
    uint32_t log[XHCI_DEVICE_LOG_ROOM];
    uint8_t outcomes[XHCI_DEVICE_LOG_ROOM];
    size_t told;                            /* outcomes known */
    uint8_t slot;
    const uint64_t *image;
    const uint8_t *ctx;
    size_t ctx_len;
    /* Not to be read: */
    struct xhci_device_pending_own own;
};

/* A call begins. Nothing is changed before the first xhci_device_pending_next. An image has XHCI_DEVICE_RECORD_WORDS words.
 * Rings and hubs may be null where there are none. */
void xhci_device_pending_bring_up(struct xhci_device_pending *call, uint64_t *image, uint8_t *ctx, size_t ctx_len,
                                  const struct xhci_device_attached *attached);
void xhci_device_pending_claim(struct xhci_device_pending *call, uint64_t *image, uint8_t *ctx, size_t ctx_len,
                               uint8_t interface, uint8_t alternate);
/* The claim that an xhci_device_pending_ask has shown, with the rings that it left in the words that it was lent. Of an ask
 * that was refused nothing is sent: 22, or what is refused before. */
void xhci_device_pending_commit(struct xhci_device_pending *call, uint64_t *image, uint8_t *ctx, size_t ctx_len,
                                const struct xhci_device_asked *asked, const uint64_t *rings);
void xhci_device_pending_release(struct xhci_device_pending *call, uint64_t *image, uint8_t *ctx, size_t ctx_len,
                                 uint8_t interface);
void xhci_device_pending_set_configuration(struct xhci_device_pending *call, uint64_t *image, uint8_t *ctx,
                                           size_t ctx_len, uint8_t value);
void xhci_device_pending_hub_update(struct xhci_device_pending *call, uint64_t *image, uint8_t *ctx, size_t ctx_len,
                                    uint8_t ports, bool multi, uint32_t ns);
void xhci_device_pending_disconnect(struct xhci_device_pending *call, uint64_t *image, uint8_t *ctx, size_t ctx_len);

/* xhci_device_ask for a claim that is to be driven: the driver has a log of its own, so none is lent. */
XHCI_DEVICE_MUST_USE struct xhci_device_asked xhci_device_pending_ask(
    const uint64_t *image, size_t ctx_len, size_t routes_len, uint8_t interface, uint8_t alternate,
    uint64_t rings[XHCI_DEVICE_EP_ROOM]);

/* Whether a command is to be sent, `command`. Where it says false, `state` says why: the call has ended, or the outcome of
 * `command` was not told; then that is still to be told, or the call is left, cut. Routes of another length than at the first
 * step end the call with 2, and it stays cut. */
bool xhci_device_pending_next(struct xhci_device_pending *call, uint64_t *routes, size_t routes_len);

/* The outcome of the command that was to be sent; where none was, it is not taken.
 * Done, and there was nothing to read: */
void xhci_device_pending_done(struct xhci_device_pending *call);
/* done, with the bytes that the device sent, for ReadConfig the configuration descriptor with all that follows it: */
void xhci_device_pending_read_bytes(struct xhci_device_pending *call, const uint8_t *bytes, size_t len);
/* done, for ReadConfig, with the descriptor words of the configuration instead: one of kind 0, then the others: */
void xhci_device_pending_read_words(struct xhci_device_pending *call, const uint32_t *words, size_t len);
/* failed, with a code of your own, 1 to 254 (0 and 255 count as 254): */
void xhci_device_pending_failed(struct xhci_device_pending *call, uint8_t code);

/* Which read was unreadable, and why: of a bring-up that was told so, which then ends with 13 and code
 * XHCI_DEVICE_UNREADABLE. */
struct xhci_device_unreadable xhci_device_pending_unreadable(const struct xhci_device_pending *call);

/* The endpoints, a bit for each Dci, that the controller begins by the command that is to be sent, each at the
 * base of the ring that the context names and with cycle state 1: before it is sent these rings must be cleared
 * and begun anew. Control for Address, those flagged for Configure, none for any other. */
uint32_t xhci_device_pending_added(const struct xhci_device_pending *call);

/* The endpoints that it gives up by a Configure, before it begins the added ones. Disable, for which this is 0, gives up
 * control and all others. */
uint32_t xhci_device_pending_dropped(const struct xhci_device_pending *call);

/* The ring that the context names for an endpoint. */
uint64_t xhci_device_pending_ring(const struct xhci_device_pending *call, uint8_t dci);

/* Drives a call to its end. `send` carries `command` out and tells the outcome; if it tells none, the call is
 * left there, cut, and `state` says that it is untold. */
XHCI_DEVICE_MUST_USE struct xhci_device_answered xhci_device_pending_run(
    struct xhci_device_pending *call, uint64_t *routes, size_t routes_len,
    void (*send)(struct xhci_device_pending *call, const uint64_t *routes, void *bus), void *bus);

/* The call as a scenario (docs/SCENARIOS.md), character by character: what it began with, with the outcomes with which it was
 * run last. Run by the library, it gives the answer, log, context, record and routes of the slot that the call has now; only
 * a bring-up that was refused leaves an empty record there, and a call that routes of another length have ended is cut there.
 * What the call points to must stand. The routes are known from the first step on. An image that is no record is printed as
 * an unusable one. Which read a bring-up could not use, and why, is told in a comment. */
void xhci_device_pending_print(const struct xhci_device_pending *call, void (*put)(char c, void *to), void *to);

#ifdef __cplusplus
}
#endif

#endif
