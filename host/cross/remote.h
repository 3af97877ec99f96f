/* How client.c, on this machine, has server.c, on another, make the calls of xhci_device.h. A request is this struct and
 * then the elements of its buffers; a reply is its struct and then, after a function that writes, the first four buffers
 * as they were left, after an ask what it returned, and the rings, and after a why or a block what it returned. Both machines
 * have 64 bits and the lowest byte first. */
#ifndef REMOTE_H
#define REMOTE_H

#include "xhci_device.h"

/* Those up to TURN write. */
enum function {
    BRING_UP, CLAIM, COMMIT, RELEASE, SET_CONFIGURATION, HUB_UPDATE, DISCONNECT, READ_DESCRIPTORS, WRITE_DESCRIPTORS,
    SETTINGS_TO_NEW, SETTINGS_TO_OLD, NEW_DISPATCHER, SUBMIT, TURN, ASK, WHY, BLOCK, CHOOSE, IS_USABLE, IS_UP, IS_SOUND,
    RECORD_WORDS, COMMAND_OF
};

/* The buffers of a request, of which the first WRITTEN are written. Raw descriptors are read from the outcomes into the log,
 * and written from the list into the context; settings are converted from the outcomes, by the list, into the context.
 * The names of a choice are the outcomes. A dispatcher is the context, as it is given and as it is returned; whether a turn
 * serves is the code, and which slot the count. */
enum { IMAGE, CTX, ROUTES, LOG, OUTCOMES, RINGS, HUBS, LIST, BUFFERS };
enum { WRITTEN = OUTCOMES, NUMBERS = 10 };

static const size_t size_of[BUFFERS] = {8, 1, 8, 4, 1, 8, 8, 4};

struct request {
    uint64_t function;
    uint64_t count[BUFFERS];    /* elements of each buffer */
    uint64_t number[NUMBERS];   /* the other arguments, in order */
};

struct reply {
    uint32_t answer;
    uint32_t code;
    uint64_t count;
    uint64_t value;             /* of a function that does not write; of a choice its alternates */
};

#endif
