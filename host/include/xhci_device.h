/* The functions of Nuszkadorj: the calls and the choice of settings, as libxhci_device.a has them, and those outside a slot,
 * raw descriptors, settings of old boards and an endpoint's block, as libxhci_functions.a has them (host/archives makes both).
 * Both may be linked.
 *
 * A slice is a pointer and a count of elements. The slices of one call must not overlap, and a pointer
 * may not be null, even with a count of 0. Nothing is kept after a call returns.
 */
#ifndef XHCI_DEVICE_H
#define XHCI_DEVICE_H

#include <stdbool.h>
#include <stddef.h>
#include <stdint.h>

#ifdef __cplusplus
extern "C" {
#endif

/* The version of this header, as of the archive and of the Rust binding (host/xhci_device/Cargo.toml). */
#define XHCI_DEVICE_VERSION_MAJOR 0
#define XHCI_DEVICE_VERSION_MINOR 1
#define XHCI_DEVICE_VERSION_PATCH 0
#define XHCI_DEVICE_VERSION "0.1.0"

/* Of a function whose answer is to be looked at: compilers that know it warn where it is not. */
#if defined(__GNUC__)
#define XHCI_DEVICE_MUST_USE __attribute__((warn_unused_result))
#else
#define XHCI_DEVICE_MUST_USE
#endif

/* Sizes. */
#define XHCI_DEVICE_CONTEXT_BYTES_32 1056       /* of an input context of 33 blocks of 32 bytes, */
#define XHCI_DEVICE_CONTEXT_BYTES_64 2112       /* and of 64 */
#define XHCI_DEVICE_OUTPUT_BYTES_32 1024        /* of an output context, which has no control block: 32 blocks of 32 bytes, */
#define XHCI_DEVICE_OUTPUT_BYTES_64 2048        /* and of 64 */
#define XHCI_DEVICE_LOG_ROOM 64                 /* words of a log, at least; no call sends more commands */
#define XHCI_DEVICE_HUB_ROOM 256                /* hub words, at most */
#define XHCI_DEVICE_RING_ALIGNMENT 16           /* a ring's bus address is a nonzero multiple */
#define XHCI_DEVICE_SLOTS 255                   /* N at most */
#define XHCI_DEVICE_ROUTES_OF_SLOT 32
#define XHCI_DEVICE_ROUTES_WORDS(n) ((size_t)XHCI_DEVICE_ROUTES_OF_SLOT * ((size_t)(n) + 1))

/* The Dci of an endpoint by its address, which is its number, and 0x80 for IN: 2 * number + IN. Control's is 1. */
static inline uint8_t xhci_device_dci(uint8_t address) {
    return (uint8_t)(2 * (address & 15) + (address >> 7));
}

/* Where the ring of a slot's endpoint stands in the routes. */
static inline size_t xhci_device_route_index(uint8_t slot, uint8_t dci) {
    return (size_t)XHCI_DEVICE_ROUTES_OF_SLOT * slot + dci;
}

/* A word of the log: operation 4 bits, first operand 8, second 8, the other 12 bits 0. */
enum {
    XHCI_DEVICE_OP_ADDRESS = 1,             /* Address Device Command, over the context */
    XHCI_DEVICE_OP_EVALUATE = 2,            /* Evaluate Context Command, over the context */
    XHCI_DEVICE_OP_CONFIGURE = 3,           /* Configure Endpoint Command, over the context */
    XHCI_DEVICE_OP_STOP = 4,                /* Dci */
    XHCI_DEVICE_OP_RESUME = 5,              /* Dci */
    XHCI_DEVICE_OP_SET_INTERFACE = 6,       /* interface, alternate setting */
    XHCI_DEVICE_OP_SET_CONFIGURATION = 7,   /* value */
    XHCI_DEVICE_OP_READ_HEADER = 8,         /* the first 8 bytes of the device descriptor */
    XHCI_DEVICE_OP_READ_CONFIGURATION = 9,  /* the value that is set */
    XHCI_DEVICE_OP_READ_DEVICE = 10,        /* the device descriptor */
    XHCI_DEVICE_OP_READ_CONFIG = 11,        /* index; a configuration descriptor with all that follows it */
    XHCI_DEVICE_OP_DISABLE = 12             /* Disable Slot Command */
};

/* What a word of the log says. Operands that an operation has not are 0; where no call logs the word, all three are. */
struct xhci_device_command {
    uint8_t operation;  /* XHCI_DEVICE_OP_... */
    uint8_t first;      /* Dci, interface, value or index */
    uint8_t second;     /* alternate setting */
};

struct xhci_device_command xhci_device_command_of(uint32_t word);

/* Answers. */
enum {
    XHCI_DEVICE_ANSWER_ACCEPTED = 0,
    XHCI_DEVICE_ANSWER_CONTEXT_LENGTH = 1,        /* the context is not 33 blocks of the record's spacing; of a block: see there */
    XHCI_DEVICE_ANSWER_ROUTES_LENGTH = 2,         /* the routes are not 32 * (N + 1) words */
    XHCI_DEVICE_ANSWER_LOG_TOO_SHORT = 3,         /* the log has less than LOG_ROOM words; outside a slot: too little is lent */
    XHCI_DEVICE_ANSWER_DESCRIPTOR_LIST = 4,       /* of a block: the Dci is not 1 to 31 */
    XHCI_DEVICE_ANSWER_HUB_CHAIN = 5,
    XHCI_DEVICE_ANSWER_SPEED = 6,
    XHCI_DEVICE_ANSWER_THINK_TIME = 7,
    XHCI_DEVICE_ANSWER_NOT_FOUND = 8,             /* a claim: the list has no such alternate */
    XHCI_DEVICE_ANSWER_INVALID_PARAMETER = 9,     /* an address that another interface owns */
    XHCI_DEVICE_ANSWER_RINGS = 10,                /* bring-up: not 1 to 64 rings, or one is no nonzero multiple of 16 or twice there */
    XHCI_DEVICE_ANSWER_SLOT_LIMIT_REACHED = 11,
    XHCI_DEVICE_ANSWER_UNUSABLE = 12,             /* a record marked unusable (for an unplugging: not up) or not sound, or no record */
    XHCI_DEVICE_ANSWER_FAILED = 13,               /* a command failed: `code` */
    XHCI_DEVICE_ANSWER_INTERFACE_BROKEN = 14,
    XHCI_DEVICE_ANSWER_CUT = 15,                  /* no outcome was left for a command */
    XHCI_DEVICE_ANSWER_SHORT_HEADER = 16,
    XHCI_DEVICE_ANSWER_QUEUE_FULL = 17,           /* bring-up: the slot has a route for control */
    XHCI_DEVICE_ANSWER_INVALID_ENDPOINT = 18,     /* an old endpoint's route is not its ring */
    XHCI_DEVICE_ANSWER_PACKET_EXPONENT = 19,      /* bring-up at speeds 4 and 5: the packet byte is not 9 */
    XHCI_DEVICE_ANSWER_MALFORMED = 20,            /* raw descriptors: malformed bytes, or an endpoint word with packets 0 */
    XHCI_DEVICE_ANSWER_TOO_FEW_RINGS = 21,        /* a claim: fewer free rings than endpoint words */
    XHCI_DEVICE_ANSWER_OUTDATED_ASK = 22,         /* a commit: an ask would now return something else */
    XHCI_DEVICE_ANSWER_SETTINGS = 23,             /* settings of old boards: malformed, or not found in their configuration */
    XHCI_DEVICE_ANSWER_OTHER_CONFIGURATION = 24,  /* the same, going back: of another configuration than the list's first */
    XHCI_DEVICE_ANSWER_NOT_CLAIMED = 25,          /* a release: the interface holds no setting */
    XHCI_DEVICE_ANSWER_COMPANION = 26,            /* at speeds 4 and 5: an endpoint word without its companion, a companion
                                                     elsewhere, or one out of range */
    XHCI_DEVICE_ANSWER_ALREADY_WAITING = 27,      /* a dispatcher: a call of the slot is waiting */
    XHCI_DEVICE_ANSWER_TOO_MANY_SLOTS = 28,       /* a dispatcher: 32 other slots were taken */
    XHCI_DEVICE_ANSWER_TOO_MANY_NAMES = 29,       /* a choice: more than NAMES interfaces */
    XHCI_DEVICE_ANSWER_NO_CHOICE = 30             /* there is no such choice */
};

/* The answer in words. */
static inline const char *xhci_device_answer_name(uint32_t answer) {
    switch (answer) {
    case XHCI_DEVICE_ANSWER_ACCEPTED: return "accepted";
    case XHCI_DEVICE_ANSWER_CONTEXT_LENGTH: return "the context has a wrong length";
    case XHCI_DEVICE_ANSWER_ROUTES_LENGTH: return "the routes have a wrong length";
    case XHCI_DEVICE_ANSWER_LOG_TOO_SHORT: return "the log is too short";
    case XHCI_DEVICE_ANSWER_DESCRIPTOR_LIST: return "the descriptor list is not valid";
    case XHCI_DEVICE_ANSWER_HUB_CHAIN: return "the chain of hubs is not in order";
    case XHCI_DEVICE_ANSWER_SPEED: return "the speed is unknown";
    case XHCI_DEVICE_ANSWER_THINK_TIME: return "the think time has no value";
    case XHCI_DEVICE_ANSWER_NOT_FOUND: return "there is no such alternate";
    case XHCI_DEVICE_ANSWER_INVALID_PARAMETER: return "an address is owned by another interface";
    case XHCI_DEVICE_ANSWER_RINGS: return "the rings given do not fit";
    case XHCI_DEVICE_ANSWER_SLOT_LIMIT_REACHED: return "the slot or the number of slots is out of range";
    case XHCI_DEVICE_ANSWER_UNUSABLE: return "the record is unusable or not sound";
    case XHCI_DEVICE_ANSWER_FAILED: return "a command failed";
    case XHCI_DEVICE_ANSWER_INTERFACE_BROKEN: return "what was begun could not be undone";
    case XHCI_DEVICE_ANSWER_CUT: return "cut: no outcome was left for the last command";
    case XHCI_DEVICE_ANSWER_SHORT_HEADER: return "the header read has not 8 bytes";
    case XHCI_DEVICE_ANSWER_QUEUE_FULL: return "the control endpoint's route is taken";
    case XHCI_DEVICE_ANSWER_INVALID_ENDPOINT: return "an endpoint's route is not its ring";
    case XHCI_DEVICE_ANSWER_PACKET_EXPONENT: return "the packet byte is no exponent of a SuperSpeed size";
    case XHCI_DEVICE_ANSWER_MALFORMED: return "the descriptors are malformed";
    case XHCI_DEVICE_ANSWER_TOO_FEW_RINGS: return "there are fewer free rings than endpoint words";
    case XHCI_DEVICE_ANSWER_OUTDATED_ASK: return "the ask is outdated";
    case XHCI_DEVICE_ANSWER_SETTINGS: return "the settings are malformed or not found";
    case XHCI_DEVICE_ANSWER_OTHER_CONFIGURATION: return "the settings are of another configuration than the first";
    case XHCI_DEVICE_ANSWER_NOT_CLAIMED: return "the interface is not claimed";
    case XHCI_DEVICE_ANSWER_COMPANION: return "a companion is missing, misplaced or out of range";
    case XHCI_DEVICE_ANSWER_ALREADY_WAITING: return "the slot has a call waiting";
    case XHCI_DEVICE_ANSWER_TOO_MANY_SLOTS: return "thirty-two other slots were taken";
    case XHCI_DEVICE_ANSWER_TOO_MANY_NAMES: return "there are more than eight names";
    case XHCI_DEVICE_ANSWER_NO_CHOICE: return "there is no such choice";
    default: return "an answer without a name";
    }
}

/* What a function returns. A refusal (1 to 12, 17, 20 to 30) has changed nothing, with one exception: that of a bring-up
 * leaves an empty record in the image. */
struct xhci_device_answered {
    uint32_t answer;
    uint32_t code;  /* of 13, else 0 */
    size_t count;   /* how many words were logged; outside a slot: how many words or bytes were written */
};

/* A record is an image of so many words, one for each number and each element of its arrays. Words that no record has (a
 * wrong count of words, a flag above 1, a byte above 255, a descriptor word of more than 32 bits) are no record: every call
 * on them answers 12 and changes nothing. A bring-up asks for the count of words only.
 */
#define XHCI_DEVICE_RECORD_WORDS 580

/* Room in a record's arrays. */
enum {
    XHCI_DEVICE_LIST_ROOM = 256,    /* descriptor words, which a reader is lent, at least */
    XHCI_DEVICE_EP_ROOM = 30,       /* endpoints, for whose rings an ask is lent words, at least */
    XHCI_DEVICE_HELD_ROOM = 32,     /* held settings */
    XHCI_DEVICE_RING_ROOM = 61,     /* quarantined rings */
    XHCI_DEVICE_GIVEN_ROOM = 64     /* given rings */
};

/* Where the words stand. Of an array, the first `.._COUNT` elements (`LIST_LEN` of the list) are in use. The functions of
 * "What a record says" read them. What a record gets from now on is appended: no word moves.
 */
enum {
    XHCI_DEVICE_AT_USABLE = 0,              /* flags: 0 or 1 */
    XHCI_DEVICE_AT_CONFIGURED = 1,          /* a configuration value was read or set */
    XHCI_DEVICE_AT_CONTROL_REVOKED = 2,
    XHCI_DEVICE_AT_EP_REVOKED = 3,          /* EP_ROOM */
    XHCI_DEVICE_AT_SLOT = 33,               /* bytes */
    XHCI_DEVICE_AT_MAX_SLOTS = 34,
    XHCI_DEVICE_AT_PORT_SPEED = 35,
    XHCI_DEVICE_AT_CURRENT_CONFIG_VALUE = 36,
    XHCI_DEVICE_AT_EP_ADDRESSES = 37,       /* EP_ROOM */
    XHCI_DEVICE_AT_EP_INTERFACES = 67,      /* EP_ROOM, their owners */
    XHCI_DEVICE_AT_INTERFACES = 97,         /* HELD_ROOM, of the held settings */
    XHCI_DEVICE_AT_ALTERNATES = 129,        /* HELD_ROOM */
    XHCI_DEVICE_AT_LIST = 161,              /* LIST_ROOM descriptor words */
    XHCI_DEVICE_AT_SPACING = 417,
    XHCI_DEVICE_AT_LIST_LEN = 418,
    XHCI_DEVICE_AT_EP_COUNT = 419,
    XHCI_DEVICE_AT_HELD_COUNT = 420,
    XHCI_DEVICE_AT_QUARANTINED_COUNT = 421,
    XHCI_DEVICE_AT_CONTROL = 422,           /* control's ring */
    XHCI_DEVICE_AT_EP_RINGS = 423,          /* EP_ROOM */
    XHCI_DEVICE_AT_QUARANTINED = 453,       /* RING_ROOM */
    XHCI_DEVICE_AT_UP = 514,                /* flag: the device may be unplugged */
    XHCI_DEVICE_AT_GIVEN_COUNT = 515,
    XHCI_DEVICE_AT_GIVEN = 516              /* GIVEN_ROOM, the rings that the slot was given */
};

/* How many words an image of the archive has. A header of the same version has as many: XHCI_DEVICE_RECORD_WORDS. */
size_t xhci_device_record_words(void);

/* Whether words are a record that is marked usable. */
bool xhci_device_is_usable(const uint64_t *image, size_t image_len);

/* Whether words are a record whose device may be unplugged: brought up, and not unplugged since. */
bool xhci_device_is_up(const uint64_t *image, size_t image_len);

/* Whether words are a record that is sound. */
bool xhci_device_is_sound(const uint64_t *image, size_t image_len);

/* What a record says. An image has XHCI_DEVICE_RECORD_WORDS words; a count that only an unsound one has is cut to the room of
 * its array, and behind the count all is 0. */
static inline uint8_t xhci_device_slot(const uint64_t *image) {
    return (uint8_t)image[XHCI_DEVICE_AT_SLOT];
}

/* N, the number of slots that the routes serve. */
static inline uint8_t xhci_device_n(const uint64_t *image) {
    return (uint8_t)image[XHCI_DEVICE_AT_MAX_SLOTS];
}

/* Of the context's blocks: 32 or 64. */
static inline size_t xhci_device_spacing(const uint64_t *image) {
    return (size_t)image[XHCI_DEVICE_AT_SPACING];
}

/* xHCI's speed id. */
static inline uint8_t xhci_device_port_speed(const uint64_t *image) {
    return (uint8_t)image[XHCI_DEVICE_AT_PORT_SPEED];
}

/* Whether a configuration value was read or set, and the last one; 0 where none was. */
static inline bool xhci_device_configuration(const uint64_t *image, uint8_t *value) {
    bool configured = image[XHCI_DEVICE_AT_CONFIGURED] != 0;
    *value = configured ? (uint8_t)image[XHCI_DEVICE_AT_CURRENT_CONFIG_VALUE] : (uint8_t)0;
    return configured;
}

/* Control's ring. */
static inline uint64_t xhci_device_control(const uint64_t *image) {
    return image[XHCI_DEVICE_AT_CONTROL];
}

/* Whether control is revoked: no request is sent over it. */
static inline bool xhci_device_control_revoked(const uint64_t *image) {
    return image[XHCI_DEVICE_AT_CONTROL_REVOKED] != 0;
}

/* How many elements of an array are in use, by the word that counts them. */
static inline size_t xhci_device_count_at(const uint64_t *image, size_t at, size_t room) {
    return image[at] < room ? (size_t)image[at] : room;
}

/* A held setting. */
struct xhci_device_setting {
    uint8_t interface;
    uint8_t alternate;
};

static inline size_t xhci_device_held_count(const uint64_t *image) {
    return xhci_device_count_at(image, XHCI_DEVICE_AT_HELD_COUNT, XHCI_DEVICE_HELD_ROOM);
}

static inline struct xhci_device_setting xhci_device_held(const uint64_t *image, size_t i) {
    struct xhci_device_setting setting = {0, 0};
    if (i < xhci_device_held_count(image)) {
        setting.interface = (uint8_t)image[XHCI_DEVICE_AT_INTERFACES + i];
        setting.alternate = (uint8_t)image[XHCI_DEVICE_AT_ALTERNATES + i];
    }
    return setting;
}

/* An endpoint of a held setting. */
struct xhci_device_held_endpoint {
    uint8_t address;
    uint8_t interface;  /* that owns it */
    uint64_t ring;
    bool active;        /* otherwise revoked: no transfer is sent to it */
};

static inline size_t xhci_device_endpoint_count(const uint64_t *image) {
    return xhci_device_count_at(image, XHCI_DEVICE_AT_EP_COUNT, XHCI_DEVICE_EP_ROOM);
}

static inline struct xhci_device_held_endpoint xhci_device_endpoint(const uint64_t *image, size_t i) {
    struct xhci_device_held_endpoint endpoint = {0, 0, 0, false};
    if (i < xhci_device_endpoint_count(image)) {
        endpoint.address = (uint8_t)image[XHCI_DEVICE_AT_EP_ADDRESSES + i];
        endpoint.interface = (uint8_t)image[XHCI_DEVICE_AT_EP_INTERFACES + i];
        endpoint.ring = image[XHCI_DEVICE_AT_EP_RINGS + i];
        endpoint.active = image[XHCI_DEVICE_AT_EP_REVOKED + i] == 0;
    }
    return endpoint;
}

/* The rings that lost calls left in doubt, in the order of arrival. */
static inline size_t xhci_device_quarantined_count(const uint64_t *image) {
    return xhci_device_count_at(image, XHCI_DEVICE_AT_QUARANTINED_COUNT, XHCI_DEVICE_RING_ROOM);
}

static inline uint64_t xhci_device_quarantined(const uint64_t *image, size_t i) {
    return i < xhci_device_quarantined_count(image) ? image[XHCI_DEVICE_AT_QUARANTINED + i] : 0;
}

/* The rings that the slot was given. */
static inline size_t xhci_device_given_count(const uint64_t *image) {
    return xhci_device_count_at(image, XHCI_DEVICE_AT_GIVEN_COUNT, XHCI_DEVICE_GIVEN_ROOM);
}

static inline uint64_t xhci_device_given(const uint64_t *image, size_t i) {
    return i < xhci_device_given_count(image) ? image[XHCI_DEVICE_AT_GIVEN + i] : 0;
}

/* Whether a ring is control's, an endpoint's or in quarantine. */
static inline bool xhci_device_has_taken(const uint64_t *image, uint64_t ring) {
    size_t i;
    bool taken = ring == xhci_device_control(image);
    for (i = 0; i < xhci_device_endpoint_count(image); i++) {
        taken = taken || ring == xhci_device_endpoint(image, i).ring;
    }
    for (i = 0; i < xhci_device_quarantined_count(image); i++) {
        taken = taken || ring == xhci_device_quarantined(image, i);
    }
    return taken;
}

/* The given rings that a claim may draw, rising, into the first words; how many there are. */
static inline size_t xhci_device_free_rings(const uint64_t *image, uint64_t rings[XHCI_DEVICE_GIVEN_ROOM]) {
    size_t i, at, count = 0;
    for (i = 0; i < xhci_device_given_count(image); i++) {
        uint64_t ring = xhci_device_given(image, i);
        if (xhci_device_has_taken(image, ring)) {
            continue;
        }
        for (at = count; at > 0 && rings[at - 1] > ring; at--) {
            rings[at] = rings[at - 1];
        }
        rings[at] = ring;
        count++;
    }
    return count;
}

/* The device's descriptor words. */
static inline size_t xhci_device_list_count(const uint64_t *image) {
    return xhci_device_count_at(image, XHCI_DEVICE_AT_LIST_LEN, XHCI_DEVICE_LIST_ROOM);
}

static inline uint32_t xhci_device_list_word(const uint64_t *image, size_t i) {
    return i < xhci_device_list_count(image) ? (uint32_t)image[XHCI_DEVICE_AT_LIST + i] : 0;
}

/* The kinds of descriptor words, by the two highest bits, and what is none: a word with an unused bit set, or an endpoint's
 * with number or type 0. */
enum {
    XHCI_DEVICE_DESCRIPTOR_CONFIGURATION = 0,
    XHCI_DEVICE_DESCRIPTOR_INTERFACE = 1,   /* an alternate setting of it */
    XHCI_DEVICE_DESCRIPTOR_ENDPOINT = 2,
    XHCI_DEVICE_DESCRIPTOR_COMPANION = 3,   /* of the endpoint before it */
    XHCI_DEVICE_DESCRIPTOR_NONE = 4
};

/* What a descriptor word says. What its kind has not is 0. */
struct xhci_device_descriptor {
    uint32_t kind;          /* XHCI_DEVICE_DESCRIPTOR_... */
    uint8_t value;          /* of a configuration */
    uint8_t interface;      /* of an alternate setting: its interface and its number */
    uint8_t alternate;
    uint8_t address;        /* of an endpoint */
    uint8_t type;           /* 1 isochronous, 2 bulk, 3 interrupt */
    uint16_t packet_size;
    uint8_t packets;        /* per microframe */
    uint8_t interval;
    uint8_t burst;          /* of a companion */
    uint8_t mult;
    uint16_t bytes;         /* per interval */
};

static inline struct xhci_device_descriptor xhci_device_descriptor_of(uint32_t word) {
    struct xhci_device_descriptor d = {XHCI_DEVICE_DESCRIPTOR_NONE, 0, 0, 0, 0, 0, 0, 0, 0, 0, 0, 0};
    uint32_t kind = word >> 30, number = word >> 25 & 15, type = word >> 23 & 3;
    if (kind == XHCI_DEVICE_DESCRIPTOR_CONFIGURATION && (word & UINT32_C(0x003FFFFF)) == 0) {
        d.kind = kind;
        d.value = (uint8_t)(word >> 22 & 0xFF);
    } else if (kind == XHCI_DEVICE_DESCRIPTOR_INTERFACE && (word & UINT32_C(0x3FFF)) == 0) {
        d.kind = kind;
        d.interface = (uint8_t)(word >> 22 & 0xFF);
        d.alternate = (uint8_t)(word >> 14 & 0xFF);
    } else if (kind == XHCI_DEVICE_DESCRIPTOR_ENDPOINT && (word & 3) == 0 && number != 0 && type != 0) {
        d.kind = kind;
        d.address = (uint8_t)((word >> 29 & 1) << 7 | number);
        d.type = (uint8_t)type;
        d.packet_size = (uint16_t)(word >> 12 & 0x7FF);
        d.packets = (uint8_t)(word >> 10 & 3);
        d.interval = (uint8_t)(word >> 2 & 0xFF);
    } else if (kind == XHCI_DEVICE_DESCRIPTOR_COMPANION && (word & 0xFF) == 0) {
        d.kind = kind;
        d.burst = (uint8_t)(word >> 26 & 15);
        d.mult = (uint8_t)(word >> 24 & 3);
        d.bytes = (uint16_t)(word >> 8 & 0xFFFF);
    }
    return d;
}

/* A hub, as a bring-up is told of it. */
struct xhci_device_hub {
    bool has_parent;    /* whether it is on another hub, */
    uint8_t parent;     /* and that one's place among the hub words */
    uint8_t slot;       /* its own */
    int8_t depth;       /* -1 of a root hub, otherwise one more than its parent's, at most 4 */
    uint8_t speed;      /* xHCI's speed id, 1 to 5 */
    uint8_t port;       /* that it is on */
    bool multi;         /* whether each of its ports has its own transaction translator */
};

/* Its hub word. A depth or a speed that has no bits in it is written as 7, which a bring-up refuses. */
static inline uint64_t xhci_device_hub_word(struct xhci_device_hub hub) {
    uint64_t depth = (uint8_t)(hub.depth + 1), speed = hub.speed;
    return UINT64_C(1) << 63 | (uint64_t)hub.has_parent << 62 | (uint64_t)(hub.has_parent ? hub.parent : 0) << 54
        | (uint64_t)hub.slot << 46 | (depth < 7 ? depth : 7) << 43 | (speed < 7 ? speed : 7) << 40
        | (uint64_t)hub.port << 32 | (uint64_t)hub.multi << 31;
}

/* The bring-up of a slot: makes the record, whatever the image held. The slot is given 1 to 64 rings, in any order: the
 * lowest is control's, and claims draw from the others. At speeds 4 and 5 the list has each endpoint's companion directly
 * behind the endpoint's word.
 * Refused, it leaves an empty record in the image, whatever stood there, and changes nothing else: so where the slot is in
 * use (17) the record of its device is lost, and with it the way to unplug that device. This is the one refusal that
 * changes something; a driven bring-up (xhci_device_driver.h) keeps the image. */
XHCI_DEVICE_MUST_USE struct xhci_device_answered xhci_device_bring_up(
    uint64_t *image, size_t image_len, uint8_t *ctx, size_t ctx_len, uint64_t *routes, size_t routes_len,
    uint32_t *log, size_t log_len, const uint8_t *outcomes, size_t outcomes_len,
    const uint64_t *rings, size_t rings_len, const uint64_t *hubs, size_t hubs_len,
    const uint32_t *list, size_t list_len,
    uint8_t slot, size_t n, uint8_t speed, uint8_t has_parent, size_t parent, uint8_t port,
    uint8_t root_port, size_t header, uint8_t packet, uint8_t value);

/* The claim of an interface's alternate setting. Each of its endpoint words draws a ring, the lowest free one first.
 * Answered with 14, or with 15 once a Configure was sent, it leaves the rings of its endpoints quarantined. */
XHCI_DEVICE_MUST_USE struct xhci_device_answered xhci_device_claim(
    uint64_t *image, size_t image_len, uint8_t *ctx, size_t ctx_len, uint64_t *routes, size_t routes_len,
    uint32_t *log, size_t log_len, const uint8_t *outcomes, size_t outcomes_len,
    uint8_t interface, uint8_t alternate);

/* What an ask returns, beside the rings in the words that it was lent. A refused one has 0 everywhere but in `answer`, and
 * is not to be committed: its zeros name interface 0, alternate 0. (xhci_device_pending_commit looks at `answer`.) */
struct xhci_device_asked {
    uint32_t answer;    /* 0, or why a claim would be refused */
    uint8_t interface;
    uint8_t alternate;
    uint32_t drops;     /* bit d: the claim would drop Dci d; bits 0 and 1 are 0 */
    uint32_t adds;      /* bit d: it would add Dci d */
    size_t count;       /* how many rings it would draw: one for each endpoint word, in the order of the list */
};

/* What a claim of an interface's alternate setting would do that is lent a context, routes and a log of these lengths.
 * It runs the claim's checks, sends nothing and changes nothing but the first `count` of the rings. */
XHCI_DEVICE_MUST_USE struct xhci_device_asked xhci_device_ask(
    const uint64_t *image, size_t image_len, size_t ctx_len, size_t routes_len, size_t log_len,
    uint8_t interface, uint8_t alternate, uint64_t *rings, size_t rings_len);

/* The claim that an ask has shown: its interface, alternate, flags and rings. 22, and nothing is changed, if an ask would
 * now return other flags or rings. */
XHCI_DEVICE_MUST_USE struct xhci_device_answered xhci_device_commit(
    uint64_t *image, size_t image_len, uint8_t *ctx, size_t ctx_len, uint64_t *routes, size_t routes_len,
    uint32_t *log, size_t log_len, const uint8_t *outcomes, size_t outcomes_len,
    uint8_t interface, uint8_t alternate, uint32_t drops, uint32_t adds, const uint64_t *rings, size_t rings_len);

/* Why a claim or a commit got its answer: the first condition that was not met, or the first command that failed. */
enum {
    XHCI_DEVICE_REASON_NOTHING = 0,     /* it is accepted */
    XHCI_DEVICE_REASON_ALTERNATE = 1,   /* 8: the list has no such alternate: `interface`, `alternate` */
    XHCI_DEVICE_REASON_ENDPOINT = 2,    /* 9: the first endpoint word whose address another interface owns: `word`, and the
                                           owner in `interface` */
    XHCI_DEVICE_REASON_RINGS = 3,       /* 21: fewer free rings than endpoint words */
    XHCI_DEVICE_REASON_COMMAND = 4,     /* 13 or 14: the first failed command: `place`, and `word`, which
                                           xhci_device_command_of reads */
    XHCI_DEVICE_REASON_NUMBER = 5       /* the answer, `number`, says it all: another refusal, a cut, or a 14 without a
                                           failed command, which the routes gave */
};

/* What a kind has not is 0. */
struct xhci_device_reason {
    uint32_t kind;      /* XHCI_DEVICE_REASON_... */
    uint8_t interface;  /* asked for, or the owner */
    uint8_t alternate;
    uint32_t word;      /* of the list, or of the log */
    uint32_t number;    /* the answer */
    size_t place;       /* in the log, from 0: its code is the outcome there; the code of the answer may be that of a later
                           command, such as a Resume */
};

/* The kind in words. */
static inline const char *xhci_device_reason_name(uint32_t kind) {
    switch (kind) {
    case XHCI_DEVICE_REASON_NOTHING: return "nothing stood in the way";
    case XHCI_DEVICE_REASON_ALTERNATE: return "the list has no such alternate";
    case XHCI_DEVICE_REASON_ENDPOINT: return "an endpoint's address is owned by another interface";
    case XHCI_DEVICE_REASON_RINGS: return "there are fewer free rings than endpoint words";
    case XHCI_DEVICE_REASON_COMMAND: return "a command failed";
    case XHCI_DEVICE_REASON_NUMBER: return "the answer says it all";
    default: return "a reason without a name";
    }
}

/* Why a claim of an interface's alternate setting got its answer; of a commit, of what its ask named. From what the call
 * left: the image, `answer`, and of the log the words that were logged, `count` of them and no more; and from the outcomes
 * that it was given. Nothing is changed. */
struct xhci_device_reason xhci_device_why(
    const uint64_t *image, size_t image_len, uint8_t interface, uint8_t alternate, uint32_t answer,
    const uint32_t *log, size_t log_len, const uint8_t *outcomes, size_t outcomes_len);

/* The release of an interface: it gives up the setting that it holds. 25, and nothing is changed, if it holds none. */
XHCI_DEVICE_MUST_USE struct xhci_device_answered xhci_device_release(
    uint64_t *image, size_t image_len, uint8_t *ctx, size_t ctx_len, uint64_t *routes, size_t routes_len,
    uint32_t *log, size_t log_len, const uint8_t *outcomes, size_t outcomes_len, uint8_t interface);

/* The setting of a configuration value, which ends all held settings. */
XHCI_DEVICE_MUST_USE struct xhci_device_answered xhci_device_set_configuration(
    uint64_t *image, size_t image_len, uint8_t *ctx, size_t ctx_len, uint64_t *routes, size_t routes_len,
    uint32_t *log, size_t log_len, const uint8_t *outcomes, size_t outcomes_len, uint8_t value);

/* The hub update: number of ports, multi (0 or not), think time in nanoseconds. */
XHCI_DEVICE_MUST_USE struct xhci_device_answered xhci_device_hub_update(
    uint64_t *image, size_t image_len, uint8_t *ctx, size_t ctx_len, uint64_t *routes, size_t routes_len,
    uint32_t *log, size_t log_len, const uint8_t *outcomes, size_t outcomes_len,
    uint8_t ports, uint8_t multi, uint32_t ns);

/* The unplugging: everything is stopped and the slot disabled. Also of a record that is up and that a broken or cut call
 * left unusable. */
XHCI_DEVICE_MUST_USE struct xhci_device_answered xhci_device_disconnect(
    uint64_t *image, size_t image_len, uint8_t *ctx, size_t ctx_len, uint64_t *routes, size_t routes_len,
    uint32_t *log, size_t log_len, const uint8_t *outcomes, size_t outcomes_len);

/* How many interfaces a choice names at most, repeats counted. */
#define XHCI_DEVICE_NAMES 8

/* What a choice returns. */
struct xhci_device_chosen {
    uint32_t answer;                        /* 0, or the first of 12, 29 and 30 */
    uint8_t alternates[XHCI_DEVICE_NAMES];  /* one for each name, in their order; 0 past them, and all 0 where refused */
};

/* One alternate for each interface named, from the first configuration of the record's list: one that a claim would find, of
 * which no interrupt endpoint has a context interval above `longest`, and such that no two of the interfaces take the same
 * address. An endpoint of context interval i is polled every 125 << i microseconds; i is 0 to 15 at speeds 3 to 5, and 3 to 10
 * at speeds 1 and 2. Of several choices it is the earliest in the list, compared by interface as named. An interface may be
 * named twice and has one alternate. No names: accepted. Held settings have no say: a claim of what is chosen may answer 9
 * while an interface that is not among the names holds its address. Reads the image and changes nothing. */
XHCI_DEVICE_MUST_USE struct xhci_device_chosen xhci_device_choose(
    const uint64_t *image, size_t image_len, const uint8_t *names, size_t names_len, uint32_t longest);

/* A dispatcher: many slots over one command ring. It says whose turn it is; the calls that wait are the caller's, and each is
 * run whole at its turn, before the next turn is taken. It goes by value, as its functions return it; one that is new is made
 * by xhci_device_new_dispatcher, and its members are nobody else's to write. */
#define XHCI_DEVICE_DISPATCHER_SLOTS 256

struct xhci_device_dispatcher {
    uint8_t marks[XHCI_DEVICE_DISPATCHER_SLOTS];    /* of each slot: 0 never taken, 1 taken, 2 taken with a call waiting */
    uint16_t taken;     /* how many slots were ever taken */
    uint16_t from;      /* where the next turn begins to look */
};

struct xhci_device_dispatcher xhci_device_new_dispatcher(void);

struct xhci_device_submitted {
    struct xhci_device_dispatcher dispatcher;
    uint32_t answer;    /* 0: the call waits; or the first of 27 and 28, and the dispatcher is as it was */
};

/* A call of this slot is to wait: the slot of its record as it is now, a bring-up's the one that it names. Any byte is a slot
 * here. A slot that has waited once is taken for good, and 32 may be. */
XHCI_DEVICE_MUST_USE struct xhci_device_submitted xhci_device_submit(struct xhci_device_dispatcher dispatcher, uint8_t slot);

struct xhci_device_turned {
    struct xhci_device_dispatcher dispatcher;
    bool served;        /* false: none waits, and the dispatcher is as it was */
    uint8_t slot;       /* whose call is to be run now; it waits no longer. 0 where none is */
};

/* The lowest waiting slot above the one served last, or, where there is none, the lowest. So a call is started after at most 31
 * others. */
struct xhci_device_turned xhci_device_turn(struct xhci_device_dispatcher dispatcher);

/* Raw configuration descriptors (USB 2.0 section 9.6) of a device of a speed to descriptor words, into the first of 256 words
 * or more: 0, or the first of 3, 6, 20, 4 and 26. At speeds 4 and 5 an endpoint's companion (USB 3.2 section 9.6) is a word
 * of its own, directly behind the endpoint's; at the others it is skipped. A refusal changes nothing, and words past the
 * count keep their contents.
 */
XHCI_DEVICE_MUST_USE struct xhci_device_answered xhci_device_read_descriptors(
    const uint8_t *bytes, size_t bytes_len, uint8_t speed, uint32_t *words, size_t words_len);

/* Descriptor words, of a device of a speed, to raw descriptors, into the first of 2,304 bytes or more: 0, or the first of 3,
 * 6, 4, 26 and 20. */
#define XHCI_DEVICE_WRITE_BYTES 2304

XHCI_DEVICE_MUST_USE struct xhci_device_answered xhci_device_write_descriptors(
    const uint32_t *list, size_t list_len, uint8_t speed, uint8_t *bytes, size_t bytes_len);

/* Held settings as the maker's boards store them, interface and alternate by rising interface, into the new form: the value
 * of the list's first configuration 8 bits, the number of pairs 6, the pairs 8 and 8, zeros to a byte, the most significant
 * bit first. There are at most 32 pairs, and each must be in that configuration. The list is judged at the speed. Into the
 * first of 66 bytes or more: 0, or the first of 3, 6, 4, 26 and 23. A refusal changes nothing, and bytes past the count keep
 * their contents.
 */
#define XHCI_DEVICE_SETTINGS_BYTES 66

XHCI_DEVICE_MUST_USE struct xhci_device_answered xhci_device_settings_to_new(
    const uint8_t *settings, size_t settings_len, const uint32_t *list, size_t list_len, uint8_t speed,
    uint8_t *bytes, size_t bytes_len);

/* And back: 0, or the first of 3, 6, 4, 26, 23 and 24. The pairs are sought in the first configuration of the value that the
 * settings name; if that is not the list's first, 24. */
XHCI_DEVICE_MUST_USE struct xhci_device_answered xhci_device_settings_to_old(
    const uint8_t *settings, size_t settings_len, const uint32_t *list, size_t list_len, uint8_t speed,
    uint8_t *bytes, size_t bytes_len);

/* Where an endpoint's block stands. */
struct xhci_device_placed {
    uint32_t answer;    /* 0, or the first of 1 and 4 */
    size_t offset;      /* in the context that is shown; 0 where it is refused */
    size_t length;      /* 32 or 64, by the spacing; 0 where it is refused */
};

/* The block of a Dci (xHCI 1.2 section 6.2.3) in the input context, or, where from_output is not 0, in the output context, of
 * which only the lengths are given: 0; 1, if these are not XHCI_DEVICE_CONTEXT_BYTES_32 and XHCI_DEVICE_OUTPUT_BYTES_32, nor
 * both of 64; 4, if the Dci is not 1 to 31. */
XHCI_DEVICE_MUST_USE struct xhci_device_placed xhci_device_block(
    size_t input_len, size_t output_len, uint8_t from_output, uint8_t dci);

#ifdef __cplusplus
}
#endif

#endif
