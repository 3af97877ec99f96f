/* What the commands of a driven bring-up have read, and which of it cannot be used. */
#include "xhci_device_parts.h"

#include <string.h>

/* Sizes of descriptors, and where the device's has these bytes (USB 2.0, table 9-8). */
enum { DEVICE_DESCRIPTOR = 18, CONFIGURATION_DESCRIPTOR = 9, MAX_PACKET_SIZE = 7, NUM_CONFIGURATIONS = 17 };

enum { MOST_CONFIGURATIONS = 8 };

static struct xhci_device_unreadable *ground(struct xhci_device_pending *call, uint32_t cause) {
    struct xhci_device_unreadable *unreadable = &call->own.unreadable;
    memset(unreadable, 0, sizeof *unreadable);
    unreadable->operation = call->command.operation;
    unreadable->index = call->command.first;
    unreadable->cause = cause;
    return unreadable;
}

/* What was read cannot be used, by its size. */
static bool counted(struct xhci_device_pending *call, uint32_t cause, size_t had, size_t wanted) {
    struct xhci_device_unreadable *unreadable = ground(call, cause);
    unreadable->had = had;
    unreadable->wanted = wanted;
    return false;
}

/* The same, for what stands at a place. */
static bool placed(struct xhci_device_pending *call, uint32_t cause, size_t place, uint32_t word) {
    struct xhci_device_unreadable *unreadable = ground(call, cause);
    unreadable->place = place;
    unreadable->word = word;
    return false;
}

/* The same, for a word of the list. */
static void placed_word(struct xhci_device_pending *call, uint32_t cause, size_t at, size_t len) {
    placed(call, cause, at, at < len ? call->own.list[at] : 0);
}

/* How many words the list would have with a configuration of so many: it takes the place of one word. */
static size_t words_with(const struct xhci_device_learned *learned, size_t len) {
    return learned->read + len + learned->unread - 1;
}

static bool append(struct xhci_device_pending *call, const uint32_t *words, size_t len) {
    struct xhci_device_learned *learned = &call->own.learned;
    size_t i, all = words_with(learned, len);
    for (i = 0; i < len; i++) {
        if ((words[i] >> 30 == XHCI_DEVICE_DESCRIPTOR_CONFIGURATION) != (i == 0)) {
            return placed(call, XHCI_DEVICE_UNREADABLE_NOT_ONE, learned->read + i, words[i]);
        }
    }
    if (len == 0) {
        return placed(call, XHCI_DEVICE_UNREADABLE_NOT_ONE, learned->read, 0);
    }
    if (all > XHCI_DEVICE_LIST_ROOM) {
        return counted(call, XHCI_DEVICE_UNREADABLE_NO_ROOM, all, XHCI_DEVICE_LIST_ROOM);
    }
    memcpy(call->own.list + learned->read, words, len * sizeof words[0]);
    learned->read += len;
    learned->unread--;
    return true;
}

/* Bytes whose words are no valid list. */
static bool invalid(struct xhci_device_pending *call, const uint8_t *bytes, size_t len) {
    uint32_t words[XHCI_DEVICE_LIST_ROOM + 1];
    uint8_t speed = call->own.attached.speed;
    size_t count = xhci_device_words_of_bytes(bytes, len, speed, words), read = call->own.learned.read;
    size_t kept = count <= XHCI_DEVICE_LIST_ROOM ? count : (size_t)XHCI_DEVICE_LIST_ROOM;
    size_t at = xhci_device_invalid_word(words, kept, speed);
    if (at == kept) {
        return counted(call, XHCI_DEVICE_UNREADABLE_NO_ROOM, words_with(&call->own.learned, count), XHCI_DEVICE_LIST_ROOM);
    }
    return placed(call, XHCI_DEVICE_UNREADABLE_LIST, read + at, words[at]);
}

static bool append_bytes(struct xhci_device_pending *call, const uint8_t *bytes, size_t len) {
    uint32_t words[XHCI_DEVICE_LIST_ROOM];
    uint8_t speed = call->own.attached.speed;
    struct xhci_device_answered read;
    if (len == 0) {
        return counted(call, XHCI_DEVICE_UNREADABLE_TOO_SHORT, 0, CONFIGURATION_DESCRIPTOR);
    }
    read = xhci_device_read_descriptors(bytes, len, speed, words, XHCI_DEVICE_LIST_ROOM);
    switch (read.answer) {
    case XHCI_DEVICE_ANSWER_ACCEPTED:
        return append(call, words, read.count);
    case XHCI_DEVICE_ANSWER_MALFORMED:
        return placed(call, XHCI_DEVICE_UNREADABLE_MALFORMED, xhci_device_malformed_byte(bytes, len, speed), 0);
    case XHCI_DEVICE_ANSWER_COMPANION:
        return placed(call, XHCI_DEVICE_UNREADABLE_COMPANION, xhci_device_companion_byte(bytes, len, speed), 0);
    default:
        return invalid(call, bytes, len);
    }
}

bool xhci_device_learn(struct xhci_device_pending *call, const uint8_t *bytes, size_t bytes_len, const uint32_t *words,
                       size_t words_len) {
    struct xhci_device_learned *learned = &call->own.learned;
    switch (call->command.operation) {
    case XHCI_DEVICE_OP_READ_HEADER:
        learned->header = bytes_len;
        learned->packet = bytes_len > MAX_PACKET_SIZE ? bytes[MAX_PACKET_SIZE] : 0;
        return true;
    case XHCI_DEVICE_OP_READ_CONFIGURATION:
        if (bytes_len == 0) {
            return counted(call, XHCI_DEVICE_UNREADABLE_TOO_SHORT, 0, 1);
        }
        learned->value = bytes[0];
        return true;
    case XHCI_DEVICE_OP_READ_DEVICE:
        if (bytes_len < DEVICE_DESCRIPTOR) {
            return counted(call, XHCI_DEVICE_UNREADABLE_TOO_SHORT, bytes_len, DEVICE_DESCRIPTOR);
        }
        learned->unread = bytes[NUM_CONFIGURATIONS];
        return true;
    case XHCI_DEVICE_OP_READ_CONFIG:
        return words_len > 0 ? append(call, words, words_len) : append_bytes(call, bytes, bytes_len);
    default:
        return true;
    }
}

void xhci_device_unlearn(struct xhci_device_pending *call) {
    const uint32_t *list = call->own.list;
    size_t len = call->own.learned.read + call->own.learned.unread;
    if (call->command.operation == XHCI_DEVICE_OP_READ_DEVICE) {
        counted(call, XHCI_DEVICE_UNREADABLE_CONFIGURATIONS, len, MOST_CONFIGURATIONS);
    } else if (call->answered.answer == XHCI_DEVICE_ANSWER_COMPANION) {
        placed_word(call, XHCI_DEVICE_UNREADABLE_COMPANION, xhci_device_companion_word(list, len), len);
    } else {
        placed_word(call, XHCI_DEVICE_UNREADABLE_LIST, xhci_device_invalid_word(list, len, call->own.attached.speed), len);
    }
    call->own.learned = call->own.before;
    memset(call->own.list + call->own.learned.read, 0,
        (XHCI_DEVICE_LIST_ROOM - call->own.learned.read) * sizeof call->own.list[0]);
}

struct xhci_device_unreadable xhci_device_pending_unreadable(const struct xhci_device_pending *call) {
    return call->own.unreadable;
}
