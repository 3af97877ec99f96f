/* Settings of old boards for C: both forms there and back, and each refusal. Prints nothing; a wrong answer ends it with 1. */
#include "xhci_device.h"

#include <stdio.h>
#include <stdlib.h>
#include <string.h>

/* Configuration 1: interface 0 with alternates 0 and 1, interface 3; configuration 2: interface 0. */
static const uint32_t LIST[] = {0x00400000, 0x40000000, 0x40004000, 0x40c00000, 0x00800000, 0x40000000};
enum { LIST_WORDS = sizeof LIST / sizeof LIST[0] };

static const uint8_t OLD[] = {0, 1, 3, 0};
static const uint8_t NEW[] = {1, 8, 0, 4, 0x0c, 0};
static const uint8_t NONE[] = {1, 0};
static const uint8_t OTHER[] = {2, 4, 0, 0};
static const uint8_t PADDED[] = {1, 8, 0, 4, 0x0c, 1};

typedef struct xhci_device_answered conversion(
    const uint8_t *settings, size_t settings_len, const uint32_t *list, size_t list_len, uint8_t speed,
    uint8_t *bytes, size_t bytes_len);

/* At which the next conversion's list is judged. */
static uint8_t speed = 3;

/* What must be answered; accepted, the output stands in the first bytes, and all others are as they were lent. */
static void expect(const char *what, conversion *convert, const uint8_t *settings, size_t settings_len, size_t list_len,
    size_t room, uint32_t answer, const uint8_t *output, size_t count) {
    uint8_t bytes[XHCI_DEVICE_SETTINGS_BYTES + 1], lent[XHCI_DEVICE_SETTINGS_BYTES + 1];
    struct xhci_device_answered answered;
    memset(bytes, 0xa5, sizeof bytes);
    memset(lent, 0xa5, sizeof lent);
    if (count > 0) {
        memcpy(lent, output, count);
    }
    answered = convert(settings, settings_len, LIST, list_len, speed, bytes, room);
    if (answered.answer != answer || answered.code != 0 || answered.count != count || memcmp(bytes, lent, sizeof bytes) != 0) {
        fprintf(stderr, "%s: %s\n", what, xhci_device_answer_name(answered.answer));
        exit(1);
    }
}

int main(void) {
    conversion *to_new = xhci_device_settings_to_new, *to_old = xhci_device_settings_to_old;
    enum { ROOM = XHCI_DEVICE_SETTINGS_BYTES };
    expect("to new", to_new, OLD, sizeof OLD, LIST_WORDS, ROOM, XHCI_DEVICE_ANSWER_ACCEPTED, NEW, sizeof NEW);
    expect("to old", to_old, NEW, sizeof NEW, LIST_WORDS, ROOM + 1, XHCI_DEVICE_ANSWER_ACCEPTED, OLD, sizeof OLD);
    expect("no pairs", to_old, NONE, sizeof NONE, LIST_WORDS, ROOM, XHCI_DEVICE_ANSWER_ACCEPTED, NULL, 0);
    expect("little room", to_new, OLD, sizeof OLD, LIST_WORDS, ROOM - 1, XHCI_DEVICE_ANSWER_LOG_TOO_SHORT, NULL, 0);
    expect("an odd length", to_new, OLD, 3, LIST_WORDS, ROOM, XHCI_DEVICE_ANSWER_SETTINGS, NULL, 0);
    expect("an empty list", to_new, OLD, 0, 0, ROOM, XHCI_DEVICE_ANSWER_SETTINGS, NULL, 0);
    expect("padding", to_old, PADDED, sizeof PADDED, LIST_WORDS, ROOM, XHCI_DEVICE_ANSWER_SETTINGS, NULL, 0);
    expect("another", to_old, OTHER, sizeof OTHER, LIST_WORDS, ROOM, XHCI_DEVICE_ANSWER_OTHER_CONFIGURATION, NULL, 0);
    speed = 4; /* no endpoint is there that would want a companion */
    expect("at SuperSpeed", to_old, NEW, sizeof NEW, LIST_WORDS, ROOM, XHCI_DEVICE_ANSWER_ACCEPTED, OLD, sizeof OLD);
    speed = 6;
    expect("no speed", to_new, OLD, 3, LIST_WORDS, ROOM, XHCI_DEVICE_ANSWER_SPEED, NULL, 0);
    expect("no speed and little room", to_old, OLD, 3, LIST_WORDS, ROOM - 1, XHCI_DEVICE_ANSWER_LOG_TOO_SHORT, NULL, 0);
    speed = 3;
    expect("unfound", to_old, OTHER, sizeof OTHER, LIST_WORDS - 1, ROOM, XHCI_DEVICE_ANSWER_SETTINGS, NULL, 0);
    return 0;
}
