/* A device for the tests: it answers a driven call's commands, and fails one of them. */
#ifndef TEST_H
#define TEST_H

#include "xhci_device_driver.h"

#include <stdio.h>
#include <stdlib.h>

static inline void expect(bool holds, const char *what) {
    if (!holds) {
        fprintf(stderr, "%s\n", what);
        exit(1);
    }
}

/* What the device sends: bytes of its configurations or, where there are none, words. */
struct device {
    uint8_t configurations;     /* that its descriptor counts */
    const uint8_t *bytes[3];
    size_t bytes_len[3];
    const uint32_t *words[3];
    size_t words_len[3];
    uint8_t packet;
    size_t descriptor_len, value_len;
    uint32_t failing;           /* the log word of a command that fails, with a code; 0: none */
    uint8_t code;
};

static inline void test_send(struct xhci_device_pending *call, const uint64_t *routes, void *bus) {
    const struct device *device = (const struct device *)bus;
    uint8_t index = call->command.first;
    uint8_t descriptor[18] = {18, 1, 0, 2, 0, 0, 0, 0, 0x34, 0x12, 1, 0, 0, 1, 0, 0, 0, 0};
    static const uint8_t value[1] = {0};
    (void)routes;
    descriptor[7] = device->packet;
    descriptor[17] = device->configurations;
    if (call->log[call->told] == device->failing) {
        xhci_device_pending_failed(call, device->code);
        return;
    }
    switch (call->command.operation) {
    case XHCI_DEVICE_OP_READ_HEADER:
        xhci_device_pending_read_bytes(call, descriptor, 8);
        break;
    case XHCI_DEVICE_OP_READ_CONFIGURATION:
        xhci_device_pending_read_bytes(call, value, device->value_len);
        break;
    case XHCI_DEVICE_OP_READ_DEVICE:
        xhci_device_pending_read_bytes(call, descriptor, device->descriptor_len);
        break;
    case XHCI_DEVICE_OP_READ_CONFIG:
        if (device->words_len[index] > 0) {
            xhci_device_pending_read_words(call, device->words[index], device->words_len[index]);
        } else {
            xhci_device_pending_read_bytes(call, device->bytes[index], device->bytes_len[index]);
        }
        break;
    default:
        xhci_device_pending_done(call);
    }
}

#endif
