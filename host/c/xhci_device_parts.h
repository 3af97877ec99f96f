/* What the files of the driver share: xhci_device_driver.c, xhci_device_learned.c, xhci_device_ground.c, xhci_device_print.c. */
#ifndef XHCI_DEVICE_PARTS_H
#define XHCI_DEVICE_PARTS_H

#include "xhci_device_driver.h"

#ifdef __cplusplus
extern "C" {
#endif

enum { BRING_UP, CLAIM, COMMIT, RELEASE, SET_CONFIGURATION, HUB_UPDATE, DISCONNECT };

/* Takes what a command read, bytes or words. False where it cannot be used: `unreadable` says why. */
bool xhci_device_learn(struct xhci_device_pending *call, const uint8_t *bytes, size_t bytes_len, const uint32_t *words,
                       size_t words_len);

/* Gives up what the last command read, since the bring-up was refused with it: with 4, or with 26. */
void xhci_device_unlearn(struct xhci_device_pending *call);

/* The byte where the first ground stands on which bytes of a device of a speed are malformed; `len`: they are not. */
size_t xhci_device_malformed_byte(const uint8_t *bytes, size_t len, uint8_t speed);

/* The words of bytes that are not malformed, one more than a list has room for at most; how many there are in all. */
size_t xhci_device_words_of_bytes(const uint8_t *bytes, size_t len, uint8_t speed,
                                  uint32_t words[XHCI_DEVICE_LIST_ROOM + 1]);

/* The first byte of the first descriptor with which companions do not fit, of bytes that are not malformed; `len`: none. */
size_t xhci_device_companion_byte(const uint8_t *bytes, size_t len, uint8_t speed);

/* The first word with which companions do not fit; `len`: none. */
size_t xhci_device_companion_word(const uint32_t *list, size_t len);

/* The first word with which a list is not valid, whatever its companions; `len`: none. */
size_t xhci_device_invalid_word(const uint32_t *list, size_t len, uint8_t speed);

#ifdef __cplusplus
}
#endif

#endif
