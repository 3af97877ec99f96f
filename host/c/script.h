/* Random calls on one slot, each with all that the device and the bus will say: for driver_test.c and print_test.c. */
#ifndef SCRIPT_H
#define SCRIPT_H

#include "xhci_device_driver.h"

enum { N = 3, ROUTES = XHCI_DEVICE_ROUTES_OF_SLOT * (N + 1), MOST_CONFIGURATIONS = 12, OUTCOMES = 64, MOST_WORDS = 16 };

/* The kinds of calls. */
enum { A_BRING_UP, A_CLAIM, A_RELEASE, A_SET_CONFIGURATION, A_HUB_UPDATE, A_DISCONNECT, A_COMMIT };

/* What one slot and the table hold. Of the table a word more than it has is lent now and then, and a context of
 * more bytes than any. */
struct world {
    uint64_t image[XHCI_DEVICE_RECORD_WORDS];
    uint8_t ctx[XHCI_DEVICE_CONTEXT_BYTES_64 + 32];
    size_t ctx_len;
    uint64_t routes[ROUTES + 1];
};

struct script {
    int kind;
    struct xhci_device_attached attached;
    uint64_t hubs[2];
    uint8_t interface, alternate;   /* interface: also the value, the number of ports */
    bool multi;
    uint32_t ns;
    uint64_t rings[8];
    struct xhci_device_asked asked;
    uint64_t drawn[XHCI_DEVICE_EP_ROOM];
    uint8_t header[12];
    size_t header_len;
    uint8_t value;
    size_t configurations[MOST_CONFIGURATIONS];
    size_t count;
    uint8_t outcomes[OUTCOMES];
    size_t outcomes_len;
};

#ifdef __cplusplus
extern "C" {
#endif

uint64_t any(void);
size_t below(size_t n);
uint8_t any_byte(void);

/* A slot that was never brought up. */
void begin_anew(struct world *w);

/* A call on a record that is usable or not, up or not. */
void any_script(struct script *s, bool usable, bool up);

/* The words of one of the configurations that scripts have, with their companions at speeds 4 and 5. */
size_t words_of(size_t which, uint8_t speed, uint32_t *words);

/* Whether it can be used. */
bool can_be_used(size_t which);

void begin(struct xhci_device_pending *call, struct world *w, const struct script *s);

/* Tells the outcome of the command that is to be sent, if the script, which is the bus, has one. */
void bus_send(struct xhci_device_pending *call, const uint64_t *routes, void *bus);

#ifdef __cplusplus
}
#endif

#endif
