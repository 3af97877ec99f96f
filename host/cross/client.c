/* The archives for this machine, whose functions run in the process that XHCI_DEVICE_REMOTE names (server.c). */
#include "remote.h"

#include <stdio.h>
#include <stdlib.h>
#include <string.h>
#include <unistd.h>

static int to_server = -1, from_server = -1;

static void fail(const char *what) {
    fprintf(stderr, "client.c: %s\n", what);
    exit(3);
}

static void start_server(void) {
    int in[2], out[2];
    const char *command = getenv("XHCI_DEVICE_REMOTE");
    if (command == NULL || pipe(in) != 0 || pipe(out) != 0) {
        fail("XHCI_DEVICE_REMOTE names no server");
    }
    pid_t child = fork();
    if (child < 0) {
        fail("no process for the server");
    }
    if (child == 0) {
        dup2(in[0], 0);
        dup2(out[1], 1);
        close(in[0]), close(in[1]), close(out[0]), close(out[1]);
        execl("/bin/sh", "sh", "-c", command, (char *)NULL);
        _exit(127);
    }
    close(in[0]), close(out[1]);
    to_server = in[1];
    from_server = out[0];
}

static void put(const void *from, size_t bytes) {
    const unsigned char *at = from;
    while (bytes > 0) {
        ssize_t done = write(to_server, at, bytes);
        if (done <= 0) {
            fail("the server has ended");
        }
        at += done;
        bytes -= (size_t)done;
    }
}

static void get(void *to, size_t bytes) {
    unsigned char *at = to;
    while (bytes > 0) {
        ssize_t got = read(from_server, at, bytes);
        if (got <= 0) {
            fail("the server has ended");
        }
        at += got;
        bytes -= (size_t)got;
    }
}

/* A request as one block, which is written at once. */
static void send_request(const struct request *r, void *const buffers[BUFFERS]) {
    static unsigned char *block;
    static size_t room;
    size_t bytes = sizeof *r;
    for (int i = 0; i < BUFFERS; i++) {
        bytes += r->count[i] * size_of[i];
    }
    if (bytes > room) {
        free(block);
        room = 2 * bytes;
        block = malloc(room);
        if (block == NULL) {
            fail("no memory");
        }
    }
    memcpy(block, r, sizeof *r);
    bytes = sizeof *r;
    for (int i = 0; i < BUFFERS; i++) {
        if (r->count[i] > 0) {
            memcpy(block + bytes, buffers[i], r->count[i] * size_of[i]);
            bytes += r->count[i] * size_of[i];
        }
    }
    put(block, bytes);
}

static struct reply remote(const struct request *r, void *const buffers[BUFFERS]) {
    struct reply reply;
    if (to_server < 0) {
        start_server();
    }
    send_request(r, buffers);
    get(&reply, sizeof reply);
    for (int i = 0; i < WRITTEN && r->function <= TURN; i++) {
        get(buffers[i], r->count[i] * size_of[i]);
    }
    return reply;
}

static struct xhci_device_answered call(const struct request *r, void *const buffers[BUFFERS]) {
    struct reply reply = remote(r, buffers);
    return (struct xhci_device_answered){reply.answer, reply.code, reply.count};
}

#define LENT                                                                                                      \
    uint64_t *image, size_t image_len, uint8_t *ctx, size_t ctx_len, uint64_t *routes, size_t routes_len,          \
        uint32_t *log, size_t log_len, const uint8_t *outcomes, size_t outcomes_len

#define CALL(FUNCTION)                                                                      \
    struct request r = {FUNCTION, {image_len, ctx_len, routes_len, log_len, outcomes_len}, {0}}; \
    void *buffers[BUFFERS] = {image, ctx, routes, log, (void *)outcomes}

struct xhci_device_answered xhci_device_bring_up(LENT, const uint64_t *rings, size_t rings_len, const uint64_t *hubs,
    size_t hubs_len, const uint32_t *list, size_t list_len, uint8_t slot, size_t n, uint8_t speed, uint8_t has_parent,
    size_t parent, uint8_t port, uint8_t root_port, size_t header, uint8_t packet, uint8_t value) {
    CALL(BRING_UP);
    const uint64_t number[NUMBERS] = {slot, n, speed, has_parent, parent, port, root_port, header, packet, value};
    memcpy(r.number, number, sizeof number);
    r.count[RINGS] = rings_len;
    r.count[HUBS] = hubs_len;
    r.count[LIST] = list_len;
    buffers[RINGS] = (void *)rings;
    buffers[HUBS] = (void *)hubs;
    buffers[LIST] = (void *)list;
    return call(&r, buffers);
}

struct xhci_device_answered xhci_device_claim(LENT, uint8_t interface, uint8_t alternate) {
    CALL(CLAIM);
    r.number[0] = interface;
    r.number[1] = alternate;
    return call(&r, buffers);
}

struct xhci_device_answered xhci_device_commit(LENT, uint8_t interface, uint8_t alternate, uint32_t drops, uint32_t adds,
    const uint64_t *rings, size_t rings_len) {
    CALL(COMMIT);
    const uint64_t number[4] = {interface, alternate, drops, adds};
    memcpy(r.number, number, sizeof number);
    r.count[RINGS] = rings_len;
    buffers[RINGS] = (void *)rings;
    return call(&r, buffers);
}

struct xhci_device_asked xhci_device_ask(const uint64_t *image, size_t image_len, size_t ctx_len, size_t routes_len,
    size_t log_len, uint8_t interface, uint8_t alternate, uint64_t *rings, size_t rings_len) {
    struct request r = {ASK, {image_len}, {ctx_len, routes_len, log_len, interface, alternate}};
    void *buffers[BUFFERS] = {(void *)image};
    struct xhci_device_asked asked;
    r.count[RINGS] = rings_len;
    buffers[RINGS] = rings;
    remote(&r, buffers);
    get(&asked, sizeof asked);
    get(rings, rings_len * size_of[RINGS]);
    return asked;
}

struct xhci_device_reason xhci_device_why(const uint64_t *image, size_t image_len, uint8_t interface, uint8_t alternate,
    uint32_t answer, const uint32_t *log, size_t log_len, const uint8_t *outcomes, size_t outcomes_len) {
    struct request r = {WHY, {image_len}, {interface, alternate, answer}};
    void *buffers[BUFFERS] = {(void *)image};
    struct xhci_device_reason reason;
    r.count[LOG] = log_len;
    r.count[OUTCOMES] = outcomes_len;
    buffers[LOG] = (void *)log;
    buffers[OUTCOMES] = (void *)outcomes;
    remote(&r, buffers);
    get(&reason, sizeof reason);
    return reason;
}

struct xhci_device_placed xhci_device_block(size_t input_len, size_t output_len, uint8_t from_output, uint8_t dci) {
    struct request r = {BLOCK, {0}, {input_len, output_len, from_output, dci}};
    void *buffers[BUFFERS] = {0};
    struct xhci_device_placed placed;
    remote(&r, buffers);
    get(&placed, sizeof placed);
    return placed;
}

struct xhci_device_chosen xhci_device_choose(
    const uint64_t *image, size_t image_len, const uint8_t *names, size_t names_len, uint32_t longest) {
    struct request r = {CHOOSE, {image_len}, {longest}};
    void *buffers[BUFFERS] = {(void *)image};
    struct xhci_device_chosen chosen;
    struct reply reply;
    r.count[OUTCOMES] = names_len;
    buffers[OUTCOMES] = (void *)names;
    reply = remote(&r, buffers);
    chosen.answer = reply.answer;
    memcpy(chosen.alternates, &reply.value, sizeof chosen.alternates);
    return chosen;
}

/* The dispatcher is written in place. */
static struct reply dispatch(enum function function, struct xhci_device_dispatcher *dispatcher, uint8_t slot) {
    struct request r = {function, {0}, {slot}};
    void *buffers[BUFFERS] = {0};
    r.count[CTX] = sizeof *dispatcher;
    buffers[CTX] = dispatcher;
    return remote(&r, buffers);
}

struct xhci_device_dispatcher xhci_device_new_dispatcher(void) {
    struct xhci_device_dispatcher dispatcher = {{0}, 0, 0};
    dispatch(NEW_DISPATCHER, &dispatcher, 0);
    return dispatcher;
}

struct xhci_device_submitted xhci_device_submit(struct xhci_device_dispatcher dispatcher, uint8_t slot) {
    uint32_t answer = dispatch(SUBMIT, &dispatcher, slot).answer;
    return (struct xhci_device_submitted){dispatcher, answer};
}

struct xhci_device_turned xhci_device_turn(struct xhci_device_dispatcher dispatcher) {
    struct reply reply = dispatch(TURN, &dispatcher, 0);
    return (struct xhci_device_turned){dispatcher, reply.code != 0, (uint8_t)reply.count};
}

struct xhci_device_answered xhci_device_release(LENT, uint8_t interface) {
    CALL(RELEASE);
    r.number[0] = interface;
    return call(&r, buffers);
}

struct xhci_device_answered xhci_device_set_configuration(LENT, uint8_t value) {
    CALL(SET_CONFIGURATION);
    r.number[0] = value;
    return call(&r, buffers);
}

struct xhci_device_answered xhci_device_hub_update(LENT, uint8_t ports, uint8_t multi, uint32_t ns) {
    CALL(HUB_UPDATE);
    r.number[0] = ports;
    r.number[1] = multi;
    r.number[2] = ns;
    return call(&r, buffers);
}

struct xhci_device_answered xhci_device_disconnect(LENT) {
    CALL(DISCONNECT);
    return call(&r, buffers);
}

struct xhci_device_answered xhci_device_read_descriptors(
    const uint8_t *bytes, size_t bytes_len, uint8_t speed, uint32_t *words, size_t words_len) {
    struct request r = {READ_DESCRIPTORS, {0}, {speed}};
    void *buffers[BUFFERS] = {0};
    r.count[OUTCOMES] = bytes_len;
    r.count[LOG] = words_len;
    buffers[OUTCOMES] = (void *)bytes;
    buffers[LOG] = words;
    return call(&r, buffers);
}

struct xhci_device_answered xhci_device_write_descriptors(
    const uint32_t *list, size_t list_len, uint8_t speed, uint8_t *bytes, size_t bytes_len) {
    struct request r = {WRITE_DESCRIPTORS, {0}, {speed}};
    void *buffers[BUFFERS] = {0};
    r.count[LIST] = list_len;
    r.count[CTX] = bytes_len;
    buffers[LIST] = (void *)list;
    buffers[CTX] = bytes;
    return call(&r, buffers);
}

static struct xhci_device_answered convert(enum function function, const uint8_t *settings, size_t settings_len,
    const uint32_t *list, size_t list_len, uint8_t speed, uint8_t *bytes, size_t bytes_len) {
    struct request r = {function, {0}, {speed}};
    void *buffers[BUFFERS] = {0};
    r.count[OUTCOMES] = settings_len;
    r.count[LIST] = list_len;
    r.count[CTX] = bytes_len;
    buffers[OUTCOMES] = (void *)settings;
    buffers[LIST] = (void *)list;
    buffers[CTX] = bytes;
    return call(&r, buffers);
}

struct xhci_device_answered xhci_device_settings_to_new(
    const uint8_t *settings, size_t settings_len, const uint32_t *list, size_t list_len, uint8_t speed,
    uint8_t *bytes, size_t bytes_len) {
    return convert(SETTINGS_TO_NEW, settings, settings_len, list, list_len, speed, bytes, bytes_len);
}

struct xhci_device_answered xhci_device_settings_to_old(
    const uint8_t *settings, size_t settings_len, const uint32_t *list, size_t list_len, uint8_t speed,
    uint8_t *bytes, size_t bytes_len) {
    return convert(SETTINGS_TO_OLD, settings, settings_len, list, list_len, speed, bytes, bytes_len);
}

static uint64_t asked(enum function function, const uint64_t *image, size_t image_len) {
    struct request r = {function, {image_len}, {0}};
    void *buffers[BUFFERS] = {(void *)image};
    return remote(&r, buffers).value;
}

bool xhci_device_is_usable(const uint64_t *image, size_t image_len) {
    return asked(IS_USABLE, image, image_len);
}

bool xhci_device_is_up(const uint64_t *image, size_t image_len) {
    return asked(IS_UP, image, image_len);
}

bool xhci_device_is_sound(const uint64_t *image, size_t image_len) {
    return asked(IS_SOUND, image, image_len);
}

size_t xhci_device_record_words(void) {
    return asked(RECORD_WORDS, NULL, 0);
}

struct xhci_device_command xhci_device_command_of(uint32_t word) {
    struct request r = {COMMAND_OF, {0}, {word}};
    void *buffers[BUFFERS] = {0};
    uint64_t value = remote(&r, buffers).value;
    return (struct xhci_device_command){(uint8_t)(value >> 16), (uint8_t)(value >> 8), (uint8_t)value};
}
