/* Reads that a driven bring-up cannot use: each cause with its place; and over random bytes and lists a place is found exactly
 * where the library refuses. Prints nothing; a wrong answer ends it with 1. */
#include "test.h"
#include "xhci_device_parts.h"

#include <string.h>

enum { N = 1, ROUTES = XHCI_DEVICE_ROUTES_OF_SLOT * (N + 1) };

static const uint64_t RINGS[] = {0x1000};

/* Configuration 1, interface 0 with endpoint 81, 25 bytes; the same with a companion, 31 bytes. */
#define CONFIGURATION(total) 9, 2, total, 0, 1, 1, 0, 0x80, 50
#define INTERFACE(endpoints) 9, 4, 0, 0, endpoints, 255, 0, 0, 0
#define ENDPOINT 7, 5, 0x81, 3, 64, 0, 4
static const uint8_t PLAIN[] = {CONFIGURATION(25), INTERFACE(1), ENDPOINT};
static const uint8_t SUPER[] = {CONFIGURATION(31), INTERFACE(1), ENDPOINT, 6, 48, 3, 0, 8, 0};
static const uint32_t WORDS[] = {0x00800000, 0x40000000};

static struct device device;
static struct xhci_device_pending call;
static uint8_t speed;

/* A device of two configurations, the first of which, two words, can be used. */
static void begin(void) {
    memset(&device, 0, sizeof device);
    device.configurations = 2;
    device.packet = 64;
    device.descriptor_len = 18;
    device.value_len = 1;
    device.words[0] = device.words[1] = WORDS;
    device.words_len[0] = device.words_len[1] = 2;
    speed = 3;
}

static void second_bytes(const uint8_t *bytes, size_t len) {
    begin();
    device.words_len[1] = 0;
    device.bytes[1] = bytes;
    device.bytes_len[1] = len;
}

static void second_words(const uint32_t *words, size_t len) {
    begin();
    device.words[1] = words;
    device.words_len[1] = len;
}

/* The call as it is printed, as far as there is room. */
static char printed[256];
static size_t printed_len;

static void put(char c, void *to) {
    (void)to;
    if (printed_len + 1 < sizeof printed) {
        printed[printed_len++] = c;
        printed[printed_len] = 0;
    }
}

/* What is told of a read behind the name of the call that is printed. */
static void is_told(const char *comment) {
    const char *line = strchr(printed, '\n') + 1;
    expect(strncmp(line, comment, strlen(comment)) == 0 && line[strlen(comment)] == '\n', comment);
}

static struct xhci_device_unreadable brought_up(uint32_t answer) {
    uint64_t image[XHCI_DEVICE_RECORD_WORDS] = {0}, routes[ROUTES] = {0};
    uint8_t ctx[XHCI_DEVICE_CONTEXT_BYTES_32] = {0};
    const struct xhci_device_attached attached = {1, N, speed, false, 0, 1, 1, RINGS, 1, NULL, 0};
    struct xhci_device_answered left;
    device.packet = speed > 3 ? 9 : 64;
    xhci_device_pending_bring_up(&call, image, ctx, sizeof ctx, &attached);
    left = xhci_device_pending_run(&call, routes, ROUTES, test_send, &device);
    printed_len = 0;
    xhci_device_pending_print(&call, put, NULL);
    expect(left.answer == answer && left.code == (answer == XHCI_DEVICE_ANSWER_FAILED ? XHCI_DEVICE_UNREADABLE : 0),
        "an answer of a bring-up");
    return xhci_device_pending_unreadable(&call);
}

static bool is_of(struct xhci_device_unreadable u, uint8_t operation, uint8_t index, uint32_t cause) {
    expect(call.log[call.told - 1] == ((uint32_t)operation << 28 | (uint32_t)index << 20), "the command that read it");
    return u.operation == operation && u.index == index && u.cause == cause;
}

static void counts(const char *what, uint8_t operation, uint8_t index, uint32_t cause, size_t had, size_t wanted) {
    struct xhci_device_unreadable u = brought_up(XHCI_DEVICE_ANSWER_FAILED);
    expect(is_of(u, operation, index, cause) && u.had == had && u.wanted == wanted && u.place == 0 && u.word == 0, what);
}

/* Of the second ReadConfig. */
static void stands(const char *what, uint32_t cause, size_t place, uint32_t word) {
    struct xhci_device_unreadable u = brought_up(XHCI_DEVICE_ANSWER_FAILED);
    expect(is_of(u, XHCI_DEVICE_OP_READ_CONFIG, 1, cause) && u.place == place && u.word == word && u.had == 0
            && u.wanted == 0,
        what);
}

static void is_malformed(const char *what, size_t at, uint8_t byte, size_t place) {
    uint8_t bytes[sizeof PLAIN];
    memcpy(bytes, PLAIN, sizeof PLAIN);
    bytes[at] = byte;
    second_bytes(bytes, sizeof bytes);
    stands(what, XHCI_DEVICE_UNREADABLE_MALFORMED, place, 0);
}

static void nothing(void) {
    begin();
    expect(brought_up(XHCI_DEVICE_ANSWER_ACCEPTED).operation == 0, "two configurations");
    is_told("bringup");
    second_bytes(PLAIN, sizeof PLAIN);
    expect(brought_up(XHCI_DEVICE_ANSWER_ACCEPTED).operation == 0, "one of them in bytes");
}

static void too_short(void) {
    begin();
    device.value_len = 0;
    counts("no value", XHCI_DEVICE_OP_READ_CONFIGURATION, 0, XHCI_DEVICE_UNREADABLE_TOO_SHORT, 0, 1);
    begin();
    device.descriptor_len = 17;
    counts("17 bytes", XHCI_DEVICE_OP_READ_DEVICE, 0, XHCI_DEVICE_UNREADABLE_TOO_SHORT, 17, 18);
    is_told("# ReadDevice: 17 bytes, and 18 are needed");
    second_bytes(NULL, 0);
    counts("no configuration", XHCI_DEVICE_OP_READ_CONFIG, 1, XHCI_DEVICE_UNREADABLE_TOO_SHORT, 0, 9);
    begin();
    device.configurations = 9;
    counts("nine configurations", XHCI_DEVICE_OP_READ_DEVICE, 0, XHCI_DEVICE_UNREADABLE_CONFIGURATIONS, 9, 8);
    is_told("# ReadDevice: 9 configurations, and 8 are allowed");
}

static void malformed(void) {
    static const uint8_t one[] = {9};
    is_malformed("a length below the type's size", 9, 8, 9);
    is_malformed("a length past the end", 18, 8, 18);
    is_malformed("a length of 0", 0, 0, 0);
    is_malformed("a total length", 2, 24, 2);
    is_malformed("a number of interfaces", 4, 2, 4);
    is_malformed("a number of endpoints", 13, 2, 13);
    is_malformed("packets bits of 3", 23, 0x18, 23);
    is_told("# ReadConfig 1: the descriptors are malformed at byte 23");
    second_bytes(one, sizeof one);
    stands("one byte", XHCI_DEVICE_UNREADABLE_MALFORMED, 0, 0);
    second_bytes(PLAIN, sizeof PLAIN - 1);
    stands("the end cut off", XHCI_DEVICE_UNREADABLE_MALFORMED, 18, 0);
}

static void no_list(void) {
    static const uint8_t no_type[] = {CONFIGURATION(25), INTERFACE(1), 7, 5, 0x81, 0, 64, 0, 4};
    static const uint8_t alone[] = {INTERFACE(1), ENDPOINT};
    static const uint32_t unused[] = {0x00800000, 0x40000001}, no_alternate[] = {0x00800000, 0xa3840410};
    second_bytes(no_type, sizeof no_type);
    stands("an endpoint's type 0", XHCI_DEVICE_UNREADABLE_LIST, 2 + 2, 0xa2040410);
    is_told("# ReadConfig 1: word a2040410 at place 4: the descriptor list is not valid");
    second_bytes(alone, sizeof alone);
    stands("no configuration first", XHCI_DEVICE_UNREADABLE_LIST, 2, 0x40000000);
    second_words(unused, 2);
    stands("an unused bit", XHCI_DEVICE_UNREADABLE_LIST, 2 + 1, 0x40000001);
    second_words(no_alternate, 2);
    stands("an endpoint without an alternate", XHCI_DEVICE_UNREADABLE_LIST, 2 + 1, 0xa3840410);
}

/* 33 interfaces over both configurations: the second one's last is too much. */
static void over_all(void) {
    uint32_t words[33] = {0x00800000}, i;
    for (i = 1; i < 33; i++) {
        words[i] = UINT32_C(0x40000000) | i << 22;
    }
    second_words(words, 33);
    stands("33 interfaces", XHCI_DEVICE_UNREADABLE_LIST, 2 + 32, 0x48000000);
    second_words(words, 32);
    expect(brought_up(XHCI_DEVICE_ANSWER_ACCEPTED).operation == 0, "32 interfaces");
}

static void companions(void) {
    static const uint32_t missing[] = {0x00800000, 0x40000000, 0xa3840410, 0x40004000},
                          elsewhere[] = {0x00800000, 0x40000000, 0xc0000000},
                          mult[] = {0x00800000, 0x40000000, 0xa3840410, 0xc1000000};
    static const uint8_t before_another[] = {CONFIGURATION(34), INTERFACE(1), ENDPOINT, 9, 4, 0, 1, 0, 255, 0, 0, 0};
    uint8_t bytes[sizeof SUPER];
    memcpy(bytes, SUPER, sizeof SUPER);
    second_bytes(bytes, sizeof bytes);
    speed = 4;
    expect(brought_up(XHCI_DEVICE_ANSWER_ACCEPTED).operation == 0, "a companion");
    bytes[27] = 16;
    stands("burst 16", XHCI_DEVICE_UNREADABLE_COMPANION, 25, 0);
    is_told("# ReadConfig 1: descriptor at byte 25: a companion is missing, misplaced or out of range");
    second_bytes(PLAIN, sizeof PLAIN);
    speed = 5;
    stands("no companion", XHCI_DEVICE_UNREADABLE_COMPANION, 18, 0);
    second_bytes(before_another, sizeof before_another);
    speed = 4;
    stands("none before an interface", XHCI_DEVICE_UNREADABLE_COMPANION, 18, 0);
    second_words(missing, 3);
    speed = 4;
    stands("a missing one", XHCI_DEVICE_UNREADABLE_COMPANION, 2 + 2, 0xa3840410);
    second_words(missing, 4);
    speed = 4;
    stands("one before an alternate", XHCI_DEVICE_UNREADABLE_COMPANION, 2 + 2, 0xa3840410);
    second_words(elsewhere, 3);
    speed = 4;
    stands("one elsewhere", XHCI_DEVICE_UNREADABLE_COMPANION, 2 + 2, 0xc0000000);
    second_words(mult, 4);
    speed = 4;
    stands("a mult", XHCI_DEVICE_UNREADABLE_COMPANION, 2 + 3, 0xc1000000);
    is_told("# ReadConfig 1: word c1000000 at place 5: a companion is missing, misplaced or out of range");
}

static void not_one(void) {
    static const uint32_t none[] = {0x40000000}, two[] = {0x00800000, 0x40000000, 0x00c00000};
    static const uint8_t twice[] = {CONFIGURATION(25), INTERFACE(1), ENDPOINT, 9, 2, 9, 0, 0, 2, 0, 0x80, 0};
    static const uint8_t other[] = {2, 11};
    second_words(none, 1);
    stands("an alternate first", XHCI_DEVICE_UNREADABLE_NOT_ONE, 2, 0x40000000);
    second_words(two, 3);
    stands("two configurations", XHCI_DEVICE_UNREADABLE_NOT_ONE, 2 + 2, 0x00c00000);
    second_bytes(twice, sizeof twice);
    stands("two in bytes", XHCI_DEVICE_UNREADABLE_NOT_ONE, 2 + 3, 0x00800000);
    second_bytes(other, sizeof other);
    stands("no word", XHCI_DEVICE_UNREADABLE_NOT_ONE, 2, 0);
    is_told("# ReadConfig 1: word 00000000 at place 2: not one configuration");
}

/* 255 words behind two are one too many; so are 257 in bytes. */
static void no_room(void) {
    static uint32_t words[255];
    static uint8_t bytes[9 + 256 * 9];
    size_t i;
    words[0] = 0x00800000;
    for (i = 1; i < 255; i++) {
        words[i] = 0x40000000;
    }
    second_words(words, 255);
    counts("255 words", XHCI_DEVICE_OP_READ_CONFIG, 1, XHCI_DEVICE_UNREADABLE_NO_ROOM, 257, 256);
    second_words(words, 254);
    expect(brought_up(XHCI_DEVICE_ANSWER_ACCEPTED).operation == 0, "254 words");
    bytes[0] = 9, bytes[1] = 2, bytes[2] = 9, bytes[3] = 9, bytes[4] = 1, bytes[5] = 2; /* 2,313 bytes */
    for (i = 9; i < sizeof bytes; i += 9) {
        bytes[i] = 9, bytes[i + 1] = 4;
    }
    second_bytes(bytes, sizeof bytes);
    counts("257 words in bytes", XHCI_DEVICE_OP_READ_CONFIG, 1, XHCI_DEVICE_UNREADABLE_NO_ROOM, 259, 256);
    is_told("# ReadConfig 1: 259 words, and 256 are allowed");
}

static uint64_t seed = 0x5EED0020;

static size_t below(size_t n) {
    seed = seed * UINT64_C(6364136223846793005) + 1442695040888963407u;
    return (size_t)((seed >> 33) % n);
}

/* Bytes of which a few are not as they were. */
static void any_bytes(size_t *found) {
    uint8_t bytes[sizeof SUPER + sizeof SUPER];
    uint32_t read[XHCI_DEVICE_LIST_ROOM], words[XHCI_DEVICE_LIST_ROOM + 1];
    size_t i, count, len = sizeof bytes, changes = below(4), at = (size_t)(1 + below(5));
    struct xhci_device_answered answered;
    memcpy(bytes, SUPER, sizeof SUPER);
    memcpy(bytes + sizeof SUPER, SUPER, sizeof SUPER);
    for (i = 0; i < changes; i++) {
        bytes[below(len)] = (uint8_t)below(below(2) == 0 ? 64 : 256);
    }
    answered = xhci_device_read_descriptors(bytes, len, (uint8_t)at, read, XHCI_DEVICE_LIST_ROOM);
    found[answered.answer]++;
    expect((xhci_device_malformed_byte(bytes, len, (uint8_t)at) < len) == (answered.answer == 20), "malformed bytes");
    if (answered.answer == 20) {
        return;
    }
    count = xhci_device_words_of_bytes(bytes, len, (uint8_t)at, words);
    expect((xhci_device_invalid_word(words, count, (uint8_t)at) < count) == (answered.answer == 4), "no list");
    expect(answered.answer != 0 || (count == answered.count && memcmp(words, read, count * sizeof words[0]) == 0), "words");
    if (answered.answer != 4 && at >= 4) {
        expect((xhci_device_companion_byte(bytes, len, (uint8_t)at) < len) == (answered.answer == 26), "companions");
    }
}

/* A list of random words for a device at SuperSpeed. */
static void any_list(size_t *found) {
    static const uint32_t pool[] = {0x00400000, 0x40000000, 0xa3840410, 0xa2c00404, 0xcc000800, 0xcc000800, 0xce000800,
        0xcf000800};
    uint32_t list[8] = {0x00400000, 0x40000000}, answer;
    uint8_t none[1] = {0}, bytes[XHCI_DEVICE_SETTINGS_BYTES];
    size_t i, len = 2 + below(7);
    for (i = 2; i < len; i++) {
        list[i] = pool[below(sizeof pool / sizeof pool[0])];
    }
    answer = xhci_device_settings_to_new(none, 0, list, len, 4, bytes, sizeof bytes).answer;
    found[answer]++;
    expect(answer == 4 || (xhci_device_companion_word(list, len) < len) == (answer == 26), "companions of a list");
}

static void found_where_refused(void) {
    size_t i, of_bytes[27] = {0}, of_lists[27] = {0};
    for (i = 0; i < 200000; i++) {
        any_bytes(of_bytes);
        any_list(of_lists);
    }
    expect(of_bytes[0] > 100 && of_bytes[4] > 100 && of_bytes[20] > 100 && of_bytes[26] > 100, "each answer to bytes");
    expect(of_lists[0] > 100 && of_lists[4] > 100 && of_lists[26] > 100, "each answer to lists");
}

int main(void) {
    nothing();
    too_short();
    malformed();
    no_list();
    over_all();
    companions();
    not_one();
    no_room();
    found_where_refused();
    return 0;
}
