/* A small pump driven from C: five programs on one processor, and a radio that must never reach the rate setpoint.
 * examples/rust/pump.rs is the same in Rust and prints the same lines (tests/firmware/run compares both with tests/firmware/pump.out).
 * In the repository's folder, after `tools/make-library firmware`:
 *
 *     gcc -std=c99 -Wall -Wextra -pedantic -Iinclude -o /tmp/pump examples/c/pump.c target/staticlib/libfirmware.a && /tmp/pump
 */
#include <inttypes.h>
#include <stdio.h>
#include <string.h>

#include "wardlatch.h"

/* The pump's threads. Each is served by the thread object whose handle is its own number. */
enum { SUPERVISOR, RADIO, DISPLAY, DRUG_LIBRARY, MOTOR };

/* Its other objects, by their handles. */
enum { RATE_SETPOINT = 10, ALARM = 11 };

/* Its domains: the radio's memory, the display's, and the dosing memory of drug library and motor. */
enum { RADIO_MEMORY, DISPLAY_MEMORY, DOSE_MEMORY };

#define RADIO_BUFFER 0x20000000u
#define RATE_WORD 0x20001000u
#define DRUG_TABLE 0x20002000u
#define SCREEN 0x20008000u

struct latch {
    uint64_t objects[WARDLATCH_OBJECT_NUMBERS];
    uint32_t threads[WARDLATCH_THREAD_NUMBERS];
    uint32_t slots[WARDLATCH_SLOT_NUMBERS];
};

struct call {
    uint8_t op, caller;
    uint16_t a;
    uint32_t b, c, d;
};

static const char *name(uint32_t answer) {
    static const char *const names[] = {"OK",     "EINVAL", "EPERM", "EBADF", "EADDRINUSE", "ENOSPC", "ENOENT",
                                        "SHORT", "MAGIC",  "VALUE", "NOPLAN", "ROOM",     "DIFFERS"};
    return answer <= WARDLATCH_DIFFERS ? names[answer] : "?";
}

static void put(uint8_t *to, uint32_t number, int bytes) {
    for (int k = 0; k < bytes; k++) to[k] = (uint8_t)(number >> 8 * k);
}

static void encode(uint8_t *to, struct call c) {
    to[0] = c.op;
    to[1] = c.caller;
    put(to + 2, c.a, 2);
    put(to + 4, c.b, 4);
    put(to + 8, c.c, 4);
    put(to + 12, c.d, 4);
}

static uint32_t read_image(struct latch *l, const uint8_t *image, size_t length, size_t *left) {
    return wardlatch_read(image, length, l->objects, WARDLATCH_OBJECT_NUMBERS, l->threads, WARDLATCH_THREAD_NUMBERS, l->slots, WARDLATCH_SLOT_NUMBERS, left);
}

/* The image that the pump starts from: one object and one thread, the supervisor, and eight empty domains. */
static void boot(struct latch *l) {
    uint8_t image[WARDLATCH_IMAGE_LEAST + 12 + 8] = {0};
    size_t left;
    memcpy(image, "WLATCH01", 8);
    put(image + 8, 1, 2);
    image[10] = 1;
    image[11] = WARDLATCH_DOMAINS;
    put(image + 12, sizeof image, 4);
    image[16] = WARDLATCH_THREAD;
    image[17] = WARDLATCH_INITIALISED;
    image[28] = SUPERVISOR;
    image[29] = 1;
    image[30] = WARDLATCH_NO_DOMAIN;
    uint32_t answer = read_image(l, image, sizeof image, &left);
    printf("start: an image of %u bytes is read: %s, %u bytes behind it\n", (unsigned)sizeof image, name(answer), (unsigned)left);
}

/* What the supervisor does once: threads, objects, rights, memory. */
static void set_up(struct latch *l) {
    static const struct call calls[] = {
        {WARDLATCH_OP_CREATE_OBJECT, SUPERVISOR, RADIO, WARDLATCH_THREAD, 0, 0},
        {WARDLATCH_OP_CREATE_OBJECT, SUPERVISOR, DISPLAY, WARDLATCH_THREAD, 0, 0},
        {WARDLATCH_OP_CREATE_OBJECT, SUPERVISOR, DRUG_LIBRARY, WARDLATCH_THREAD, 0, 0},
        {WARDLATCH_OP_CREATE_OBJECT, SUPERVISOR, MOTOR, WARDLATCH_THREAD, 0, 0},
        {WARDLATCH_OP_CREATE_THREAD, SUPERVISOR, RADIO, RADIO, 0, 0},
        {WARDLATCH_OP_CREATE_THREAD, SUPERVISOR, DISPLAY, DISPLAY, 0, 0},
        {WARDLATCH_OP_CREATE_THREAD, SUPERVISOR, DRUG_LIBRARY, DRUG_LIBRARY, 0, 0},
        {WARDLATCH_OP_CREATE_THREAD, SUPERVISOR, MOTOR, MOTOR, 0, 0},
        {WARDLATCH_OP_CREATE_OBJECT, SUPERVISOR, RATE_SETPOINT, WARDLATCH_MUTEX, 0, 0},
        {WARDLATCH_OP_INIT, SUPERVISOR, RATE_SETPOINT, 0, 0, 0},
        {WARDLATCH_OP_GRANT, SUPERVISOR, RATE_SETPOINT, DRUG_LIBRARY, 0, 0},
        {WARDLATCH_OP_GRANT, SUPERVISOR, RATE_SETPOINT, MOTOR, 0, 0},
        {WARDLATCH_OP_CREATE_OBJECT, SUPERVISOR, ALARM, WARDLATCH_EVENT, 0, 0},
        {WARDLATCH_OP_INIT, SUPERVISOR, ALARM, 0, 0, 0},
        {WARDLATCH_OP_MAKE_PUBLIC, SUPERVISOR, ALARM, 0, 0, 0},
        {WARDLATCH_OP_ADD_PARTITION, SUPERVISOR, RADIO_MEMORY, RADIO_BUFFER, 4096, 3},
        {WARDLATCH_OP_ADD_PARTITION, SUPERVISOR, DISPLAY_MEMORY, SCREEN, 8192, 3},
        {WARDLATCH_OP_ADD_PARTITION, SUPERVISOR, DOSE_MEMORY, RATE_WORD, 4096, 3},
        {WARDLATCH_OP_ADD_PARTITION, SUPERVISOR, DOSE_MEMORY, DRUG_TABLE, 1024, 1},
        {WARDLATCH_OP_ASSIGN, SUPERVISOR, 0, RADIO, RADIO_MEMORY, 0},
        {WARDLATCH_OP_ASSIGN, SUPERVISOR, 0, DISPLAY, DISPLAY_MEMORY, 0},
        {WARDLATCH_OP_ASSIGN, SUPERVISOR, 0, DRUG_LIBRARY, DOSE_MEMORY, 0},
        {WARDLATCH_OP_ASSIGN, SUPERVISOR, 0, MOTOR, DOSE_MEMORY, 0},
    };
    enum { N = sizeof calls / sizeof calls[0] };
    uint8_t log[N * WARDLATCH_CALL_BYTES];
    uint32_t out[2 * N];
    size_t answers;
    unsigned ok = 0;
    for (int k = 0; k < N; k++) encode(log + k * WARDLATCH_CALL_BYTES, calls[k]);
    uint32_t answer = wardlatch_run(l->objects, WARDLATCH_OBJECT_NUMBERS, l->threads, WARDLATCH_THREAD_NUMBERS, l->slots, WARDLATCH_SLOT_NUMBERS,
                                    log, sizeof log, out, 2 * N, &answers);
    for (size_t k = 0; k < answers; k++) ok += out[2 * k] == WARDLATCH_OK;
    printf("set up: a log of %u calls is run: %s, %u answers, %u of them OK\n", (unsigned)N, name(answer), (unsigned)answers, ok);
}

/* Hears the first `length` bytes of a call and prints what the latch says. */
static void hear(struct latch *l, const char *what, struct call c, size_t length) {
    uint8_t bytes[WARDLATCH_CALL_BYTES];
    uint32_t value;
    encode(bytes, c);
    uint32_t answer = wardlatch_call(l->objects, WARDLATCH_OBJECT_NUMBERS, l->threads, WARDLATCH_THREAD_NUMBERS, l->slots, WARDLATCH_SLOT_NUMBERS,
                                     bytes, length, &value);
    printf("%s: %s", what, name(answer));
    if (value != 0) printf(", value 0x%08" PRIX32, value);
    printf("\n");
}

static void ask(struct latch *l, const char *what, uint8_t op, uint8_t caller, uint16_t a, uint32_t b, uint32_t c, uint32_t d) {
    struct call call = {op, caller, a, b, c, d};
    hear(l, what, call, WARDLATCH_CALL_BYTES);
}

/* Everything that the radio might try. */
static void radio_tries(struct latch *l) {
    struct call cut = {WARDLATCH_OP_VALIDATE, RADIO, RATE_SETPOINT, WARDLATCH_MUTEX, 1, 0};
    ask(l, "radio asks for the rate setpoint", WARDLATCH_OP_VALIDATE, RADIO, RATE_SETPOINT, WARDLATCH_MUTEX, 0, 0);
    ask(l, "radio asks for it as any type, in any condition", WARDLATCH_OP_VALIDATE, RADIO, RATE_SETPOINT, WARDLATCH_ANY, 1, 0);
    ask(l, "radio asks for it as a semaphore", WARDLATCH_OP_VALIDATE, RADIO, RATE_SETPOINT, WARDLATCH_SEM, 1, 0);
    ask(l, "radio grants it to itself", WARDLATCH_OP_GRANT, RADIO, RATE_SETPOINT, RADIO, 0, 0);
    ask(l, "radio makes it public", WARDLATCH_OP_MAKE_PUBLIC, RADIO, RATE_SETPOINT, 0, 0, 0);
    ask(l, "radio recycles it", WARDLATCH_OP_RECYCLE, RADIO, RATE_SETPOINT, 0, 0, 0);
    ask(l, "radio inherits from the motor", WARDLATCH_OP_INHERIT, RADIO, 0, MOTOR, RADIO, 0);
    ask(l, "radio assigns itself the dosing memory", WARDLATCH_OP_ASSIGN, RADIO, 0, RADIO, DOSE_MEMORY, 0);
    ask(l, "radio makes a call that is none", 99, RADIO, 0, 0, 0, 0);
    hear(l, "radio makes a call that is cut off", cut, 12);
    ask(l, "radio writes 64 bytes of its own buffer", WARDLATCH_OP_MEMORY_CHECK, RADIO, 0, RADIO_BUFFER, 64, 1);
    ask(l, "radio writes at the rate setpoint's address", WARDLATCH_OP_MEMORY_CHECK, RADIO, 0, RATE_WORD, 4, 1);
    ask(l, "radio writes from its buffer's end into it", WARDLATCH_OP_MEMORY_CHECK, RADIO, 0, RADIO_BUFFER + 4092, 8, 1);
    ask(l, "radio raises the alarm, which is public", WARDLATCH_OP_VALIDATE, RADIO, ALARM, WARDLATCH_EVENT, 0, 0);
}

/* Those who dose may; what is read-only stays so; and a thread that ends takes its rights with it. */
static void dosing(struct latch *l) {
    ask(l, "drug library asks for the rate setpoint", WARDLATCH_OP_VALIDATE, DRUG_LIBRARY, RATE_SETPOINT, WARDLATCH_MUTEX, 0, 0);
    ask(l, "drug library grants it to the radio", WARDLATCH_OP_GRANT, DRUG_LIBRARY, RATE_SETPOINT, RADIO, 0, 0);
    ask(l, "motor asks for the rate setpoint", WARDLATCH_OP_VALIDATE, MOTOR, RATE_SETPOINT, WARDLATCH_MUTEX, 0, 0);
    ask(l, "motor reads across rate setpoint and drug table", WARDLATCH_OP_MEMORY_CHECK, MOTOR, 0, RATE_WORD + 4000, 200, 0);
    ask(l, "motor writes across both", WARDLATCH_OP_MEMORY_CHECK, MOTOR, 0, RATE_WORD + 4000, 200, 1);
    ask(l, "motor exits", WARDLATCH_OP_EXIT, MOTOR, 0, 0, 0, 0);
    ask(l, "motor asks again, dead", WARDLATCH_OP_VALIDATE, MOTOR, RATE_SETPOINT, WARDLATCH_MUTEX, 0, 0);
    ask(l, "supervisor starts the motor anew", WARDLATCH_OP_CREATE_THREAD, SUPERVISOR, MOTOR, MOTOR, 0, 0);
    ask(l, "motor asks again, without a right", WARDLATCH_OP_VALIDATE, MOTOR, RATE_SETPOINT, WARDLATCH_MUTEX, 0, 0);
    ask(l, "supervisor asks for the rate setpoint", WARDLATCH_OP_VALIDATE, SUPERVISOR, RATE_SETPOINT, WARDLATCH_ANY, 1, 0);
}

/* The state as bytes and back. */
static void images(const struct latch *l) {
    uint8_t image[WARDLATCH_IMAGE_MOST + 8];
    struct latch again;
    uint32_t written;
    size_t left;
    memset(image, 0, sizeof image);
    memset(&again, 0, sizeof again);
    uint32_t answer = wardlatch_write(l->objects, WARDLATCH_OBJECT_NUMBERS, l->threads, WARDLATCH_THREAD_NUMBERS, l->slots, WARDLATCH_SLOT_NUMBERS,
                                      image, 100, &written);
    printf("image: written into 100 bytes: %s, %" PRIu32 " bytes\n", name(answer), written);
    answer = wardlatch_write(l->objects, WARDLATCH_OBJECT_NUMBERS, l->threads, WARDLATCH_THREAD_NUMBERS, l->slots, WARDLATCH_SLOT_NUMBERS,
                             image, sizeof image, &written);
    printf("image: written into %u bytes: %s, %" PRIu32 " bytes\n", (unsigned)sizeof image, name(answer), written);
    answer = read_image(&again, image, written - 1, &left);
    printf("image: read without its last byte: %s\n", name(answer));
    answer = read_image(&again, image, written + 8, &left);
    printf("image: read back with 8 bytes behind it: %s, %u bytes behind it, the same state: %s\n", name(answer), (unsigned)left,
           memcmp(l, &again, sizeof again) == 0 ? "yes" : "no");
    image[17] |= 16;
    answer = read_image(&again, image, written, &left);
    printf("image: read with a flag that is none: %s\n", name(answer));
    image[0] = 'V';
    answer = read_image(&again, image, written, &left);
    printf("image: read with another first letter: %s\n", name(answer));
}

/* The dosing memory as words for the MPU, and the checker's word on them. */
static void regions(const struct latch *l) {
    const uint32_t *dose = l->slots + WARDLATCH_DOMAIN_NUMBERS * DOSE_MEMORY;
    uint32_t plan[WARDLATCH_PLAN_MOST];
    uint32_t words;
    uint32_t answer = wardlatch_plan(dose, WARDLATCH_DOMAIN_NUMBERS, 1, plan, WARDLATCH_PLAN_MOST, &words);
    printf("MPU: the dosing memory in 1 region: %s\n", name(answer));
    answer = wardlatch_plan(dose, WARDLATCH_DOMAIN_NUMBERS, 8, plan, WARDLATCH_PLAN_MOST, &words);
    printf("MPU: the dosing memory in 8 regions: %s, %" PRIu32 " words\n", name(answer), words);
    for (uint32_t k = 0; k + 1 < words; k += 2) printf("MPU: RBAR 0x%08" PRIX32 " RASR 0x%08" PRIX32 "\n", plan[k], plan[k + 1]);
    printf("MPU: the plan is checked: %s\n", name(wardlatch_check(dose, WARDLATCH_DOMAIN_NUMBERS, plan, words)));
    printf("MPU: without its last region: %s\n", name(wardlatch_check(dose, WARDLATCH_DOMAIN_NUMBERS, plan, words - 2)));
    printf("MPU: without its last word: %s\n", name(wardlatch_check(dose, WARDLATCH_DOMAIN_NUMBERS, plan, words - 1)));
    plan[1] = (plan[1] & ~0x07000000u) | 0x06000000u;
    printf("MPU: with the setpoint read-only: %s\n", name(wardlatch_check(dose, WARDLATCH_DOMAIN_NUMBERS, plan, words)));
}

/* A domain of the firmware's own, by itself. */
static void domain_alone(void) {
    uint32_t domain[WARDLATCH_DOMAIN_NUMBERS] = {0};
    uint32_t plan[WARDLATCH_PLAN_MOST];
    uint32_t slot, start, size, attr, value;
    uint32_t answer = wardlatch_domain_add(domain, WARDLATCH_DOMAIN_NUMBERS, SCREEN, 100, 3, &slot);
    printf("domain: 100 bytes are added: %s, slot %" PRIu32 "\n", name(answer), slot);
    answer = wardlatch_domain_add(domain, WARDLATCH_DOMAIN_NUMBERS, SCREEN + 50, 100, 3, &slot);
    printf("domain: 100 bytes that overlap them: %s\n", name(answer));
    answer = wardlatch_domain_get(domain, WARDLATCH_DOMAIN_NUMBERS, 0, &start, &size, &attr);
    printf("domain: slot 0: %s, start 0x%08" PRIX32 ", size %" PRIu32 ", attr %" PRIu32 "\n", name(answer), start, size, attr);
    answer = wardlatch_domain_contains(domain, WARDLATCH_DOMAIN_NUMBERS, SCREEN + 99, &value);
    printf("domain: holds its last address: %s, %" PRIu32 "\n", name(answer), value);
    answer = wardlatch_domain_contains(domain, WARDLATCH_DOMAIN_NUMBERS, SCREEN + 100, &value);
    printf("domain: holds the address behind: %s, %" PRIu32 "\n", name(answer), value);
    answer = wardlatch_plan(domain, WARDLATCH_DOMAIN_NUMBERS, 8, plan, WARDLATCH_PLAN_MOST, &value);
    printf("domain: planned, though 100 is no power of two: %s\n", name(answer));
    answer = wardlatch_domain_remove(domain, WARDLATCH_DOMAIN_NUMBERS, SCREEN, 100, &slot);
    printf("domain: removed: %s, slot %" PRIu32 "\n", name(answer), slot);
    answer = wardlatch_domain_remove(domain, WARDLATCH_DOMAIN_NUMBERS, 0, 0, &slot);
    printf("domain: nothing is removed: %s\n", name(answer));
    answer = wardlatch_domain_has_free(domain, WARDLATCH_DOMAIN_NUMBERS - 3, &value);
    printf("domain: lent with a slot too few: %s\n", name(answer));
    answer = wardlatch_domain_has_free(domain, WARDLATCH_DOMAIN_NUMBERS, &value);
    printf("domain: has a free slot: %s, %" PRIu32 "\n", name(answer), value);
    printf("window: 15 bytes at 0xFFFFFFF0 are valid: %s\n", wardlatch_partition_valid(0xFFFFFFF0u, 15) ? "yes" : "no");
    printf("window: 16 bytes at 0xFFFFFFF0 are valid: %s\n", wardlatch_partition_valid(0xFFFFFFF0u, 16) ? "yes" : "no");
    printf("window: neighbours overlap: %s\n", wardlatch_partitions_overlap(0, 32, 32, 32) ? "yes" : "no");
}

/* One object of the firmware's own, and upstream's numbers. */
static void object_alone(void) {
    uint64_t word = 0;
    uint8_t flags = WARDLATCH_PUBLIC;
    uint32_t value;
    int32_t number;
    uint32_t answer = wardlatch_grant(&word, 63);
    printf("object: granted to thread 63: %s, word 0x%016" PRIX64 "\n", name(answer), word);
    answer = wardlatch_grant(&word, 64);
    printf("object: granted to thread 64: %s, word 0x%016" PRIX64 "\n", name(answer), word);
    answer = wardlatch_has_perm(word, 63, &value);
    printf("object: thread 63 holds it: %s, %" PRIu32 "\n", name(answer), value);
    printf("object: thread 5 may use it: %s\n", wardlatch_check_access(0, word, 5, false) ? "yes" : "no");
    printf("object: a supervisor may use it: %s\n", wardlatch_check_access(0, word, 5, true) ? "yes" : "no");
    printf("object: validated for thread 5: %s\n", name(wardlatch_validate(WARDLATCH_MUTEX, 0, word, WARDLATCH_MUTEX, 5, false, 1)));
    answer = wardlatch_revoke(&word, 63);
    printf("object: revoked: %s, word 0x%016" PRIX64 "\n", name(answer), word);
    answer = wardlatch_recycle(&flags, &word, 2);
    printf("object: recycled by thread 2: %s, flags %u, word 0x%016" PRIX64 "\n", name(answer), (unsigned)flags, word);
    answer = wardlatch_to_errno(WARDLATCH_EPERM, &number);
    printf("errno: EPERM is upstream's: %s, %" PRId32 "\n", name(answer), number);
    answer = wardlatch_to_errno(WARDLATCH_ROOM, &number);
    printf("errno: ROOM has none: %s, %" PRId32 "\n", name(answer), number);
}

int main(void) {
    static struct latch pump;
    boot(&pump);
    set_up(&pump);
    radio_tries(&pump);
    dosing(&pump);
    images(&pump);
    regions(&pump);
    domain_alone();
    object_alone();
    return 0;
}
