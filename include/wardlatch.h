/* wardlatch, the access latch: what firmware links (target/staticlib/libfirmware.a, made by `tools/make-library firmware`).
 *
 * Every function is total: it answers for all numbers, all bytes and every length, allocates nothing and keeps nothing between calls. The archive needs no
 * function from outside but memcpy, memset, memmove and memcmp, which a compiler may put in.
 * docs/SPEC.md says of each what it answers; its section 12 is about C.
 * A function returns an answer's number (below), or a bool. A value comes back in a number that the caller lends.
 * On a refusal, an answer other than OK, nothing lent is changed but that number, which becomes 0; one exception: where the memory check's walk says EPERM, see wardlatch_call.
 * What only the kernel around it can see to: (1) the second byte of a call is the thread that really calls: write it yourself, from the thread that trapped,
 * and never pass a thread's own sixteen bytes through, or the radio can be thread 0; (2) nobody but these functions writes the three tables between calls:
 * keep them in memory of your own; (3) no window of a domain lies over the tables, your stack or your code: refuse such a partition before you pass it on.
 * What the caller owes, as in all C: each pointer is to as many elements as the length behind it says, is aligned and not null (a length of 0 too),
 * and what a call may write overlaps nothing else that is lent to it.
 */
#ifndef WARDLATCH_H
#define WARDLATCH_H

#include <stdbool.h>
#include <stddef.h>
#include <stdint.h>

#ifdef __cplusplus
extern "C" {
#endif

/* Answers (SPEC 1.1), and what they mostly say. */
#define WARDLATCH_OK 0u          /* done */
#define WARDLATCH_EINVAL 1u      /* an argument is not allowed, or an object that must be initialised is not */
#define WARDLATCH_EPERM 2u       /* no access */
#define WARDLATCH_EBADF 3u       /* the handle has no object, or one of another type */
#define WARDLATCH_EADDRINUSE 4u  /* taken, or initialised where it must not be */
#define WARDLATCH_ENOSPC 5u      /* no slot of the domain is free */
#define WARDLATCH_ENOENT 6u      /* the domain has no such window */
#define WARDLATCH_SHORT 7u       /* image or call cut off */
#define WARDLATCH_MAGIC 8u       /* an image's first 8 bytes are wrong */
#define WARDLATCH_VALUE 9u       /* a state, an image or a plan breaks a rule */
#define WARDLATCH_NOPLAN 10u     /* some slot can be no region, or there are too few regions */
#define WARDLATCH_ROOM 11u       /* lent buffer too small */
#define WARDLATCH_DIFFERS 12u    /* the plan and the domain give different rights */

/* Limits. */
#define WARDLATCH_THREADS 64u
#define WARDLATCH_HANDLES 256u
#define WARDLATCH_DOMAINS 8u
#define WARDLATCH_SLOTS 16u
#define WARDLATCH_REGIONS 16u
#define WARDLATCH_NO_DOMAIN 255u

/* The state: three tables that the caller lends, of just these lengths. All zero is a state too: nothing lives, so nothing may be done.
 *   objects  for handle h at 2h: type + 256 * flags; at 2h + 1: its permission word, bit t for thread t
 *   threads  for thread t at 3t: 0 dead, 1 user, 2 supervisor; its domain or 255; the handle of its thread object
 *   slots    for slot k of domain d at 3 * (16d + k): start, size, attr (to read 1, to write 2, to execute 4, added up); size 0 is free
 * A domain alone is 48 words: those at slots + 48d, or any others of the same form. */
#define WARDLATCH_OBJECT_NUMBERS 512u
#define WARDLATCH_THREAD_NUMBERS 192u
#define WARDLATCH_SLOT_NUMBERS 384u
#define WARDLATCH_DOMAIN_NUMBERS 48u

/* Bytes of a call and of an image; words of a plan. */
#define WARDLATCH_CALL_BYTES 16u
#define WARDLATCH_IMAGE_LEAST 1552u
#define WARDLATCH_IMAGE_MOST 5136u
#define WARDLATCH_PLAN_MOST 32u

/* Calls (SPEC 7.1): a byte for the operation, one for the caller, two for a, four each for b, c and d, lowest byte first; unused fields are zero.
 * From 16 on for supervisors only. */
#define WARDLATCH_OP_VALIDATE 0u          /* a handle, b type, c mode: 0 must be initialised, -1 must not be, 1 either */
#define WARDLATCH_OP_GRANT 1u             /* a handle, b target */
#define WARDLATCH_OP_RELEASE 2u           /* a handle */
#define WARDLATCH_OP_MEMORY_CHECK 3u      /* b first address, c length, d: 1 to write, else 0 */
#define WARDLATCH_OP_EXIT 4u
#define WARDLATCH_OP_CREATE_OBJECT 16u    /* a handle, b type */
#define WARDLATCH_OP_DELETE_OBJECT 17u    /* a handle */
#define WARDLATCH_OP_REVOKE 18u           /* a handle, b thread */
#define WARDLATCH_OP_INIT 19u             /* a handle */
#define WARDLATCH_OP_UNINIT 20u           /* a handle */
#define WARDLATCH_OP_RECYCLE 21u          /* a handle */
#define WARDLATCH_OP_MAKE_PUBLIC 22u      /* a handle */
#define WARDLATCH_OP_CREATE_THREAD 23u    /* a handle, b thread, c: 1 for a supervisor, else 0 */
#define WARDLATCH_OP_END_THREAD 24u       /* b thread */
#define WARDLATCH_OP_INHERIT 25u          /* b parent, c child */
#define WARDLATCH_OP_ASSIGN 26u           /* b thread, c domain or 255 */
#define WARDLATCH_OP_ADD_PARTITION 27u    /* a domain, b start, c size, d attr */
#define WARDLATCH_OP_REMOVE_PARTITION 28u /* a domain, b start, c size */

/* Types of objects (0 in a question: any), and flags. */
#define WARDLATCH_ANY 0u
#define WARDLATCH_THREAD 1u
#define WARDLATCH_SEM 2u
#define WARDLATCH_MUTEX 3u
#define WARDLATCH_CONDVAR 4u
#define WARDLATCH_MSGQ 5u
#define WARDLATCH_STACK 6u
#define WARDLATCH_PIPE 7u
#define WARDLATCH_TIMER 8u
#define WARDLATCH_EVENT 9u
#define WARDLATCH_MEMSLAB 10u
#define WARDLATCH_FIFO 11u
#define WARDLATCH_LIFO 12u
#define WARDLATCH_SYSMUTEX 13u
#define WARDLATCH_FUTEX 14u
#define WARDLATCH_MBOX 15u
#define WARDLATCH_INITIALISED 1u
#define WARDLATCH_PUBLIC 2u
#define WARDLATCH_ALLOC 4u
#define WARDLATCH_DRIVER 8u

/* ---- calls */

/* One call. Tables that are no state: VALUE; then fewer than 16 bytes SHORT, more EINVAL; then the call's own answer.
 * value: the slot of an added or removed partition, else 0; where the memory check says EPERM of the address: the least that is not covered. */
uint32_t wardlatch_call(uint64_t *objects, size_t objects_len, uint32_t *threads, size_t threads_len, uint32_t *slots, size_t slots_len,
                        const uint8_t *bytes, size_t bytes_len, uint32_t *value);

/* A log of calls, one after the other; a last part of fewer than 16 bytes counts as one, SHORT.
 * Tables that are no state: VALUE; out under two numbers a call: ROOM.
 * Else OK; out: code and value of each call in turn, what lies behind stays; answers: how many calls were answered. */
uint32_t wardlatch_run(uint64_t *objects, size_t objects_len, uint32_t *threads, size_t threads_len, uint32_t *slots, size_t slots_len,
                       const uint8_t *log, size_t log_len, uint32_t *out, size_t out_len, size_t *answers);

/* ---- images */

/* Reads an image into the three tables, whatever they hold. Tables of other lengths VALUE; then SHORT, MAGIC, VALUE by the image.
 * left: how many bytes lie behind the image, so it ends at image + (image_len - left). */
uint32_t wardlatch_read(const uint8_t *image, size_t image_len, uint64_t *objects, size_t objects_len, uint32_t *threads, size_t threads_len,
                        uint32_t *slots, size_t slots_len, size_t *left);

/* Writes the state as an image. Tables that are no state: VALUE; out too small: ROOM. written: the image's bytes; what lies behind them stays. */
uint32_t wardlatch_write(const uint64_t *objects, size_t objects_len, const uint32_t *threads, size_t threads_len, const uint32_t *slots, size_t slots_len,
                         uint8_t *out, size_t out_len, uint32_t *written);

/* ---- the MPU (PMSAv7): two words a region, RBAR and RASR */

/* Plans a domain, a region for each active slot. A domain that breaks a rule: VALUE; regions above 16: EINVAL;
 * a slot that is no region, or more slots than regions: NOPLAN; out too small: ROOM. words: the plan's words; what lies behind them stays. */
uint32_t wardlatch_plan(const uint32_t *domain, size_t domain_len, uint32_t regions, uint32_t *out, size_t out_len, uint32_t *words);

/* Judges any plan: OK where it gives unprivileged code just the domain's rights at every address, else DIFFERS; an ill-formed plan or domain: VALUE. */
uint32_t wardlatch_check(const uint32_t *domain, size_t domain_len, const uint32_t *plan, size_t plan_len);

/* ---- a domain by itself, taken literally; other than 48 words: VALUE */

/* Adds a window to the lowest free slot. One that is not valid, or overlaps an active slot: EINVAL; no slot free: ENOSPC.
 * attr is not judged. slot: where it stands. */
uint32_t wardlatch_domain_add(uint32_t *domain, size_t domain_len, uint32_t start, uint32_t size, uint32_t attr, uint32_t *slot);

/* Frees the lowest slot of that start and size: it is all zero then. Size 0, or no such slot: ENOENT. slot: which it was. */
uint32_t wardlatch_domain_remove(uint32_t *domain, size_t domain_len, uint32_t start, uint32_t size, uint32_t *slot);

/* The fields of a slot; zeros on a refusal. Index 16 and above: EINVAL; a free slot: ENOENT. */
uint32_t wardlatch_domain_get(const uint32_t *domain, size_t domain_len, uint32_t index, uint32_t *start, uint32_t *size, uint32_t *attr);

/* value: 1 if some slot is free, else 0. */
uint32_t wardlatch_domain_has_free(const uint32_t *domain, size_t domain_len, uint32_t *value);

/* value: 1 if an active slot holds the address, else 0. */
uint32_t wardlatch_domain_contains(const uint32_t *domain, size_t domain_len, uint32_t addr, uint32_t *value);

/* Whether a window is valid: its size is not 0, and its end, a sum that does not wrap, is at most 4294967295. */
bool wardlatch_partition_valid(uint32_t start, uint32_t size);

/* Whether two windows overlap: each begins before the other ends. */
bool wardlatch_partitions_overlap(uint32_t start, uint32_t size, uint32_t other_start, uint32_t other_size);

/* ---- one object by itself, taken literally: its type, flags and permission word stand with the caller */

/* Sets the thread's bit in word. Thread 64 and above: EINVAL. */
uint32_t wardlatch_grant(uint64_t *word, uint32_t tid);

/* Clears the thread's bit in word, no other. Thread 64 and above: EINVAL. */
uint32_t wardlatch_revoke(uint64_t *word, uint32_t tid);

/* The word becomes the thread's bit alone, and initialised is set; the other flags stay. Thread 64 and above: EINVAL. */
uint32_t wardlatch_recycle(uint8_t *flags, uint64_t *word, uint32_t tid);

/* value: the thread's bit, 1 or 0. Thread 64 and above: EINVAL. */
uint32_t wardlatch_has_perm(uint64_t word, uint32_t tid, uint32_t *value);

/* Whether the thread has access (SPEC 4.14). */
bool wardlatch_check_access(uint8_t flags, uint64_t word, uint32_t tid, bool supervisor);

/* Type EBADF (expected 0 fits all), access EPERM, initialisation EINVAL (mode 0) or EADDRINUSE (mode -1); any other mode means either. */
uint32_t wardlatch_validate(uint8_t kind, uint8_t flags, uint64_t word, uint8_t expected, uint32_t tid, bool supervisor, int32_t mode);

/* ---- answers for others */

/* value: upstream's error number for answers 0 to 6 (0, -22, -1, -9, -112, -28, -2). Any other number: EINVAL. */
uint32_t wardlatch_to_errno(uint32_t answer, int32_t *value);

#ifdef __cplusplus
}
#endif

#endif
