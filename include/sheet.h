/* OneNote section files (.one) in a lent buffer: opened, listed, looked at, and extended by one transaction.
 *
 * Every call takes the bytes of a file, opens it anew and lets go of all that it reserved, so nothing stays between
 * calls. An opening reads the whole log and every list: its cost grows a little faster than the file, and a call reserves
 * less than a megabyte, and about 50 bytes for each count in `room`.
 *
 * room     how many counts of lists there is room for when the log is read. A log in 65,536 bytes has at most 8,192
 *          (SHEET_ROOM). With too little, a call answers 100, and nothing is changed.
 * answer   0, or the number of a fault, which then stands in `*fault` whole. A refused look changes nothing but `*fault`.
 *
 * What the caller upholds:
 * - No pointer is null, not even one to no bytes, and each is aligned as its type is.
 * - What a pointer names is there for the whole call, as many elements as are said, and nothing else reads or writes it in
 *   that time: no other thread, no signal handler. What is not `const` shares no byte with anything else that is passed.
 *   A length is below 2^63.
 * - Not called from a signal handler, nor from the forked child of a process with threads. Calls on different buffers may
 *   run at the same time in different threads.
 * - The program has `malloc`, `realloc` and `free` of one allocator, whose blocks are aligned as those of the C library.
 */
#ifndef SHEET_H
#define SHEET_H

#include <stdbool.h>
#include <stddef.h>
#include <stdint.h>

#ifdef __cplusplus
extern "C" {
#endif

#define SHEET_ROOM 8192

enum sheet_number {
    SHEET_DONE = 0,
    SHEET_SHORT = 1,
    SHEET_STRANGE = 2,
    SHEET_NEWER = 3,
    SHEET_BARE = 4,
    SHEET_OUTSIDE = 5,
    SHEET_SUM = 6,
    SHEET_BACKWARD = 7,
    SHEET_FRAGMENT = 8,
    SHEET_NODE = 9,
    SHEET_UNLISTED = 10,
    SHEET_OVERLAP = 11,
    SHEET_TWICE = 12,
    SHEET_FULL = 13,
    SHEET_NO_LIST = 17,
    SHEET_SIZE = 18,
    SHEET_KIND = 19,
    SHEET_SAME = 22,
    SHEET_LAST = 23,
    SHEET_CEILING = 24,
    SHEET_FUTURE = 25,
    SHEET_NO_NODE = 26,
    SHEET_RANGE = 27,
    SHEET_MAP = 28,      /* the buffer has fewer bytes than the length says */
    SHEET_NO_ROOM = 100, /* no rule of the format: `room` is too small */
    SHEET_NO_MEMORY = 101 /* no rule of the format: memory is wanted, and nothing was done */
};

/* The word of a fault. */
static inline const char *sheet_word(uint32_t number)
{
    switch (number) {
    case SHEET_DONE: return "done";
    case SHEET_SHORT: return "short";
    case SHEET_STRANGE: return "strange";
    case SHEET_NEWER: return "newer";
    case SHEET_BARE: return "bare";
    case SHEET_OUTSIDE: return "outside";
    case SHEET_SUM: return "sum";
    case SHEET_BACKWARD: return "backward";
    case SHEET_FRAGMENT: return "fragment";
    case SHEET_NODE: return "node";
    case SHEET_UNLISTED: return "unlisted";
    case SHEET_OVERLAP: return "overlap";
    case SHEET_TWICE: return "twice";
    case SHEET_FULL: return "full";
    case SHEET_NO_LIST: return "no list";
    case SHEET_SIZE: return "size";
    case SHEET_KIND: return "kind";
    case SHEET_SAME: return "same";
    case SHEET_LAST: return "last";
    case SHEET_CEILING: return "ceiling";
    case SHEET_FUTURE: return "future";
    case SHEET_NO_NODE: return "no node";
    case SHEET_RANGE: return "range";
    case SHEET_MAP: return "map";
    case SHEET_NO_ROOM: return "room";
    case SHEET_NO_MEMORY: return "memory";
    default: return "unknown";
    }
}

/* Why a call was refused: the number; the layer that refuses (1 header, 2 log, 3 lists and data, 4 saving, 5 looks,
 * 6 stores; 0 for no fault and for want of memory); the ID of the list concerned, else 0; and the place of what is wrong. */
struct sheet_fault {
    uint32_t number;
    uint32_t layer;
    uint32_t list;
    uint64_t place;
};

/* A file's count of finished transactions, its end, how many lists and fragments it has, and the whole percent of it that
 * is header and fragments. */
struct sheet_figures {
    uint32_t count;
    uint64_t end;
    uint64_t lists;
    uint64_t fragments;
    uint64_t percent;
};

/* A list: its ID, and how many nodes and fragments it has. */
struct sheet_list {
    uint32_t id;
    uint32_t nodes;
    uint64_t fragments;
};

/* A node: its ID, its BaseType, its reference if `refers` (else start and size are 0), and its payload's size. */
struct sheet_node {
    uint32_t id;
    uint32_t base;
    bool refers;
    uint64_t start;
    uint64_t size;
    uint64_t payload;
};

/* Opens a file, and tells its figures. */
uint32_t sheet_open(const uint8_t *bytes, size_t len, size_t room, struct sheet_figures *figures, struct sheet_fault *fault);

/* Puts a file's lists to the front of `lists`, in the order of opening, as many as it takes, and tells how many there are. */
uint32_t sheet_lists(const uint8_t *bytes, size_t len, size_t room, struct sheet_list *lists, size_t most, uint64_t *number,
                     struct sheet_fault *fault);

/* Looks at the node of a list with an index, counted from 0, as it was when `k` transactions were finished; its payload
 * goes to the buffer's front. 25: k is 0 or over the file's count. 26: no such list, or the index is not below its count
 * then. 27: the buffer does not take the payload. */
uint32_t sheet_node(const uint8_t *bytes, size_t len, size_t room, uint64_t k, uint32_t list, uint64_t index,
                    uint8_t *payload, size_t payload_room, struct sheet_node *node, struct sheet_fault *fault);

/* Puts `size` bytes of a node's data, from `place` in it on, to the buffer's front. 25, 26; 27: the piece passes the data
 * or the buffer. */
uint32_t sheet_data(const uint8_t *bytes, size_t len, size_t room, uint64_t k, uint32_t list, uint64_t index, uint64_t place,
                    uint64_t size, uint8_t *buffer, size_t buffer_room, struct sheet_fault *fault);

/* The three calls that extend a file make one transaction of one add. The file is the first `*len` bytes of the buffer,
 * and `capacity` is how far it may grow. `version` has 16 bytes, and must differ from the file's last version (22).
 * Done, `*len` is the file's new length, and one more transaction is finished. Refused, every finished state is as it was;
 * bytes that no finished state reads may have changed, and `*len` may have grown.
 * 17: no such list. 18: a node over 988 bytes, or data that is empty or over 65,536. 19: an ID of 0, 0x0FF or over 0x3FF.
 * 24: the file would pass the capacity or 2^40. 28: `*len` is over the capacity. */

/* Adds a node. */
uint32_t sheet_add(uint8_t *buffer, size_t capacity, uint64_t *len, size_t room, const uint8_t version[16], uint32_t list,
                   uint32_t id, const uint8_t *payload, size_t payload_len, struct sheet_fault *fault);

/* Adds a node with data of its own. */
uint32_t sheet_add_data(uint8_t *buffer, size_t capacity, uint64_t *len, size_t room, const uint8_t version[16],
                        uint32_t list, uint32_t id, const uint8_t *payload, size_t payload_len, const uint8_t *data,
                        size_t data_len, struct sheet_fault *fault);

/* Adds a node that refers to a new list, and that list with a first node. `*made` is then the new list's ID. */
uint32_t sheet_branch(uint8_t *buffer, size_t capacity, uint64_t *len, size_t room, const uint8_t version[16], uint32_t list,
                      uint32_t id, const uint8_t *payload, size_t payload_len, uint32_t first_id,
                      const uint8_t *first_payload, size_t first_payload_len, uint32_t *made, struct sheet_fault *fault);

#ifdef __cplusplus
}
#endif

#endif
