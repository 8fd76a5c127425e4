/* Opens a section file, lists it, looks back, adds a node in one transaction, and shows refusals.
 * `example FILE` prints what it finds; the file itself is left as it is. */
#include "sheet.h"

#include <inttypes.h>
#include <stdio.h>
#include <string.h>

enum { CAPACITY = 8192, MOST_LISTS = 16, PAYLOAD = 988 };

static uint8_t buffer[CAPACITY];

static void tell(const char *call, const struct sheet_fault *fault)
{
    printf("%s: refused %" PRIu32 " %s layer %" PRIu32 " place %" PRIu64 " list %" PRIu32 "\n", call, fault->number,
           sheet_word(fault->number), fault->layer, fault->place, fault->list);
}

/* The figures, and each list's ID, nodes and fragments. */
static void list(uint64_t len)
{
    struct sheet_fault fault;
    struct sheet_figures figures;
    if (sheet_open(buffer, (size_t)len, SHEET_ROOM, &figures, &fault) != SHEET_DONE) {
        tell("open", &fault);
        return;
    }
    printf("count %" PRIu32 " end %" PRIu64 " lists %" PRIu64 " fragments %" PRIu64 " percent %" PRIu64 "\n", figures.count,
           figures.end, figures.lists, figures.fragments, figures.percent);
    struct sheet_list lists[MOST_LISTS];
    uint64_t number = 0;
    if (sheet_lists(buffer, (size_t)len, SHEET_ROOM, lists, MOST_LISTS, &number, &fault) != SHEET_DONE) {
        tell("lists", &fault);
        return;
    }
    for (uint64_t i = 0; i < number && i < MOST_LISTS; i++)
        printf("list %" PRIu32 ": %" PRIu32 " nodes, %" PRIu64 " fragments\n", lists[i].id, lists[i].nodes,
               lists[i].fragments);
}

/* A node as it was when k transactions were finished. */
static void look(uint64_t len, uint64_t k, uint32_t list, uint64_t index)
{
    struct sheet_fault fault;
    struct sheet_node node;
    uint8_t payload[PAYLOAD];
    printf("at %" PRIu64 ", list %" PRIu32 ", node %" PRIu64, k, list, index);
    if (sheet_node(buffer, (size_t)len, SHEET_ROOM, k, list, index, payload, sizeof payload, &node, &fault) != SHEET_DONE) {
        tell("", &fault);
        return;
    }
    printf(": ID %" PRIu32 " base %" PRIu32, node.id, node.base);
    if (node.refers)
        printf(" refers to %" PRIu64 ", %" PRIu64 " bytes", node.start, node.size);
    printf(" payload");
    for (uint64_t i = 0; i < node.payload; i++)
        printf(" %02x", payload[i]);
    printf("\n");
}

/* A piece of a node's data. */
static void piece(uint64_t len, uint64_t k, uint32_t list, uint64_t index, uint64_t place, uint64_t size)
{
    struct sheet_fault fault;
    uint8_t data[16];
    if (sheet_data(buffer, (size_t)len, SHEET_ROOM, k, list, index, place, size, data, sizeof data, &fault) != SHEET_DONE) {
        tell("data", &fault);
        return;
    }
    printf("data");
    for (uint64_t i = 0; i < size; i++)
        printf(" %02x", data[i]);
    printf("\n");
}

/* Three transactions of one add each, and adds that are refused. */
static uint64_t extend(uint64_t len)
{
    static const uint8_t first[16] = {1}, second[16] = {2}, third[16] = {3};
    static const uint8_t text[] = {'t', 'e', 'x', 't'};
    struct sheet_fault fault;
    uint32_t made = 0;
    if (sheet_add(buffer, CAPACITY, &len, SHEET_ROOM, first, 17, 33, text, sizeof text, &fault) != SHEET_DONE)
        tell("add", &fault);
    if (sheet_add(buffer, CAPACITY, &len, SHEET_ROOM, first, 17, 33, text, sizeof text, &fault) != SHEET_DONE)
        tell("add with the same version", &fault);
    if (sheet_add(buffer, CAPACITY, &len, SHEET_ROOM, second, 99, 33, text, sizeof text, &fault) != SHEET_DONE)
        tell("add to no list", &fault);
    if (sheet_add_data(buffer, CAPACITY, &len, SHEET_ROOM, second, 17, 34, text, sizeof text, text, 0, &fault) != SHEET_DONE)
        tell("add no data", &fault);
    if (sheet_add_data(buffer, CAPACITY, &len, SHEET_ROOM, second, 17, 34, text, 1, text, sizeof text, &fault) != SHEET_DONE)
        tell("add data", &fault);
    if (sheet_branch(buffer, CAPACITY, &len, SHEET_ROOM, third, 16, 35, text, 2, 36, text, 3, &made, &fault) != SHEET_DONE)
        tell("branch", &fault);
    printf("made list %" PRIu32 "\n", made);
    return len;
}

int main(int argc, char **argv)
{
    if (argc != 2)
        return 2;
    FILE *file = fopen(argv[1], "rb");
    if (!file)
        return 2;
    uint64_t len = fread(buffer, 1, CAPACITY, file);
    if (fclose(file) != 0)
        return 2;

    list(len);
    look(len, 3, 17, 1);
    look(len, 1, 17, 0);
    look(len, 1, 17, 1);
    look(len, 4, 17, 1);
    piece(len, 3, 16, 0, 0, 8);
    piece(len, 3, 16, 0, 9, 8);

    len = extend(len);
    list(len);
    look(len, 4, 17, 3);
    look(len, 3, 17, 1);
    look(len, 5, 17, 4);
    piece(len, 5, 17, 4, 1, 2);
    look(len, 6, 18, 0);

    struct sheet_fault fault;
    uint64_t past = CAPACITY + 1;
    static const uint8_t fourth[16] = {4};
    if (sheet_add(buffer, CAPACITY, &past, SHEET_ROOM, fourth, 17, 33, fourth, 1, &fault) != SHEET_DONE)
        tell("add to more than there is", &fault);
    buffer[0] ^= 0xFF;
    list(len);
    buffer[0] ^= 0xFF;
    buffer[1248 + 4] ^= 0xFF;
    list(len);
    return 0;
}
