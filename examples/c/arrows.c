/* Prints the arrows of a log: a line for each direct predecessor of each mark, how the first mark stands to the last, and the
 * totals. Usage: arrows [LOG]; without a name the log is read from standard input. */
#include <stdio.h>

#include "hatsuvren.h"

/* all the memory that it lends */
static hatsuvren_rooms rooms;
static uint8_t log_bytes[HATSUVREN_LOG_MOST];
static uint8_t report[HATSUVREN_PROGRAM_REPORT];

typedef struct mark {
    uint8_t node;
    uint16_t number;
} mark;

/* the node and the number behind the kind of a record */
static mark mark_at(size_t place)
{
    mark here;
    here.node = report[place + 1];
    here.number = (uint16_t)(report[place + 2] + 256 * report[place + 3]);
    return here;
}

/* An arrow for each 0x23. A 0x21, of five bytes, starts a mark's group; 0x22 and 0x23 have four. Returns the last mark. */
static mark print_arrows(size_t bytes)
{
    mark to = {0, 0};
    size_t place = 0;
    while (place < bytes) {
        if (report[place] == 0x21) {
            to = mark_at(place);
        } else if (report[place] == 0x23) {
            mark from = mark_at(place);
            printf("%u.%u -> %u.%u\n", from.node, from.number, to.node, to.number);
        }
        place += report[place] == 0x21 ? 5 : 4;
    }
    return to;
}

/* both marks stand in the report, so it is not refused */
static void print_order(size_t bytes, mark first, mark last)
{
    static const char *const words[] = {"refused", "before", "after", "apart from"};
    uint8_t order;
    size_t place;
    hatsuvren_compare(report, bytes, first.node, first.number, last.node, last.number, &order, &place);
    printf("%u.%u %s %u.%u\n", first.node, first.number, words[order], last.node, last.number);
}

static int print_refusal(uint8_t number, size_t place)
{
    uint8_t name[HATSUVREN_NAME_LONGEST + 1];
    hatsuvren_name(number, name, sizeof name);
    printf("refused %u at %zu: %s\n", number, place, (const char *)name);
    return 1;
}

int main(int argc, char **argv)
{
    FILE *file = argc > 1 ? fopen(argv[1], "rb") : stdin;
    hatsuvren_told told;
    size_t length;
    uint8_t number;
    if (!file) {
        perror(argv[1]);
        return 1;
    }
    length = fread(log_bytes, 1, sizeof log_bytes, file);
    if (fgetc(file) != EOF) {
        puts("too long");
        return 1;
    }
    if (ferror(file)) {
        perror("arrows");
        return 1;
    }
    number = hatsuvren_run_in(HATSUVREN_SHORT, log_bytes, length, &rooms, report, sizeof report, &told);
    if (number != HATSUVREN_ACCEPTED)
        return print_refusal(number, told.place);
    if (told.marks > 1) {
        mark last = print_arrows(told.bytes);
        print_order(told.bytes, mark_at(0), last);
    }
    printf("%zu events, %zu marks, %zu sends, %zu carried\n", told.events, told.marks, told.sends, told.carried);
    return 0;
}
