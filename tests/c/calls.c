/* The calls through C: the scope's rows with their numbers and places, what each call leaves in the memory that it is lent, the
 * names, comparing and the sizes. Prints what failed, then how many checks were made. */
#include <stdio.h>
#include <string.h>

#include "checks.h"
#include "logs.h"

/* what all lent memory is filled with before a call */
#define FILL 0xa5

static uint16_t counts[HATSUVREN_COUNTS_LENGTH + 1];
static uint32_t words[HATSUVREN_WORDS_LENGTH + 1];
static uint16_t mail[HATSUVREN_MAIL_LENGTH + 1];
static uint8_t report[600000];
static hatsuvren_told told;
static made_log made;

static void fill(void)
{
    memset(counts, FILL, sizeof counts);
    memset(words, FILL, sizeof words);
    memset(mail, FILL, sizeof mail);
    memset(report, FILL, sizeof report);
    memset(&told, FILL, sizeof told);
}

/* a run in filled rooms that have an element more than they need */
static uint8_t run(uint32_t mode, const made_log *log, size_t report_length)
{
    fill();
    return hatsuvren_run(mode, log->bytes, log->length, counts, HATSUVREN_COUNTS_LENGTH + 1, words, HATSUVREN_WORDS_LENGTH + 1,
        mail, HATSUVREN_MAIL_LENGTH + 1, report, report_length, &told);
}

static void check_told(const char *of, size_t place, size_t events, size_t marks, size_t sends, size_t carried, size_t bytes)
{
    check(told.place == place, "place", of);
    check(told.events == events && told.marks == marks && told.sends == sends && told.carried == carried, "totals", of);
    check(told.bytes == bytes, "report bytes", of);
}

/* the rooms are filled with one value to their fixed sizes, and behind them and in the report room nothing has changed */
static void check_rooms(const char *of, uint8_t value)
{
    check(all(counts, 2 * HATSUVREN_COUNTS_LENGTH, value), "counts", of);
    check(all(words, 4 * HATSUVREN_WORDS_LENGTH, value), "words", of);
    check(all(mail, 2 * HATSUVREN_MAIL_LENGTH, value), "mail", of);
    check(all(counts + HATSUVREN_COUNTS_LENGTH, 2, FILL), "what is behind counts", of);
    check(all(words + HATSUVREN_WORDS_LENGTH, 4, FILL), "what is behind words", of);
    check(all(mail + HATSUVREN_MAIL_LENGTH, 2, FILL), "what is behind mail", of);
    check(all(report, sizeof report, FILL), "report room", of);
}

typedef struct row {
    const char *log;
    uint8_t number;
    size_t place;
} row;

/* those accepted have no event, so that for all of them the totals are 0 and the rooms zero */
static const row rows[] = {
    {"10 01", 0, 2}, {"10 20", 0, 2}, {"", 2, 0}, {"10", 2, 0}, {"11 00", 2, 0}, {"10 00", 3, 1}, {"10 21", 3, 1},
    {"10 01 15 00", 4, 2}, {"10 01 12 00 10 01", 4, 4}, {"10 01 12", 5, 2}, {"10 02 13 00 01 01", 5, 2},
    {"10 02 11 02", 6, 3}, {"10 02 13 00 02 01 00", 6, 4}, {"10 02 13 05 05 01 00", 6, 3}, {"10 02 13 00 00 01 00", 7, 4},
    {"10 02 13 00 01 01 00 13 01 00 01 00", 8, 10}, {"10 02 14 01 01 00", 10, 4}, {"10 03 13 00 01 01 00 14 02 01 00", 11, 9},
};

static void check_refused(uint32_t mode, const char *of, uint8_t number, size_t place)
{
    check(run(mode, &made, sizeof report) == number, "number", of);
    check_told(of, place, 0, 0, 0, 0, 0);
    check_rooms(of, 0);
}

static void check_rows(uint32_t mode)
{
    size_t r;
    for (r = 0; r < sizeof rows / sizeof rows[0]; r++) {
        made.length = bytes_of(rows[r].log, made.bytes);
        check_refused(mode, rows[r].log, rows[r].number, rows[r].place);
    }
}

static void check_long_rows(uint32_t mode)
{
    int i;
    put_opening(&made, 1);
    for (i = 0; i < 4096; i++)
        put_plain(&made, 0);
    check(run(mode, &made, 0) == 0, "number", "4,096 events");
    check_told("4,096 events", 8194, 4096, 0, 0, 0, 0);
    check_rooms("4,096 events", 0);
    put_plain(&made, 0);
    check_refused(mode, "4,097 events", 12, 8194);
    put_opening(&made, 2);
    for (i = 0; i < 128; i++)
        put_send(&made, 0, 1, i);
    check(run(mode, &made, 0) == 0, "number", "128 in flight");
    check_told("128 in flight", 642, 128, 0, 128, mode == HATSUVREN_FULL ? 256 : 0, 0);
    check(mail[35 * 127] == 1 && mail[35 * 127 + 1] == 1 && mail[35 * 127 + 2] == 127, "last slot", "128 in flight");
    put_send(&made, 0, 1, 128);
    check_refused(mode, "a 129th", 9, 642);
    made.length -= 5;
    put_receipt(&made, 1, 5);
    put_send(&made, 0, 1, 128);
    check(run(mode, &made, 0) == 0, "number", "one received");
    check_told("one received", 651, 130, 0, 129, mode == HATSUVREN_FULL ? 258 : 0, 0);
    check(mail[35 * 5] == 1 && mail[35 * 5 + 1] == 1 && mail[35 * 5 + 2] == 128, "slot taken again", "one received");
}

static const char log_a[] = "10 03 12 00 13 00 01 01 00 13 00 02 02 00 14 01 01 00 12 01 13 01 02 03 00 14 02 02 00 "
                            "14 02 03 00 12 02";
static const char log_b[] = "10 02 12 00 13 00 01 01 00 14 01 01 00 13 01 00 02 00 12 01 13 01 00 03 00 14 00 03 00 "
                            "12 00 14 00 02 00";
static const char report_a[] = "21 00 01 00 00 22 00 01 00 21 01 01 00 01 22 00 01 00 22 01 01 00 23 00 01 00 "
                               "21 02 01 00 01 22 00 01 00 22 01 01 00 22 02 01 00 23 01 01 00";
static const char report_b[] = "21 00 01 00 00 22 00 01 00 21 01 01 00 01 22 00 01 00 22 01 01 00 23 00 01 00 "
                               "21 00 02 00 01 22 00 02 00 22 01 01 00 23 01 01 00";
static const char report_two[] = "21 00 01 00 00 22 00 01 00 21 00 02 00 01 22 00 02 00 23 00 01 00";

/* the log is accepted in a report room of just the bytes that are meant, and refused with 13 in one that lacks a byte */
static void check_report(uint32_t mode, const char *text, const char *meant)
{
    uint8_t bytes[64];
    size_t length = bytes_of(meant, bytes);
    made.length = bytes_of(text, made.bytes);
    check(run(mode, &made, length - 1) == 13, "number in a small room", text);
    check_told(text, made.length, 0, 0, 0, 0, length);
    check_rooms(text, 0);
    check(run(mode, &made, length) == 0, "number", text);
    check(told.place == made.length && told.bytes == length, "place and bytes", text);
    check(memcmp(report, bytes, length) == 0, "report", text);
    check(all(report + length, sizeof report - length, FILL), "what is behind the report", text);
}

static void check_reports(uint32_t mode)
{
    int full = mode == HATSUVREN_FULL;
    check_report(mode, "10 01 12 00 12 00", report_two);
    check_told("two marks", 6, 2, 2, 0, 0, 22);
    check_report(mode, log_a, report_a);
    check_told("A", 35, 9, 3, 3, full ? 9 : 4, 47);
    check_report(mode, log_b, report_b);
    check_told("B", 35, 9, 3, 3, full ? 6 : 3, 43);
    /* 31 groups that grow along the chain, and 4,003 of 32 stamps and one predecessor */
    put_chain(&made);
    check(run(mode, &made, HATSUVREN_PROGRAM_REPORT) == 13, "number in a small room", "the chain");
    check_told("the chain", 8349, 0, 0, 0, 0, 31 * 5 + 4 * 496 + 4 * 30 + 4003 * 137);
    check(run(mode, &made, sizeof report) == 0, "number", "the chain");
    check(told.bytes == 550670 && told.marks == 4034, "totals", "the chain");
}

/* the example of docs/LAYOUT.md: log A with short messages, after its sixth event */
static void check_state(void)
{
    static const uint16_t rows_held[9] = {1, 0, 0, 1, 1, 0, 0, 0, 0};
    static const uint16_t letters[10] = {2, 2, 3, 2, 3, 0, 1, 2, 2, 3};
    made.length = bytes_of(log_a, made.bytes) - 10;
    check(run(HATSUVREN_SHORT, &made, sizeof report) == 0, "number", "A to its sixth event");
    check(memcmp(counts, rows_held, sizeof rows_held) == 0, "rows", "A to its sixth event");
    check(all(counts + 9, 2 * (HATSUVREN_COUNTS_LENGTH - 9), 0), "other counts", "A to its sixth event");
    check(words[0] == 1 && words[1] == 2 && all(words + 2, 4 * 33, 0), "flags", "A to its sixth event");
    check(words[35] == 1 && all(words + 36, 4 * (HATSUVREN_WORDS_LENGTH - 36), 0), "columns", "A to its sixth event");
    check(memcmp(mail, letters, 12) == 0 && all(mail + 6, 58, 0), "first letter", "A to its sixth event");
    check(memcmp(mail + 35, letters + 6, 8) == 0, "second letter", "A to its sixth event");
    check(all(mail + 39, 2 * (HATSUVREN_MAIL_LENGTH - 39), 0), "other slots", "A to its sixth event");
    check(counts[HATSUVREN_COUNTS_LENGTH] == 0xa5a5, "what is behind counts", "A to its sixth event");
}

/* each room in turn lacks an element, whatever the log */
static void check_small_rooms(const made_log *log)
{
    int room;
    for (room = 0; room < 3; room++) {
        fill();
        check(hatsuvren_run(HATSUVREN_SHORT, log->bytes, log->length, counts, HATSUVREN_COUNTS_LENGTH - (room == 0), words,
                  HATSUVREN_WORDS_LENGTH - (room == 1), mail, HATSUVREN_MAIL_LENGTH - (room == 2), report, sizeof report, &told)
                == 1, "number", "small rooms");
        check_told("small rooms", 0, 0, 0, 0, 0, 0);
        check_rooms("small rooms", FILL);
    }
}

static void check_unknown_modes(void)
{
    static const uint32_t modes[] = {2, 3, 255, 256, 257, 65536, 0x80000000, 0xffffffff};
    size_t m;
    for (m = 0; m < sizeof modes / sizeof modes[0]; m++) {
        check(run(modes[m], &made, sizeof report) == 255, "number", "unknown mode");
        check_told("unknown mode", 0, 0, 0, 0, 0, 0);
        check_rooms("unknown mode", FILL);
    }
}

static void check_name(uint8_t number, const char *name)
{
    uint8_t text[64];
    size_t length = strlen(name), room;
    for (room = 0; room <= length; room++) {
        memset(text, FILL, sizeof text);
        check(hatsuvren_name(number, text, room) == length, "length in a small room", name);
        check(all(text, sizeof text, FILL), "small room", name);
    }
    check(hatsuvren_name(number, text, length + 1) == length, "length", name);
    check(memcmp(text, name, length + 1) == 0, "letters and zero", name);
    check(all(text + length + 1, sizeof text - length - 1, FILL), "what is behind", name);
}

static void check_names(void)
{
    static const char *const names[] = {"accepted", "work room too small", "no whole 0x10 record at the start",
        "node count 0 or above 32", "unknown kind, or a later 0x10", "record cut short",
        "node or destination not below the node count", "destination equals sender", "message number in flight already",
        "128 messages in flight already", "receipt of a number not in flight", "message in flight to another node",
        "a 4,097th event", "report room too small", "report not well formed", "first mark absent", "second mark absent"};
    size_t longest = 0;
    int number;
    for (number = 0; number < 256; number++) {
        const char *name = number < 17 ? names[number] : number == 255 ? "unknown mode" : "";
        check_name((uint8_t)number, name);
        longest = strlen(name) > longest ? strlen(name) : longest;
    }
    check(longest == HATSUVREN_NAME_LONGEST, "length", "the longest name");
}

/* compares in a report of these bytes; a mark is its node and its number */
static void check_order(const char *text, int first, int first_number, int second, int second_number, int number, int order,
    size_t place)
{
    uint8_t bytes[64], kept[64], told_order = FILL;
    size_t length = bytes_of(text, bytes), told_place = FILL;
    memcpy(kept, bytes, length);
    check(hatsuvren_compare(bytes, length, (uint8_t)first, (uint16_t)first_number, (uint8_t)second, (uint16_t)second_number,
              &told_order, &told_place) == number, "number", text);
    check(told_order == order, "order", text);
    check(told_place == place, "place", text);
    check(memcmp(kept, bytes, length) == 0, "report", text);
}

static void check_orders(void)
{
    check_order(report_a, 0, 1, 2, 1, 0, HATSUVREN_BEFORE, 0);
    check_order(report_a, 0, 1, 1, 1, 0, HATSUVREN_BEFORE, 0);
    check_order(report_a, 2, 1, 1, 1, 0, HATSUVREN_AFTER, 0);
    check_order(report_a, 1, 1, 1, 1, 0, HATSUVREN_APART, 0);
    check_order(report_b, 0, 2, 1, 1, 0, HATSUVREN_AFTER, 0);
    check_order("21 00 01 00 00 22 00 01 00 21 01 01 00 00 22 01 01 00", 0, 1, 1, 1, 0, HATSUVREN_APART, 0);
    check_order(report_a, 3, 1, 2, 1, HATSUVREN_FIRST_ABSENT, 0, 0);
    check_order(report_a, 0, 257, 2, 1, HATSUVREN_FIRST_ABSENT, 0, 0);
    check_order(report_a, 0, 1, 2, 2, HATSUVREN_SECOND_ABSENT, 0, 0);
    check_order(report_a, 255, 65535, 255, 65535, HATSUVREN_FIRST_ABSENT, 0, 0);
    check_order("", 0, 1, 0, 1, HATSUVREN_FIRST_ABSENT, 0, 0);
    check_order("00", 0, 1, 0, 1, HATSUVREN_NOT_WELL_FORMED, 0, 0);
    check_order("21 00 01 00 00 22 00 01 00 21", 0, 1, 0, 1, HATSUVREN_NOT_WELL_FORMED, 0, 9);
    check_order("21 00 01 00 00 22 00 01 00 21 00 01 00 00 22 00 01 00", 7, 1, 0, 1, HATSUVREN_NOT_WELL_FORMED, 0, 9);
}

static void check_sizes(void)
{
    check(hatsuvren_counts_length() == HATSUVREN_COUNTS_LENGTH && HATSUVREN_COUNTS_LENGTH == 1024, "length", "counts");
    check(hatsuvren_words_length() == HATSUVREN_WORDS_LENGTH && HATSUVREN_WORDS_LENGTH == 1056, "length", "words");
    check(hatsuvren_mail_length() == HATSUVREN_MAIL_LENGTH && HATSUVREN_MAIL_LENGTH == 4480, "length", "mail");
    check(hatsuvren_rooms_bytes() == HATSUVREN_ROOMS_BYTES && HATSUVREN_ROOMS_BYTES == 15232, "bytes", "the rooms");
}

int main(void)
{
    static hatsuvren_rooms rooms;
    uint32_t mode;
    for (mode = HATSUVREN_FULL; mode <= HATSUVREN_SHORT; mode++) {
        check_rows(mode);
        check_long_rows(mode);
        check_reports(mode);
    }
    check_state();
    made.length = 0;
    check_small_rooms(&made);
    made.length = bytes_of(log_a, made.bytes);
    check_small_rooms(&made);
    check_unknown_modes();
    fill();
    check(hatsuvren_run_in(HATSUVREN_SHORT, made.bytes, made.length, &rooms, report, 47, &told) == 0, "number", "one piece");
    check_told("one piece", 35, 9, 3, 3, 4, 47);
    check_names();
    check_orders();
    check_sizes();
    printf("%d checks, %d failed\n", checks, failed);
    return failed > 0;
}
