/* Hatsuvren for C99 and C++: which mark of a barn's log led straight to which. `rt lib` in crates/hatsuvren_c makes the archive
 * to link, out/libhatsuvren_c.a there, for x86-64; docs/LAYOUT.md has the bytes of logs and reports. Any bytes get an answer.
 * What is said here of the answers, and of what the memory lent holds after a call, is proved.
 *
 * The caller owes this and no more, and the proofs speak of such calls alone:
 *   - no pointer is NULL, even where its length is 0;
 *   - it leads to as many elements as its length says, or to one where there is no length, aligned for their type;
 *   - what is written overlaps nothing else that is lent (only log, and the report of a comparison, are not written);
 *   - until the call returns nothing else writes what is lent, and nothing else reads what is written.
 *
 * Seen of the compiled code, and not proved: a call takes at most 1,024 bytes of stack and no heap, keeps nothing for the next
 * call, and calls nothing but memset of the C library, so threads may call at once, each with memory of its own. The compiler is
 * told of no pointer that it is non-null or unaliased, and nothing goes through one whose length is 0; do not count on it. */
#ifndef HATSUVREN_H
#define HATSUVREN_H

#include <stddef.h>
#include <stdint.h>

#ifdef __cplusplus
extern "C" {
#endif

/* modes: what messages carry */
#define HATSUVREN_FULL 0
#define HATSUVREN_SHORT 1

/* the elements of the three work rooms, and the bytes of all */
#define HATSUVREN_COUNTS_LENGTH 1024
#define HATSUVREN_WORDS_LENGTH 1056
#define HATSUVREN_MAIL_LENGTH 4480
#define HATSUVREN_ROOMS_BYTES 15232

/* the bounds of an accepted log: its nodes, events, messages in flight and bytes */
#define HATSUVREN_NODES_MOST 32
#define HATSUVREN_EVENTS_MOST 4096
#define HATSUVREN_FLIGHT_MOST 128
#define HATSUVREN_LOG_MOST 20482

/* the report room of this project's own program; a report may need more (13 tells how many bytes) */
#define HATSUVREN_PROGRAM_REPORT 16384

/* the numbers of the answers, each with its place */
#define HATSUVREN_ACCEPTED 0          /* the log's length; 0 for a comparison */
#define HATSUVREN_SMALL_ROOMS 1       /* 0 */
#define HATSUVREN_NO_OPENING 2        /* 0: no whole 0x10 record at the start */
#define HATSUVREN_NODE_COUNT 3        /* 1: node count 0 or above 32 */
#define HATSUVREN_UNKNOWN_KIND 4      /* the kind byte; a later 0x10 too */
#define HATSUVREN_CUT_SHORT 5         /* the kind byte of the record */
#define HATSUVREN_NO_SUCH_NODE 6      /* that byte: node or destination not below the node count */
#define HATSUVREN_TO_ITSELF 7         /* the destination byte, which equals the sender */
#define HATSUVREN_IN_FLIGHT 8         /* the first byte of the message number, which is in flight already */
#define HATSUVREN_FLIGHT_FULL 9       /* the kind byte: 128 messages are in flight already */
#define HATSUVREN_NOT_IN_FLIGHT 10    /* the first byte of the message number, which is not in flight */
#define HATSUVREN_TO_ANOTHER 11       /* the first byte of the number of a message in flight to another node */
#define HATSUVREN_TOO_MANY_EVENTS 12  /* the kind byte of the 4,097th */
#define HATSUVREN_SMALL_REPORT 13     /* the log's length */
#define HATSUVREN_NOT_WELL_FORMED 14  /* the first byte of the first bad group of the report */
#define HATSUVREN_FIRST_ABSENT 15     /* 0 */
#define HATSUVREN_SECOND_ABSENT 16    /* 0 */
#define HATSUVREN_UNKNOWN_MODE 255    /* 0 */

/* how the first of two marks stands to the second */
#define HATSUVREN_BEFORE 1
#define HATSUVREN_AFTER 2
#define HATSUVREN_APART 3

/* the letters of the longest name of a number; a text has one byte more, for the zero */
#define HATSUVREN_NAME_LONGEST 44

/* the three work rooms in one piece */
typedef struct hatsuvren_rooms {
    uint16_t counts[HATSUVREN_COUNTS_LENGTH];
    uint32_t words[HATSUVREN_WORDS_LENGTH];
    uint16_t mail[HATSUVREN_MAIL_LENGTH];
} hatsuvren_rooms;

/* what a run tells: a place in the log, and the totals of events, marks, sends, carried entries and report bytes */
typedef struct hatsuvren_told {
    size_t place, events, marks, sends, carried, bytes;
} hatsuvren_told;

/* both are laid out as the archive has them, or these lines do not compile */
typedef char hatsuvren_rooms_fit[sizeof(hatsuvren_rooms) == HATSUVREN_ROOMS_BYTES ? 1 : -1];
typedef char hatsuvren_told_fits[sizeof(hatsuvren_told) == 6 * 8 ? 1 : -1];

/* Runs a log with full or short messages, writes the report of its marks, returns the number and fills *told. Lengths are in
 * elements. Work rooms may be larger than needed, and what they held plays no part.
 *
 *   number   place      totals                          report room                      work rooms, to their fixed sizes
 *   0        length     all                             the report, and behind it        the state after the last event, with
 *                                                       as it was                        each slot not in flight zero
 *   1        0          all 0                           as it was                        as they were
 *   2 to 12  see above  all 0                           as it was                        all zero
 *   13       length     bytes: as many as are needed,   as it was                        all zero
 *                       the others 0
 *   255      0          all 0                           as it was                        as they were
 *
 * Behind their fixed sizes work rooms are as they were. 255 is for a mode that is neither 0 nor 1, whatever else is lent. Then 1,
 * 2 and 3 come first, in this order; then the records in log order, and of one record 4, 5, 12, 6 (the sender first), 7, 8, 9, 10,
 * 11; 13 only where there is none of these.
 *
 * An accepted log's report has, for each mark, how many marks of each node are it or before it in Lamport's order over the log,
 * and the marks before it with no other mark between. It is the same in both modes. carried sums the entries of all sends: as many
 * as there are nodes when full; when short, the sender's counts above zero whose flag is clear, or that no message from the
 * receiver has yet brought it as they stand. */
uint8_t hatsuvren_run(uint32_t mode, const uint8_t *log, size_t log_length, uint16_t *counts, size_t counts_length,
    uint32_t *words, size_t words_length, uint16_t *mail, size_t mail_length, uint8_t *report, size_t report_length,
    hatsuvren_told *told);

/* Compares two marks, each a node and a number, of a report of any bytes. report_length is the report's (bytes of *told), not its
 * room's. Returns 0 with *order HATSUVREN_BEFORE (no entry of the first stamp exceeds the second's, and some entry differs; one
 * that is missing is 0), HATSUVREN_AFTER (the other way round) or else HATSUVREN_APART; or, with *order 0, the first of these that
 * is so: 14 (report not well formed), 15 (first mark absent), 16 (second absent). *place is as above; the report is not written.
 * Of an accepted log's own report, before and after are Lamport's order of the two marks. */
uint8_t hatsuvren_compare(const uint8_t *report, size_t report_length, uint8_t first_node, uint16_t first_number,
    uint8_t second_node, uint16_t second_number, uint8_t *order, size_t *place);

/* The elements that a run needs of each work room, and the bytes of the three: the numbers of the #defines above. */
size_t hatsuvren_counts_length(void);
size_t hatsuvren_words_length(void);
size_t hatsuvren_mail_length(void);
size_t hatsuvren_rooms_bytes(void);

/* Lays the name of a number, in ASCII, and a zero behind it over the front of text, if text_length is above the name's length, and
 * touches nothing else; returns the name's length without the zero. 17 to 254 have no name: their length is 0. */
size_t hatsuvren_name(uint8_t number, uint8_t *text, size_t text_length);

/* hatsuvren_run with the three rooms of *rooms, which are never too small. */
#ifdef __cplusplus
inline
#else
static inline
#endif
uint8_t hatsuvren_run_in(uint32_t mode, const uint8_t *log, size_t log_length, hatsuvren_rooms *rooms, uint8_t *report,
    size_t report_length, hatsuvren_told *told)
{
    return hatsuvren_run(mode, log, log_length, rooms->counts, HATSUVREN_COUNTS_LENGTH, rooms->words, HATSUVREN_WORDS_LENGTH,
        rooms->mail, HATSUVREN_MAIL_LENGTH, report, report_length, told);
}

#ifdef __cplusplus
}
#endif

#endif
