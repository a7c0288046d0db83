/* Logs for the tests, made record by record. */
#ifndef LOGS_H
#define LOGS_H

#include "hatsuvren.h"

/* a log, with room for one record past the longest that is accepted */
typedef struct made_log {
    size_t length;
    uint8_t bytes[HATSUVREN_LOG_MOST + 5];
} made_log;

static inline void put(made_log *log, int byte)
{
    log->bytes[log->length++] = (uint8_t)byte;
}

static inline void put_opening(made_log *log, int nodes)
{
    log->length = 0;
    put(log, 0x10);
    put(log, nodes);
}

static inline void put_plain(made_log *log, int node)
{
    put(log, 0x11);
    put(log, node);
}

static inline void put_mark(made_log *log, int node)
{
    put(log, 0x12);
    put(log, node);
}

static inline void put_send(made_log *log, int node, int destination, int number)
{
    put(log, 0x13);
    put(log, node);
    put(log, destination);
    put(log, number % 256);
    put(log, number / 256);
}

static inline void put_receipt(made_log *log, int node, int number)
{
    put(log, 0x14);
    put(log, node);
    put(log, number % 256);
    put(log, number / 256);
}

/* The log with the longest report that we know of: each node marks and tells the next, and the last node, which then knows of
 * marks on all 32, marks until there are 4,096 events. */
static inline void put_chain(made_log *log)
{
    int node, event;
    put_opening(log, 32);
    for (node = 31; node > 0; node--) {
        put_mark(log, node);
        put_send(log, node, node - 1, node);
        put_receipt(log, node - 1, node);
    }
    for (event = 93; event < 4096; event++)
        put_mark(log, 0);
}

/* 4,096 events of all kinds on 32 nodes, with 128 messages in flight: a letter arrives, its receiver marks and sends again. */
static inline void put_busy(made_log *log)
{
    int at[128], letter, round;
    put_opening(log, 32);
    for (letter = 0; letter < 128; letter++) {
        at[letter] = (letter + 1) % 32;
        put_send(log, letter % 32, at[letter], letter);
    }
    for (round = 0; round < 992; round++) {
        int node = at[round % 128];
        put_receipt(log, node, round % 128);
        put_mark(log, node);
        put_plain(log, node);
        at[round % 128] = (node + 1 + round % 31) % 32;
        put_send(log, node, at[round % 128], round % 128);
    }
}

#endif
