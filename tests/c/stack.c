/* How much stack a run and a comparison take. The stack pointer is set to the end of a painted array, the call is made there, and
 * the lowest byte that was changed is looked for: all that lies above it was taken, from the arguments that the caller pushes and
 * the return address down to the deepest byte of memset or of the call's own functions. Painted twice, in two colours, so that a
 * byte written in one of them shows in the other. Only for x86-64. Fails if a call takes more than 1,024 bytes. */
#include <stdio.h>
#include <string.h>

#include "logs.h"

#define MOST 1024

static uint8_t painted[65536];
static hatsuvren_rooms rooms;
static uint8_t report[600000];
static hatsuvren_told told;
static made_log made;
static uint64_t answer;
static int wrong;

/* Calls the function with arguments[0] to [5] in registers and so many more pushed, on the stack that ends at end, and returns what
 * it returns. The true stack pointer waits in rbx, which every function hands back as it was. */
static uint64_t call_at(uint8_t *end, uintptr_t function, const uint64_t *arguments, uint64_t pushed)
{
    __asm__ volatile("movq %%rsp, %%rbx\n\t"
                     "movq %%rsi, %%rsp\n\t"
                     "movq %%rax, %%r11\n\t"
                     "movq %%rdi, %%r10\n\t"
                     "jmp 2f\n"
                     "1:\tpushq 40(%%r10, %%rcx, 8)\n\t" /* the last of them first */
                     "decq %%rcx\n"
                     "2:\ttestq %%rcx, %%rcx\n\t"
                     "jnz 1b\n\t"
                     "movq (%%r10), %%rdi\n\t"
                     "movq 8(%%r10), %%rsi\n\t"
                     "movq 16(%%r10), %%rdx\n\t"
                     "movq 24(%%r10), %%rcx\n\t"
                     "movq 32(%%r10), %%r8\n\t"
                     "movq 40(%%r10), %%r9\n\t"
                     "callq *%%r11\n\t"
                     "movq %%rbx, %%rsp"
                     : "+a"(function), "+D"(arguments), "+S"(end), "+c"(pushed)
                     :
                     : "rbx", "rdx", "r8", "r9", "r10", "r11", "xmm0", "xmm1", "xmm2", "xmm3", "xmm4", "xmm5", "xmm6", "xmm7",
                     "xmm8", "xmm9", "xmm10", "xmm11", "xmm12", "xmm13", "xmm14", "xmm15", "cc", "memory");
    return function;
}

/* the bytes that the call takes; at a call the stack pointer is a multiple of 16, so pushed is even */
static size_t taken(uintptr_t function, const uint64_t *arguments, uint64_t pushed)
{
    static const int colours[] = {0xa5, 0x5a};
    uint8_t *end = painted + sizeof painted - (uintptr_t)(painted + sizeof painted) % 16;
    size_t most = 0;
    int c;
    for (c = 0; c < 2; c++) {
        const uint8_t *lowest = painted;
        memset(painted, colours[c], sizeof painted);
        answer = call_at(end, function, arguments, pushed) & 0xff;
        while (lowest < end && *lowest == colours[c])
            lowest++;
        most = (size_t)(end - lowest) > most ? (size_t)(end - lowest) : most;
    }
    return most;
}

static uint64_t at(const void *memory)
{
    return (uintptr_t)memory;
}

static size_t run_taken(uint32_t mode, size_t mail_length, size_t report_length)
{
    uint64_t arguments[12];
    arguments[0] = mode;
    arguments[1] = at(made.bytes);
    arguments[2] = made.length;
    arguments[3] = at(rooms.counts);
    arguments[4] = HATSUVREN_COUNTS_LENGTH;
    arguments[5] = at(rooms.words);
    arguments[6] = HATSUVREN_WORDS_LENGTH;
    arguments[7] = at(rooms.mail);
    arguments[8] = mail_length;
    arguments[9] = at(report);
    arguments[10] = report_length;
    arguments[11] = at(&told);
    return taken((uintptr_t)hatsuvren_run, arguments, 6);
}

static size_t deepest(size_t one, size_t other)
{
    return one > other ? one : other;
}

/* a measure of another answer than is meant is none */
static void expect(const char *what, uint64_t number)
{
    if (answer != number) {
        printf("%s: answered %u, not %u\n", what, (unsigned)answer, (unsigned)number);
        wrong = 1;
    }
}

/* the log that was made, in every way: small rooms, a small report room, room enough, and an unknown mode */
static size_t runs(const char *what, uint8_t number)
{
    size_t most = 0;
    uint32_t mode;
    for (mode = 0; mode <= 2; mode++) {
        most = deepest(most, run_taken(mode, HATSUVREN_MAIL_LENGTH - 1, sizeof report));
        expect("small rooms", mode == 2 ? HATSUVREN_UNKNOWN_MODE : HATSUVREN_SMALL_ROOMS);
        most = deepest(most, run_taken(mode, HATSUVREN_MAIL_LENGTH, 0));
        expect("a small report room", mode == 2 ? HATSUVREN_UNKNOWN_MODE : number == 0 ? HATSUVREN_SMALL_REPORT : number);
        most = deepest(most, run_taken(mode, HATSUVREN_MAIL_LENGTH, sizeof report));
        expect(what, mode == 2 ? HATSUVREN_UNKNOWN_MODE : number);
    }
    return most;
}

/* the numbers that a short log gets */
static size_t short_runs(void)
{
    static const struct {
        uint8_t number, length, bytes[12];
    } faults[] = {{2, 1, {0x10}}, {3, 2, {0x10, 33}}, {4, 3, {0x10, 32, 0x15}}, {5, 3, {0x10, 32, 0x13}},
        {6, 7, {0x10, 32, 0x13, 0, 32, 1, 0}}, {7, 7, {0x10, 32, 0x13, 0, 0, 1, 0}},
        {8, 12, {0x10, 32, 0x13, 0, 1, 1, 0, 0x13, 1, 0, 1, 0}}, {10, 6, {0x10, 32, 0x14, 1, 1, 0}},
        {11, 11, {0x10, 32, 0x13, 0, 1, 1, 0, 0x14, 2, 1, 0}}};
    size_t most = 0, f;
    for (f = 0; f < sizeof faults / sizeof faults[0]; f++) {
        made.length = faults[f].length;
        memcpy(made.bytes, faults[f].bytes, made.length);
        most = deepest(most, runs("a fault", faults[f].number));
    }
    return most;
}

/* the largest logs; the chain's report is left in its room */
static size_t long_runs(void)
{
    size_t most;
    put_busy(&made);
    most = runs("the busy log", HATSUVREN_ACCEPTED);
    put_plain(&made, 0);
    most = deepest(most, runs("a 4,097th event", HATSUVREN_TOO_MANY_EVENTS));
    made.length = 2 + 128 * 5;
    put_send(&made, 0, 1, 128);
    most = deepest(most, runs("a 129th message", HATSUVREN_FLIGHT_FULL));
    put_chain(&made);
    most = deepest(most, runs("the chain", HATSUVREN_ACCEPTED));
    return deepest(most, run_taken(HATSUVREN_SHORT, HATSUVREN_MAIL_LENGTH, sizeof report));
}

static size_t compared(uint8_t number, size_t length, uint8_t first, uint16_t first_number, uint8_t second, uint16_t second_number)
{
    static uint8_t order;
    static size_t place;
    uint64_t arguments[8];
    size_t most;
    arguments[0] = at(report);
    arguments[1] = length;
    arguments[2] = first;
    arguments[3] = first_number;
    arguments[4] = second;
    arguments[5] = second_number;
    arguments[6] = at(&order);
    arguments[7] = at(&place);
    most = taken((uintptr_t)hatsuvren_compare, arguments, 2);
    expect("comparing", number);
    return most;
}

/* every answer of a comparison in the report of the chain, which for 14 has its last group a second time */
static size_t comparisons(size_t length)
{
    size_t most = compared(0, length, 31, 1, 0, 4003);
    most = deepest(most, compared(0, length, 0, 4003, 0, 4002));
    most = deepest(most, compared(0, length, 0, 1, 0, 1));
    most = deepest(most, compared(HATSUVREN_FIRST_ABSENT, length, 0, 4004, 0, 1));
    most = deepest(most, compared(HATSUVREN_SECOND_ABSENT, length, 0, 1, 32, 1));
    memcpy(report + length, report + length - 137, 137);
    return deepest(most, compared(HATSUVREN_NOT_WELL_FORMED, length + 137, 0, 1, 31, 1));
}

int main(void)
{
    size_t shorter = short_runs(), run = deepest(shorter, long_runs());
    size_t compare = comparisons(told.bytes);
    printf("run %zu bytes\ncompare %zu bytes\n", run, compare);
    return wrong || run > MOST || compare > MOST;
}
