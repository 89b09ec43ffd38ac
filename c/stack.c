/* Measures how much stack each function of reader_bytes.h takes, and compares it with what the header says: no call may take more, and none
   MARGIN less, lest the header ask for memory that nobody needs. A call runs on a stack of its own, all bytes of which hold a pattern
   before; the lowest byte that does not hold it afterwards is how far down the call went. Measured are both ends of every size that the
   header has, the smallest need and the largest. The longest memory is always lent, since the need alone counts. */
#define _GNU_SOURCE
#include "reader_bytes.h"
#include <stdio.h>
#include <string.h>
#include <ucontext.h>

enum { STACK = 4 << 20, PATTERN = 0xA5, MARGIN = 16384, MOST_SYMBOLS = 64, MOST_EVENTS = 96 };
enum service { JUDGE, COUNT, READING, SERVICES };

/* what a call needs memory for */
struct scale {
    size_t symbols, n;
};

static const char *const names[] = {"judge", "count", "reading"};
static unsigned passed, failed;

static _Alignas(16) uint8_t stack[STACK];
static uint8_t image[10 + 6 * MOST_SYMBOLS], events[2 * MOST_EVENTS];
static uint8_t chart[READER_CHART_BYTES(MOST_EVENTS) + 1], table[READER_TABLE_BYTES(MOST_SYMBOLS, MOST_EVENTS) + 1];
static uint8_t room[READER_ROOM_BYTES(MOST_EVENTS) + 1];

/* what runs on the other stack takes no arguments */
static struct {
    enum service service;
    struct scale scale;
    uint8_t *top;
    unsigned number;
} call;

static size_t needed(enum service service, struct scale scale)
{
    return service == JUDGE ? READER_CHART_BYTES(scale.n) : READER_TABLE_BYTES(scale.symbols, scale.n);
}

static size_t promised(enum service service, struct scale scale)
{
    if (service == JUDGE)
        return READER_JUDGE_BYTES_STACK(scale.n);
    if (service == COUNT)
        return READER_COUNT_BYTES_STACK(scale.symbols, scale.n);
    return READER_READING_BYTES_STACK(scale.symbols, scale.n);
}

/* ---- one call */

/* Every symbol turns into event 7, and symbol 0 into itself and any symbol: each part of a record is derived, and a script goes as deep as it
   has events. */
static void write_image(size_t symbols)
{
    uint8_t *at = image, head[] = {0x45, 0x53, 0x47, 1, 0, symbols, symbols, 0, symbols, 0};
    memcpy(at, head, sizeof head);
    at += sizeof head;
    for (size_t symbol = 0; symbol < symbols; symbol++, at += 3)
        memcpy(at, (uint8_t[]){symbol, 7, 0}, 3);
    for (size_t symbol = 0; symbol < symbols; symbol++, at += 3)
        memcpy(at, (uint8_t[]){0, 0, symbol}, 3);
}

static void make_call(void)
{
    size_t length = 10 + 6 * call.scale.symbols, bytes = 2 * call.scale.n;
    uint64_t items, firings;
    uint32_t total;
    uint16_t rule;
    bool admitted;
    call.top = __builtin_frame_address(0);
    if (call.service == JUDGE)
        call.number = reader_judge_bytes(image, length, events, bytes, chart, sizeof chart, &rule, &admitted, &items, &firings);
    else if (call.service == COUNT)
        call.number = reader_count_bytes(image, length, events, bytes, table, sizeof table, &rule, &total);
    else
        call.number = reader_reading_bytes(image, length, events, bytes, 0, table, sizeof table, room, sizeof room, &rule);
}

/* How far below its caller's frame the call goes. */
static size_t run_call(void)
{
    ucontext_t here, there;
    size_t untouched = 0;
    memset(stack, PATTERN, STACK);
    getcontext(&there);
    there.uc_stack.ss_sp = stack;
    there.uc_stack.ss_size = STACK;
    there.uc_link = &here;
    makecontext(&there, make_call, 0);
    swapcontext(&here, &there);
    while (stack[untouched] == PATTERN)
        untouched++;
    return call.top - (stack + untouched);
}

static void measure(enum service service, struct scale scale)
{
    size_t promise = promised(service, scale);
    call.service = service;
    call.scale = scale;
    write_image(scale.symbols);
    /* the first call may also look up the C library's functions, on the same stack */
    run_call();
    size_t measured = run_call();
    bool right = call.number == 0 && measured <= promise && measured + MARGIN >= promise;
    passed += right;
    failed += !right;
    printf("%-8s %2zu %2zu %8zu %8zu%s\n", names[service], scale.symbols, scale.n, measured, promise, right ? "" : " FAILED");
}

/* ---- the ends of every size */

/* Of all scales with this promise the smallest and the largest need; answers the next larger promise, or 0. */
static size_t measure_size(enum service service, size_t promise)
{
    struct scale scale, least = {0}, most = {0};
    size_t next = 0;
    for (scale.symbols = 1; scale.symbols <= MOST_SYMBOLS; scale.symbols++)
        for (scale.n = 1; scale.n <= MOST_EVENTS; scale.n++) {
            size_t other = promised(service, scale), need = needed(service, scale);
            if (other > promise && (next == 0 || other < next))
                next = other;
            if (other == promise && (least.n == 0 || need < needed(service, least)))
                least = scale;
            if (other == promise && need >= needed(service, most))
                most = scale;
        }
    measure(service, least);
    measure(service, most);
    return next;
}

int main(void)
{
    for (size_t x = 0; x < MOST_EVENTS; x++)
        events[2 * x] = 7;
    printf("service   N  n measured promised\n");
    for (enum service service = JUDGE; service < SERVICES; service++) {
        measure(service, (struct scale){6, 3});
        for (size_t promise = promised(service, (struct scale){1, 1}); promise != 0;)
            promise = measure_size(service, promise);
    }
    printf("%u passed, %u failed\n", passed, failed);
    return failed != 0;
}
