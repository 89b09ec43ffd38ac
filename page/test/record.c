/* The services of the archive, whose functions are renamed to native_*, with each call written to the file RECORD: its arguments before
   and every lent word after it. A call is two lengths in 32 bits, of the request and of the answer, and both.
   - The request: the service, the number of arguments, and each of them: its kind (0 a number, 1 a slice, 2 a pointer alone), the bytes of an
     element, the number or the count of elements in 32 bits, and the elements.
   - The answer: the number that was returned, and all arrays in order, those that are only read too.
   Numbers have their low byte first, as on every processor that this runs on. Of long calls only some are kept. */
#include "../../c/reader.h"
#include <stdio.h>
#include <stdlib.h>
#include <string.h>

enum { LONG = 8192, KEPT_OF_LONG = 40, MOST_ARGUMENTS = 12 };

struct argument {
    uint8_t kind, size;
    uint32_t count;
    void *at;
};

struct call {
    struct argument arguments[MOST_ARGUMENTS];
    size_t count, bytes;
    char *request;
};

#define NUMBER(v) ((struct argument){0, 0, (v), NULL})
#define SLICE(p, n) ((struct argument){1, sizeof *(p), (uint32_t)(n), (void *)(p)})
#define WORDS(p, n) ((struct argument){2, sizeof *(p), (n), (p)})
#define ONE(p) WORDS(p, 1)

static size_t bytes_of(const struct argument *a)
{
    return a->kind ? (size_t)a->size * a->count : 0;
}

/* Before a call: its request, as the memory is then. */
static struct call before(uint8_t service, size_t count, const struct argument *arguments)
{
    struct call call = {.count = count, .bytes = 2};
    for (size_t x = 0; x < count; x++) {
        call.arguments[x] = arguments[x];
        call.bytes += 6 + bytes_of(&arguments[x]);
    }
    char *p = call.request = malloc(call.bytes);
    if (!p) abort();
    *p++ = (char)service, *p++ = (char)count;
    for (size_t x = 0; x < count; x++) {
        const struct argument *a = &arguments[x];
        *p++ = (char)a->kind, *p++ = (char)a->size;
        memcpy(p, &a->count, 4), p += 4;
        memcpy(p, a->kind ? a->at : p, bytes_of(a)), p += bytes_of(a);
    }
    return call;
}

static bool kept(size_t bytes)
{
    static unsigned seen;
    return bytes <= LONG || seen++ % KEPT_OF_LONG == 0;
}

/* After it: what it left in the same memory. */
static uint8_t after(struct call call, uint8_t refusal)
{
    static FILE *file;
    uint32_t lengths[2] = {(uint32_t)call.bytes, 1};
    for (size_t x = 0; x < call.count; x++) lengths[1] += (uint32_t)bytes_of(&call.arguments[x]);
    if (!file && !(file = fopen(getenv("RECORD"), "wb"))) abort();
    if (kept(call.bytes)) {
        fwrite(lengths, 4, 2, file);
        fwrite(call.request, 1, call.bytes, file);
        fputc(refusal, file);
        for (size_t x = 0; x < call.count; x++) {
            if (call.arguments[x].kind) fwrite(call.arguments[x].at, call.arguments[x].size, call.arguments[x].count, file);
        }
        if (ferror(file)) abort();
    }
    free(call.request);
    return refusal;
}

/* A service by its place in the header: its parameters, its arguments as they are written, and as they are handed on. */
#define UNPACK(...) __VA_ARGS__
#define SERVICE(place, name, parameters, written, handed_on)                                                                       \
    uint8_t native_##name(parameters);                                                                                             \
    uint8_t reader_##name(parameters)                                                                                              \
    {                                                                                                                              \
        struct argument arguments[] = {written};                                                                                   \
        struct call call = before(place, sizeof arguments / sizeof *arguments, arguments);                                         \
        return after(call, native_##name(handed_on));                                                                              \
    }
#define IMAGE const uint8_t *image, size_t image_len
#define RECORD_ const uint16_t *events, size_t events_len
#define TABLE uint32_t *table, size_t table_len
#define ROOM uint16_t *room, size_t room_len
#define SCRIPT const uint16_t *script, size_t script_len
#define SESSION uint64_t chart[READER_SESSION_WORDS], uint64_t *count
#define S(name) SLICE(name, name##_len)
#define H(name) name, name##_len

SERVICE(0, test, UNPACK(IMAGE, uint16_t *rule, size_t *symbols, size_t *leaves, size_t *pairs),
        UNPACK(S(image), ONE(rule), ONE(symbols), ONE(leaves), ONE(pairs)), UNPACK(H(image), rule, symbols, leaves, pairs))
SERVICE(1, judge, UNPACK(IMAGE, RECORD_, uint64_t *chart, size_t chart_len, uint16_t *rule, bool *admitted, uint64_t *items, uint64_t *firings),
        UNPACK(S(image), S(events), S(chart), ONE(rule), ONE(admitted), ONE(items), ONE(firings)),
        UNPACK(H(image), H(events), H(chart), rule, admitted, items, firings))
SERVICE(2, count, UNPACK(IMAGE, RECORD_, TABLE, uint16_t *rule, uint32_t *total),
        UNPACK(S(image), S(events), S(table), ONE(rule), ONE(total)), UNPACK(H(image), H(events), H(table), rule, total))
SERVICE(3, reading, UNPACK(IMAGE, RECORD_, uint32_t k, TABLE, ROOM, uint16_t *rule),
        UNPACK(S(image), S(events), NUMBER(k), S(table), S(room), ONE(rule)), UNPACK(H(image), H(events), k, H(table), H(room), rule))
SERVICE(4, page, UNPACK(IMAGE, RECORD_, uint32_t k, uint32_t m, TABLE, ROOM, uint16_t *rule, uint32_t *written_),
        UNPACK(S(image), S(events), NUMBER(k), NUMBER(m), S(table), S(room), ONE(rule), ONE(written_)),
        UNPACK(H(image), H(events), k, m, H(table), H(room), rule, written_))
SERVICE(5, check, UNPACK(IMAGE, RECORD_, SCRIPT, uint16_t *rule, bool *yes),
        UNPACK(S(image), S(events), S(script), ONE(rule), ONE(yes)), UNPACK(H(image), H(events), H(script), rule, yes))
SERVICE(6, number, UNPACK(IMAGE, RECORD_, SCRIPT, TABLE, uint16_t *rule, uint32_t *reading),
        UNPACK(S(image), S(events), S(script), S(table), ONE(rule), ONE(reading)),
        UNPACK(H(image), H(events), H(script), H(table), rule, reading))
SERVICE(8, add, UNPACK(IMAGE, SESSION, uint16_t event, uint16_t *rule, bool *admitted, uint64_t *firings),
        UNPACK(S(image), WORDS(chart, READER_SESSION_WORDS), ONE(count), NUMBER(event), ONE(rule), ONE(admitted), ONE(firings)),
        UNPACK(H(image), chart, count, event, rule, admitted, firings))
SERVICE(9, take_back, UNPACK(SESSION), UNPACK(WORDS(chart, READER_SESSION_WORDS), ONE(count)), UNPACK(chart, count))

void native_begin(uint64_t chart[READER_SESSION_WORDS], uint64_t *count);
void reader_begin(uint64_t chart[READER_SESSION_WORDS], uint64_t *count)
{
    struct argument arguments[] = {WORDS(chart, READER_SESSION_WORDS), ONE(count)};
    struct call call = before(7, 2, arguments);
    native_begin(chart, count);
    after(call, 0);
}
