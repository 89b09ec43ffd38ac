/* The services as C functions; the archive is libboundary.a (tools/archive FOLDER). A slice is a pointer and a length in elements; a
   pointer with the length 0 is not read but must not be null. Each but reader_begin answers its refusal number, or 0, and the rest of
   its answer through the pointers from the rule on, which are always written: zeros on a refusal, but that refusals 6 and 7 give the
   first rule at fault as the rule, numbered as the rules stand in the image; with every other answer the rule is 0. For n events a chart
   needs n(n + 1)/2 words, a table as many for each symbol, and the room for a script 2(2n - 1), or none where n is 0; the room for a page
   of m scripts m times as many. reader_judge, reader_count, reader_reading, reader_page and reader_number take about 110 kB of stack.
   docs/REFERENCE.md says in full what each function does and when it refuses; docs/STATEMENTS.md where each fact is stated and proved.
   reader_bytes.h has judge, count and reading over bytes. */
#ifndef READER_H
#define READER_H
#include <stdbool.h>
#include <stddef.h>
#include <stdint.h>

uint8_t reader_test(const uint8_t *image, size_t image_len,
                    uint16_t *rule, size_t *symbols, size_t *leaves, size_t *pairs);

uint8_t reader_judge(const uint8_t *image, size_t image_len,
                     const uint16_t *events, size_t events_len,
                     uint64_t *chart, size_t chart_len,
                     uint16_t *rule, bool *admitted, uint64_t *items, uint64_t *firings);

uint8_t reader_count(const uint8_t *image, size_t image_len,
                     const uint16_t *events, size_t events_len,
                     uint32_t *table, size_t table_len,
                     uint16_t *rule, uint32_t *total);

uint8_t reader_reading(const uint8_t *image, size_t image_len,
                       const uint16_t *events, size_t events_len, uint32_t k,
                       uint32_t *table, size_t table_len,
                       uint16_t *room, size_t room_len, uint16_t *rule);

/* Readings k to k + m - 1, one script behind the other; fewer are written where the numbers end. */
uint8_t reader_page(const uint8_t *image, size_t image_len,
                    const uint16_t *events, size_t events_len, uint32_t k, uint32_t m,
                    uint32_t *table, size_t table_len,
                    uint16_t *room, size_t room_len,
                    uint16_t *rule, uint32_t *written);

uint8_t reader_check(const uint8_t *image, size_t image_len,
                     const uint16_t *events, size_t events_len,
                     const uint16_t *script, size_t script_len,
                     uint16_t *rule, bool *yes);

uint8_t reader_number(const uint8_t *image, size_t image_len,
                      const uint16_t *events, size_t events_len,
                      const uint16_t *script, size_t script_len,
                      uint32_t *table, size_t table_len,
                      uint16_t *rule, uint32_t *reading);

/* A session takes events as they arrive: it is a chart with room for 32 of them, and their count, passed as these two parts and written
   in place. Begun by reader_begin and with the same image for every add, its chart is that of a judgement of the events so far. An add at
   32 events or more is refused with 17, behind the refusals of the image, and a take-back with 18 where the count is 0 or more than 32; a
   refusal leaves the session as it was. */
enum { READER_SESSION_EVENTS = 32, READER_SESSION_WORDS = 528 };

struct reader_session {
    uint64_t chart[READER_SESSION_WORDS];
    uint64_t count;
};

/* The session without events, all words zero. */
void reader_begin(uint64_t chart[READER_SESSION_WORDS], uint64_t *count);

/* Adds an event: one column, worked out from the others as they stand. The verdict is that so far, the firings are the column's. */
uint8_t reader_add(const uint8_t *image, size_t image_len,
                   uint64_t chart[READER_SESSION_WORDS], uint64_t *count, uint16_t event,
                   uint16_t *rule, bool *admitted, uint64_t *firings);

/* Takes the last event back: its column is cleared, and every other word of the chart stays. */
uint8_t reader_take_back(uint64_t chart[READER_SESSION_WORDS], uint64_t *count);
#endif
