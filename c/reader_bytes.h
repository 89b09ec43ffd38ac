/* Judging, counting and one reading over bytes; the archive is libboundary_bytes.a (tools/archive FOLDER), which needs no other. Events and
   what is written are words as bytes, the low byte first: 2 bytes for an event and for a word of a script, 8 for a word of a chart, 4 for a
   word of a table. A slice is a pointer and a length in bytes, and may begin at any address; a pointer with the length 0 is not read but must
   not be null. Each function answers what the one of reader.h with the same name answers of the words that the bytes show, with the same
   refusals, but that 8 is given exactly where there are more than 192 bytes of events, and behind it 14 where their number is odd. Lent bytes
   hold as many words as fit into them whole; 9, 10 and 11 are given where these are fewer than are needed. On success the words that are
   needed are written from the first byte on, and every other byte keeps its value, also one of a rest that is no whole word. A refusal writes
   no lent byte, but that 12 and 13 leave the table filled. docs/REFERENCE.md says it in full. */
#ifndef READER_BYTES_H
#define READER_BYTES_H
#include <stdbool.h>
#include <stddef.h>
#include <stdint.h>

uint8_t reader_judge_bytes(const uint8_t *image, size_t image_len,
                           const uint8_t *events, size_t events_len,
                           uint8_t *chart, size_t chart_len,
                           uint16_t *rule, bool *admitted, uint64_t *items, uint64_t *firings);

uint8_t reader_count_bytes(const uint8_t *image, size_t image_len,
                           const uint8_t *events, size_t events_len,
                           uint8_t *table, size_t table_len,
                           uint16_t *rule, uint32_t *total);

uint8_t reader_reading_bytes(const uint8_t *image, size_t image_len,
                             const uint8_t *events, size_t events_len, uint32_t k,
                             uint8_t *table, size_t table_len,
                             uint8_t *room, size_t room_len, uint16_t *rule);

/* The lent bytes that a record of n events needs with a grammar of N symbols. These and the following are constants where N and n are. */
#define READER_CHART_BYTES(n) (4ul * (n) * ((n) + 1))
#define READER_TABLE_BYTES(N, n) (2ul * (N) * (n) * ((n) + 1))
#define READER_ROOM_BYTES(n) ((n) == 0 ? 0ul : 4ul * (2ul * (n) - 1))

/* The most bytes of stack that a call takes, for up to 96 events and 64 symbols; no heap is used. A call makes the words on its stack, in the
   smallest of a few sizes that holds those that are needed, however many are lent, and takes a part besides that is the same for all. */
#define READER_CHART_STACK(n) (READER_CHART_BYTES(n) <= 8 * 528 ? 8ul * 528 : 8ul * 4656)
#define READER_TABLE_STACK(N, n) (4ul * READER_TABLE_SIZE(READER_TABLE_BYTES(N, n) / 4))
#define READER_TABLE_SIZE(words) \
    ((words) <= 2048 ? 2048 : (words) <= 16384 ? 16384 : (words) <= 65536 ? 65536 : (words) <= 133120 ? 133120 : 297984)
#define READER_OWN_STACK 114688ul
#define READER_JUDGE_BYTES_STACK(n) (READER_OWN_STACK + READER_CHART_STACK(n))
#define READER_COUNT_BYTES_STACK(N, n) (READER_OWN_STACK + READER_TABLE_STACK(N, n))
#define READER_READING_BYTES_STACK(N, n) (READER_OWN_STACK + READER_TABLE_STACK(N, n))
#endif
