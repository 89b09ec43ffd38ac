/* Tests the functions of reader_bytes.h: what each answers, every byte that it leaves, and that it touches nothing else. A refusal is written
   here by hand; else the answer, the chart, the table and the script must be those of reader.h, low byte first.
   The memory of each call stands in four ways. Before and behind a page that cannot be touched: a byte past the end, or one before the
   beginning, ends the program, and so does a byte written into an image or into events. In a block of the heap of exactly that length, and in
   one at an odd address: there valgrind sees every byte too many, and the address sanitizer those that the C library's functions touch. What
   lies around and can be touched are guards, which must stay. */
#define _DEFAULT_SOURCE
#include "reader.h"
#include "reader_bytes.h"
#include <stdio.h>
#include <stdlib.h>
#include <string.h>
#include <sys/mman.h>
#include <unistd.h>

enum { MOST_EVENTS = 96, GUARD = 0xA5 };

#define COUNT_OF(list) (sizeof(list) / sizeof *(list))

static unsigned passed, failed;

/* ---- memory */

enum place { BEFORE_A_WALL, BEHIND_A_WALL, EXACT, ODD, PLACES };

static const char *const place_names[] = {"before a wall", "behind a wall", "exact", "odd"};

/* a part of what can be touched, and what the system gave for it: walled where it came with a page that cannot be */
struct block {
    uint8_t *at, *from, *to, *given;
    size_t length, size;
    bool walled;
};

static void *or_stop(void *given)
{
    if (given == NULL || given == MAP_FAILED) {
        perror("bytes");
        exit(1);
    }
    return given;
}

static struct block take_walled(size_t length, enum place place)
{
    size_t page = sysconf(_SC_PAGESIZE), open = (length / page + 1) * page;
    struct block block = {.length = length, .size = open + page, .walled = true};
    block.given = or_stop(mmap(NULL, block.size, PROT_READ | PROT_WRITE, MAP_PRIVATE | MAP_ANONYMOUS, -1, 0));
    block.from = block.given + (place == BEHIND_A_WALL ? page : 0);
    block.to = block.from + open;
    block.at = place == BEHIND_A_WALL ? block.from : block.to - length;
    mprotect(place == BEHIND_A_WALL ? block.given : block.to, page, PROT_NONE);
    return block;
}

static struct block take_from_heap(size_t length, size_t before)
{
    struct block block = {.length = length, .size = before + length};
    block.given = block.from = or_stop(malloc(block.size));
    block.at = block.from + before;
    block.to = block.at + length;
    return block;
}

static struct block take(size_t length, enum place place)
{
    bool walled = place == BEFORE_A_WALL || place == BEHIND_A_WALL;
    struct block block = walled ? take_walled(length, place) : take_from_heap(length, place == ODD);
    memset(block.from, GUARD, block.to - block.from);
    return block;
}

static void give_back(struct block block)
{
    if (block.walled)
        munmap(block.given, block.size);
    else
        free(block.given);
}

/* what a lent byte holds before the call, another value at each of 256 places */
static uint8_t lent_byte(size_t x)
{
    return 29 * x + 77;
}

static struct block lend(size_t length, enum place place)
{
    struct block block = take(length, place);
    for (size_t x = 0; x < length; x++)
        block.at[x] = lent_byte(x);
    return block;
}

static struct block show(const uint8_t *bytes, size_t length, enum place place)
{
    struct block block = take(length, place);
    memcpy(block.at, bytes, length);
    if (block.walled)
        mprotect(block.from, block.to - block.from, PROT_READ);
    return block;
}

/* Whether the guards stand, the first bytes are those that should be written, and the others are as lent. */
static bool holds(struct block block, const uint8_t *written, size_t count)
{
    for (const uint8_t *at = block.from; at < block.to; at++) {
        size_t x = at - block.at;
        bool inside = at >= block.at && x < block.length;
        if (*at != (!inside ? GUARD : x < count ? written[x] : lent_byte(x)))
            return false;
    }
    return true;
}

/* ---- grammars and records */

struct grammar {
    const char *name;
    const uint8_t *image;
    size_t length, symbols;
    /* which come again and again in a record */
    uint16_t events[3];
};

static const uint8_t chain_image[] = {0x45, 0x53, 0x47, 1, 0, 1, 1, 0, 1, 0, 0, 7, 0, 0, 0, 0};
static const uint8_t quiet_image[] = {0x45, 0x53, 0x47, 2, 0, 1, 1, 0, 1, 0, 1, 0, 7, 0, 0, 0, 0};
static const uint8_t stop_image[] = {0x45, 0x53, 0x47, 1, 0, 6, 3, 0, 4, 0, 2, 1, 0, 4, 2, 0, 5, 3, 0, 0, 1, 0, 0, 2, 3, 1, 2, 3, 3, 4, 5};
/* 64 symbols, each of which turns into 7 and into 258; symbol 0 turns into itself and any symbol */
static uint8_t wide_image[10 + 3 * (128 + 64)] = {0x45, 0x53, 0x47, 1, 0, 64, 128, 0, 64, 0};

static const struct grammar chain = {"CHAIN", chain_image, sizeof chain_image, 1, {7, 7, 7}};
static const struct grammar quiet = {"CHAIN with the flag", quiet_image, sizeof quiet_image, 1, {7, 7, 7}};
static const struct grammar stop = {"STOP", stop_image, sizeof stop_image, 6, {1, 2, 3}};
static const struct grammar wide = {"64 symbols", wide_image, sizeof wide_image, 64, {7, 258, 258}};

static void write_wide_image(void)
{
    uint8_t *at = wide_image + 10;
    for (size_t symbol = 0; symbol < 64; symbol++, at += 6)
        memcpy(at, (uint8_t[]){symbol, 7, 0, symbol, 2, 1}, 6);
    for (size_t symbol = 0; symbol < 64; symbol++, at += 3)
        memcpy(at, (uint8_t[]){0, 0, symbol}, 3);
}

/* what a call is asked about */
struct input {
    const char *name;
    const uint8_t *image;
    size_t image_length;
    uint8_t events[2 * MOST_EVENTS + 8];
    size_t events_length;
};

static struct input input_of(const struct grammar *grammar, size_t events_length)
{
    struct input input = {grammar->name, grammar->image, grammar->length, {0}, events_length};
    for (size_t x = 0; x < events_length; x++)
        input.events[x] = grammar->events[x / 2 % 3] >> (x % 2 * 8);
    return input;
}

/* ---- what the functions over words say of a record, with its words as bytes */

struct judged {
    unsigned number, rule;
    bool admitted;
    uint64_t items, firings;
};

struct counted {
    unsigned number, rule;
    uint32_t total;
};

struct known {
    struct input input;
    uint16_t events[MOST_EVENTS];
    size_t n, table_words, script_words, chart_bytes, table_bytes, script_bytes;
    uint8_t *chart, *table;
    struct judged judged;
    struct counted counted;
};

static uint8_t *low_byte_first(uint8_t *to, uint64_t word, size_t bytes)
{
    for (size_t x = 0; x < bytes; x++)
        *to++ = word >> (8 * x);
    return to;
}

static void know_chart(struct known *known)
{
    size_t words = known->n * (known->n + 1) / 2;
    uint64_t *chart = or_stop(malloc(8 * words + 1));
    struct judged *judged = &known->judged;
    uint16_t rule;
    judged->number = reader_judge(known->input.image, known->input.image_length, known->events, known->n, chart, words, &rule, &judged->admitted,
                                  &judged->items, &judged->firings);
    judged->rule = rule;
    known->chart_bytes = 8 * words;
    uint8_t *to = known->chart = or_stop(malloc(8 * words + 1));
    for (size_t x = 0; x < words; x++)
        to = low_byte_first(to, chart[x], 8);
    free(chart);
}

static uint8_t *table_as_bytes(const uint32_t *table, size_t words)
{
    uint8_t *bytes = or_stop(malloc(4 * words + 1)), *to = bytes;
    for (size_t x = 0; x < words; x++)
        to = low_byte_first(to, table[x], 4);
    return bytes;
}

static void know_table(struct known *known)
{
    uint32_t *table = or_stop(malloc(4 * known->table_words + 1));
    uint16_t rule;
    known->counted.number = reader_count(known->input.image, known->input.image_length, known->events, known->n, table, known->table_words,
                                         &rule, &known->counted.total);
    known->counted.rule = rule;
    known->table = table_as_bytes(table, known->table_words);
    free(table);
}

static struct known know(const struct grammar *grammar, size_t n)
{
    struct known known = {.input = input_of(grammar, 2 * n), .n = n, .table_words = grammar->symbols * n * (n + 1) / 2};
    for (size_t x = 0; x < n; x++)
        known.events[x] = grammar->events[x % 3];
    known.table_bytes = 4 * known.table_words;
    known.script_words = n == 0 ? 0 : 2 * (2 * n - 1);
    known.script_bytes = 2 * known.script_words;
    know_chart(&known);
    know_table(&known);
    return known;
}

static void forget(struct known known)
{
    free(known.chart);
    free(known.table);
}

/* ---- one call, and whether all is as it should be */

static void tell(bool right, const char *service, const struct input *input, const size_t *lengths, size_t count, enum place place)
{
    passed += right;
    failed += !right;
    if (right)
        return;
    printf("FAILED: %s, %s, %zu bytes of events, lent", service, input->name, input->events_length);
    for (size_t x = 0; x < count; x++)
        printf(" %zu", lengths[x]);
    printf(", %s\n", place_names[place]);
}

static bool same_judged(struct judged one, struct judged other)
{
    return one.number == other.number && one.rule == other.rule && one.admitted == other.admitted && one.items == other.items &&
           one.firings == other.firings;
}

static void try_judge(const struct input *input, size_t lent, enum place place, struct judged wanted, const uint8_t *written, size_t count)
{
    struct block image = show(input->image, input->image_length, place), events = show(input->events, input->events_length, place);
    struct block chart = lend(lent, place);
    struct judged found = {0, 0, true, 5, 5};
    uint16_t rule = 5;
    found.number = reader_judge_bytes(image.at, image.length, events.at, events.length, chart.at, chart.length, &rule, &found.admitted,
                                      &found.items, &found.firings);
    found.rule = rule;
    bool right = same_judged(found, wanted) && holds(chart, written, count) && holds(image, input->image, image.length) &&
                 holds(events, input->events, events.length);
    tell(right, "judge", input, &lent, 1, place);
    give_back(image);
    give_back(events);
    give_back(chart);
}

static void try_count(const struct input *input, size_t lent, enum place place, struct counted wanted, const uint8_t *written, size_t count)
{
    struct block image = show(input->image, input->image_length, place), events = show(input->events, input->events_length, place);
    struct block table = lend(lent, place);
    uint32_t total = 5;
    uint16_t rule = 5;
    unsigned number = reader_count_bytes(image.at, image.length, events.at, events.length, table.at, table.length, &rule, &total);
    bool right = number == wanted.number && rule == wanted.rule && total == wanted.total && holds(table, written, count) &&
                 holds(image, input->image, image.length) && holds(events, input->events, events.length);
    tell(right, "count", input, &lent, 1, place);
    give_back(image);
    give_back(events);
    give_back(table);
}

/* a reading that is asked for, and what it should leave; the lengths are those of table and room, lent and written */
struct read {
    uint32_t k;
    unsigned number, rule;
    size_t lent[2], count[2];
    const uint8_t *table, *script;
};

static void try_reading(const struct input *input, struct read read, enum place place)
{
    struct block image = show(input->image, input->image_length, place), events = show(input->events, input->events_length, place);
    struct block table = lend(read.lent[0], place), room = lend(read.lent[1], place);
    uint16_t rule = 5;
    unsigned number = reader_reading_bytes(image.at, image.length, events.at, events.length, read.k, table.at, table.length, room.at,
                                           room.length, &rule);
    bool right = number == read.number && rule == read.rule && holds(table, read.table, read.count[0]) &&
                 holds(room, read.script, read.count[1]) && holds(image, input->image, image.length) &&
                 holds(events, input->events, events.length);
    tell(right, "reading", input, read.lent, 2, place);
    give_back(image);
    give_back(events);
    give_back(table);
    give_back(room);
}

/* ---- refusals that come before the lent lengths count: all three services give them, whatever is lent, and write nothing */

static const uint8_t short_image[] = {0x45, 0x53, 0x47, 1, 0, 1, 1, 0, 1};
static const uint8_t mark_image[] = {0x45, 0x53, 0x46, 1, 0, 1, 1, 0, 1, 0, 0, 7, 0, 0, 0, 0};
static const uint8_t version_image[] = {0x45, 0x53, 0x47, 3, 0, 1, 1, 0, 1, 0, 0, 7, 0, 0, 0, 0};
static const uint8_t range_image[] = {0x45, 0x53, 0x47, 2, 0, 1, 1, 0, 1, 0, 2, 0, 7, 0, 0, 0, 0};
static const uint8_t length_image[] = {0x45, 0x53, 0x47, 1, 0, 1, 1, 0, 1, 0, 0, 7, 0, 0, 0};
static const uint8_t symbol_image[] = {0x45, 0x53, 0x47, 1, 0, 1, 1, 0, 1, 0, 0, 7, 0, 0, 1, 0};
static const uint8_t order_image[] = {0x45, 0x53, 0x47, 1, 0, 1, 2, 0, 1, 0, 0, 7, 0, 0, 7, 0, 0, 0, 0};
static const uint8_t dead_image[] = {0x45, 0x53, 0x47, 1, 0, 2, 1, 0, 2, 0, 0, 7, 0, 0, 0, 0, 0, 0, 1};

static const struct grammar short_one = {"9 bytes", short_image, sizeof short_image, 1, {7, 7, 7}};
static const struct grammar wrong_mark = {"a wrong mark", mark_image, sizeof mark_image, 1, {7, 7, 7}};
static const struct grammar wrong_version = {"version 3", version_image, sizeof version_image, 1, {7, 7, 7}};
static const struct grammar wrong_range = {"flag 2", range_image, sizeof range_image, 1, {7, 7, 7}};
static const struct grammar wrong_length = {"a byte short", length_image, sizeof length_image, 1, {7, 7, 7}};
static const struct grammar wrong_symbol = {"rule 1 with symbol N", symbol_image, sizeof symbol_image, 1, {7, 7, 7}};
static const struct grammar wrong_order = {"a rule twice", order_image, sizeof order_image, 1, {7, 7, 7}};
static const struct grammar dead = {"a dead symbol", dead_image, sizeof dead_image, 2, {7, 7, 7}};

static const struct refused {
    const struct grammar *grammar;
    size_t events_length;
    unsigned number, rule;
} refused[] = {
    {&short_one, 2, 1, 0}, {&short_one, 194, 1, 0}, {&wrong_mark, 2, 2, 0}, {&wrong_version, 3, 3, 0}, {&wrong_range, 0, 4, 0},
    {&wrong_length, 6, 5, 0}, {&wrong_symbol, 6, 6, 1}, {&wrong_symbol, 193, 6, 1}, {&wrong_order, 6, 7, 1}, {&wrong_order, 191, 7, 1},
    {&dead, 6, 15, 0}, {&dead, 1, 15, 0}, {&dead, 193, 15, 0}, {&chain, 1, 14, 0}, {&chain, 3, 14, 0},
    {&chain, 191, 14, 0}, {&chain, 193, 8, 0}, {&chain, 194, 8, 0}, {&chain, 195, 8, 0}, {&quiet, 1, 14, 0},
    {&stop, 5, 14, 0}, {&stop, 199, 8, 0}, {&wide, 191, 14, 0}, {&wide, 193, 8, 0}, {&wide, 194, 8, 0},
};

static void try_refused(struct refused row)
{
    static const size_t lent[] = {0, 1, 65536};
    struct input input = input_of(row.grammar, row.events_length);
    struct judged judged = {row.number, row.rule, false, 0, 0};
    struct counted counted = {row.number, row.rule, 0};
    for (size_t x = 0; x < COUNT_OF(lent); x++)
        for (enum place place = 0; place < PLACES; place++) {
            struct read read = {0, row.number, row.rule, {lent[x], lent[x]}, {0, 0}, NULL, NULL};
            try_judge(&input, lent[x], place, judged, NULL, 0);
            try_count(&input, lent[x], place, counted, NULL, 0);
            try_reading(&input, read, place);
        }
}

/* ---- lengths: so many bytes more or less than are needed; less than that is 9 or 10, and a rest is no word */

static void try_length(const struct known *known, long more, enum place place)
{
    long chart = (long)known->chart_bytes + more, table = (long)known->table_bytes + more;
    bool enough = more >= 0;
    if (chart >= 0)
        try_judge(&known->input, chart, place, enough ? known->judged : (struct judged){.number = 9}, known->chart, enough ? known->chart_bytes : 0);
    if (table >= 0)
        try_count(&known->input, table, place, enough ? known->counted : (struct counted){.number = 10}, known->table,
                  enough ? known->table_bytes : 0);
}

static const struct {
    const struct grammar *grammar;
    size_t n;
} records[] = {
    {&chain, 0}, {&chain, 1}, {&chain, 3}, {&chain, 15}, {&chain, 16}, {&chain, 32}, {&chain, 33}, {&chain, 96},
    {&quiet, 0}, {&quiet, 2}, {&stop, 0}, {&stop, 2}, {&stop, 3}, {&stop, 6}, {&stop, 96}, {&wide, 1},
    {&wide, 22}, {&wide, 23},
};

static void try_record(const struct grammar *grammar, size_t n)
{
    static const long more[] = {-1000, -9, -8, -7, -4, -1, 0, 1, 2, 3, 4, 7, 8, 9, 1000};
    struct known known = know(grammar, n);
    for (enum place place = 0; place < PLACES; place++)
        for (size_t x = 0; x < COUNT_OF(more); x++)
            try_length(&known, more[x], place);
    forget(known);
}

/* ---- readings: each with a table and a room of several lengths */

static const struct asked {
    const struct grammar *grammar;
    size_t n;
    uint32_t k;
    unsigned number;
} asked[] = {
    {&chain, 0, 0, 12}, {&chain, 0, UINT32_MAX, 12}, {&quiet, 0, 0, 0}, {&quiet, 0, 1, 12}, {&quiet, 0, UINT32_MAX, 12},
    {&chain, 1, 0, 0}, {&chain, 3, 0, 0}, {&chain, 3, 1, 0}, {&chain, 3, 2, 12}, {&chain, 3, UINT32_MAX, 12},
    {&chain, 20, 1767263189, 0}, {&chain, 20, 1767263190, 12}, {&chain, 21, UINT32_MAX - 1, 0}, {&chain, 21, UINT32_MAX, 13}, {&chain, 96, 5, 0},
    {&stop, 2, 0, 12}, {&stop, 3, 0, 0}, {&stop, 6, 0, 0}, {&stop, 6, 1, 12}, {&stop, 96, 0, 0},
    {&wide, 3, 4159, 0}, {&wide, 3, 4160, 12},
};

static void try_reading_with(const struct known *known, struct asked row, long table_more, long room_more, const uint8_t *script, enum place place)
{
    struct read read = {.k = row.k, .number = row.number, .table = known->table, .script = script};
    bool filled = table_more >= 0 && room_more >= 0;
    read.lent[0] = known->table_bytes + table_more;
    read.lent[1] = known->script_bytes + room_more;
    if (!filled)
        read.number = table_more < 0 ? 10 : 11;
    read.count[0] = filled ? known->table_bytes : 0;
    read.count[1] = read.number == 0 ? known->script_bytes : 0;
    try_reading(&known->input, read, place);
}

static uint8_t *script_as_bytes(const struct known *known, struct asked row)
{
    uint32_t *table = or_stop(malloc(known->table_bytes + 1));
    uint16_t script[2 * (2 * MOST_EVENTS - 1)], rule;
    uint8_t *bytes = or_stop(malloc(known->script_bytes + 1)), *to = bytes;
    unsigned number = reader_reading(known->input.image, known->input.image_length, known->events, known->n, row.k, table, known->table_words,
                                     script, known->script_words, &rule);
    for (size_t x = 0; number == 0 && x < known->script_words; x++)
        to = low_byte_first(to, script[x], 2);
    free(table);
    return bytes;
}

static void try_asked(const struct known *known, struct asked row, const long *more, size_t count, enum place place)
{
    uint8_t *script = script_as_bytes(known, row);
    for (size_t x = 0; x < count; x++)
        for (size_t y = 0; y < count; y++)
            if ((long)known->table_bytes + more[x] >= 0 && (long)known->script_bytes + more[y] >= 0)
                try_reading_with(known, row, more[x], more[y], script, place);
    free(script);
}

static void try_everywhere(struct asked row)
{
    static const long more[] = {-2, -1, 0, 1, 3, 8};
    struct known known = know(row.grammar, row.n);
    for (enum place place = 0; place < PLACES; place++)
        try_asked(&known, row, more, COUNT_OF(more), place);
    forget(known);
}

/* ---- the longest records of the widest grammar, each length in one place, since a call takes long under valgrind */

static void try_wide(size_t n, uint32_t k, unsigned number)
{
    static const long more[] = {-1, 0, 3};
    struct known known = know(&wide, n);
    for (size_t x = 0; x < COUNT_OF(more); x++) {
        enum place place = x % 2 == 0 ? BEFORE_A_WALL : ODD;
        try_length(&known, more[x], place);
        try_asked(&known, (struct asked){&wide, n, k, number}, &more[x], 1, place);
    }
    forget(known);
}

int main(void)
{
    write_wide_image();
    for (size_t x = 0; x < COUNT_OF(refused); x++)
        try_refused(refused[x]);
    for (size_t x = 0; x < COUNT_OF(records); x++)
        try_record(records[x].grammar, records[x].n);
    for (size_t x = 0; x < COUNT_OF(asked); x++)
        try_everywhere(asked[x]);
    try_wide(64, UINT32_MAX - 1, 0);
    try_wide(96, UINT32_MAX, 13);
    printf("%u passed, %u failed\n", passed, failed);
    return failed != 0;
}
