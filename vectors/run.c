/* Runs the services on each line of standard input, and writes the line's name with the answers.
   A line is a name, a colon, and a space and two digits for each byte of an image. What follows the image says what is asked:
   - nothing: the test of the image. Written are the number, the rule, N, L and B, and number and rule for records of 96 and of 97 events.
   - a semicolon: behind it the events, two bytes each, and behind another the length of a lent chart. Written is the judgement.
   - a plus: a session; behind it how it begins, and behind a semicolon its steps (run_session).
   - a bar: the readings of the record whose events follow. A line that ends there asks for every number; a semicolon asks for one number and
     a second bar for a page.
   - an equals sign: judge, count and reading over bytes; behind it any number of bytes of events, and behind a semicolon the lengths in bytes
     of a lent chart, table and room and a number k, two words each. Written is each answer with the bytes that are left.
   Lent memory stands between guard words, and what is left in it is written, so that every word of it is compared. Of the services over bytes
   all memory stands at odd addresses. */
#define _POSIX_C_SOURCE 200809L
#include "../c/reader.h"
#include "../c/reader_bytes.h"
#include <inttypes.h>
#include <stdio.h>
#include <stdlib.h>
#include <string.h>

/* The most words that are lent where a line names no length: a table of one symbol for the longest record, and its script. */
enum { TABLE = 4880, SCRIPT = 428, MOST_EVENTS = 96 };

struct bytes {
    uint8_t *at;
    size_t count;
};

struct words {
    uint16_t *at;
    size_t count;
};

struct record {
    struct bytes image;
    struct words events;
};

static void fail(const char *why)
{
    printf("\n%s\n", why);
    exit(1);
}

/* ---- what a line shows */

static unsigned digit(char c)
{
    if (c >= '0' && c <= '9')
        return c - '0';
    if (c >= 'a' && c <= 'f')
        return c - 'a' + 10;
    fail("not a digit");
    return 0;
}

static struct bytes read_bytes(const char *text, const char *end)
{
    struct bytes bytes = {malloc(end - text + 1), 0};
    for (; text < end; text += 3) {
        if (end - text < 3 || *text != ' ')
            fail("not a space and two digits");
        bytes.at[bytes.count++] = 16 * digit(text[1]) + digit(text[2]);
    }
    return bytes;
}

static struct words read_words(const char *text, const char *end)
{
    struct bytes bytes = read_bytes(text, end);
    struct words words = {malloc(bytes.count + 1), bytes.count / 2};
    if (bytes.count % 2)
        fail("half a word");
    for (size_t x = 0; x < words.count; x++)
        words.at[x] = bytes.at[2 * x] + 256 * bytes.at[2 * x + 1];
    free(bytes.at);
    return words;
}

/* The first of the marks from a place on, or the end. */
static const char *find(const char *text, const char *marks)
{
    return text + strcspn(text, marks);
}

static uint64_t number_at(struct words words, size_t at, size_t count)
{
    uint64_t number = 0;
    if (at + count > words.count)
        fail("too few words");
    while (count--)
        number = 65536 * number + words.at[at + count];
    return number;
}

/* ---- lent memory: words of one kind between two guards */

#define GUARD 0xA5

static void *lend(size_t bytes)
{
    uint8_t *all = malloc(bytes + 32);
    memset(all, GUARD, bytes + 32);
    return all + 16;
}

static void give_back(void *lent, size_t bytes)
{
    uint8_t *all = (uint8_t *)lent - 16;
    for (size_t x = 0; x < 16; x++)
        if (all[x] != GUARD || all[16 + bytes + x] != GUARD)
            fail("written outside of the lent memory");
    free(all);
}

static uint32_t *lend_table(size_t count)
{
    uint32_t *table = lend(4 * count);
    for (size_t x = 0; x < count; x++)
        table[x] = 77;
    return table;
}

static uint16_t *lend_room(size_t count)
{
    uint16_t *room = lend(2 * count);
    for (size_t x = 0; x < count; x++)
        room[x] = 99;
    return room;
}

static uint8_t *lend_bytes(size_t count)
{
    uint8_t *bytes = (uint8_t *)lend(count + 1) + 1;
    memset(bytes, 77, count);
    return bytes;
}

static void give_back_bytes(uint8_t *bytes, size_t count)
{
    if (bytes[-1] != GUARD)
        fail("written before the lent bytes");
    give_back(bytes - 1, count + 1);
}

static struct bytes show(struct bytes bytes)
{
    struct bytes shown = {lend_bytes(bytes.count), bytes.count};
    memcpy(shown.at, bytes.at, bytes.count);
    return shown;
}

static void hide(struct bytes shown, struct bytes bytes)
{
    if (memcmp(shown.at, bytes.at, bytes.count) != 0)
        fail("written into an image or into events");
    give_back_bytes(shown.at, shown.count);
}

/* ---- answers as they are written */

static void value(uint64_t number)
{
    printf(" %" PRIu64, number);
}

static void write_refusal(unsigned number, unsigned rule)
{
    value(number);
    value(rule);
}

/* Of more than 64 words a number made of them all. */
static uint64_t mix(uint64_t sum, uint64_t word)
{
    return (31 * sum + word + 1) % 4294967291;
}

static void write_table(uint32_t *table, size_t count)
{
    uint64_t sum = 0;
    for (size_t x = 0; x < count; x++) {
        if (count <= 64)
            value(table[x]);
        sum = mix(sum, table[x]);
    }
    if (count > 64)
        value(sum);
    give_back(table, 4 * count);
}

static void write_script(uint16_t *room, size_t count)
{
    for (size_t x = 0; x < count; x++)
        value(room[x]);
    give_back(room, 2 * count);
}

static uint64_t mix_script(const uint16_t *script, size_t count, uint64_t sum)
{
    for (size_t x = 0; x < count; x++)
        sum = mix(sum, script[x]);
    return sum;
}

static void write_room(uint16_t *room, size_t count)
{
    if (count <= 64) {
        write_script(room, count);
        return;
    }
    value(mix_script(room, count, 0));
    give_back(room, 2 * count);
}

/* The words of a chart, each with a star and how many times it stands there in a row. */
static void write_chart(const uint64_t *chart, size_t count)
{
    for (size_t x = 0, end; x < count; x = end) {
        for (end = x; end < count && chart[end] == chart[x];)
            end++;
        value(chart[x]);
        printf("*%zu", end - x);
    }
}

/* Each byte in two digits; of more than 160 a number made of them all. */
static void write_bytes(uint8_t *bytes, size_t count)
{
    uint64_t sum = 0;
    for (size_t x = 0; x < count; x++) {
        if (count <= 160)
            printf(" %02x", bytes[x]);
        sum = mix(sum, bytes[x]);
    }
    if (count > 160)
        value(sum);
    give_back_bytes(bytes, count);
}

/* ---- the kinds of lines */

/* The refusal of a record of so many events: the checker's, which takes refusals 1 to 8 and 15 and no memory. */
static void test_record(struct bytes image, size_t n)
{
    uint16_t events[MOST_EVENTS + 1] = {0}, rule;
    bool yes;
    unsigned number = reader_check(image.at, image.count, events, n, events, 0, &rule, &yes);
    write_refusal(number, rule);
}

static void run_test(struct bytes image)
{
    uint16_t rule;
    size_t symbols, leaves, pairs;
    unsigned number = reader_test(image.at, image.count, &rule, &symbols, &leaves, &pairs);
    write_refusal(number, rule);
    value(symbols);
    value(leaves);
    value(pairs);
    test_record(image, MOST_EVENTS);
    test_record(image, MOST_EVENTS + 1);
}

static void run_judge(struct record record, const char *text, const char *end)
{
    struct words head = read_words(text, end);
    size_t count = number_at(head, 0, 1);
    uint64_t *chart = lend(8 * count), items, firings;
    uint16_t rule;
    bool admitted;
    for (size_t x = 0; x < count; x++)
        chart[x] = 165;
    unsigned number = reader_judge(record.image.at, record.image.count, record.events.at, record.events.count, chart, count, &rule, &admitted,
                                   &items, &firings);
    write_refusal(number, rule);
    value(admitted);
    value(items);
    value(firings);
    write_chart(chart, count);
    give_back(chart, 8 * count);
    free(head.at);
}

static void run_count(struct record record, size_t size)
{
    uint32_t *table = lend_table(size), total;
    uint16_t rule;
    unsigned number = reader_count(record.image.at, record.image.count, record.events.at, record.events.count, table, size, &rule, &total);
    write_refusal(number, rule);
    value(total);
    write_table(table, size);
}

static void run_reading(struct record record, uint32_t k, size_t size, size_t space)
{
    uint32_t *table = lend_table(size);
    uint16_t *room = lend_room(space), rule;
    unsigned number =
        reader_reading(record.image.at, record.image.count, record.events.at, record.events.count, k, table, size, room, space, &rule);
    write_refusal(number, rule);
    write_table(table, size);
    write_script(room, space);
}

static void run_check(struct record record, struct words script)
{
    uint16_t rule;
    bool yes;
    unsigned number = reader_check(record.image.at, record.image.count, record.events.at, record.events.count, script.at, script.count, &rule, &yes);
    write_refusal(number, rule);
    value(yes);
}

static void run_number(struct record record, struct words script, size_t size)
{
    uint32_t *table = lend_table(size), reading;
    uint16_t rule;
    unsigned number = reader_number(record.image.at, record.image.count, record.events.at, record.events.count, script.at, script.count, table,
                                    size, &rule, &reading);
    write_refusal(number, rule);
    value(reading);
    write_table(table, size);
}

/* One number: the length of the lent table and of the lent room, and a number k of two words; and behind a semicolon the words of a script.
   Written are the answers of count, reading, check and number with what they leave. */
static void run_one(struct record record, const char *text, const char *end)
{
    const char *behind = find(text, ";");
    struct words head = read_words(text, behind);
    size_t size = number_at(head, 0, 1);
    run_count(record, size);
    run_reading(record, number_at(head, 2, 2), size, number_at(head, 1, 1));
    if (behind < end) {
        struct words script = read_words(behind + 1, end);
        run_check(record, script);
        run_number(record, script, size);
        free(script.at);
    }
    free(head.at);
}

/* Whether a script passes the check and comes back to its number. */
static bool comes_back(struct record record, struct words script, uint32_t k, uint32_t *table)
{
    uint32_t reading;
    uint16_t rule;
    bool yes;
    reader_check(record.image.at, record.image.count, record.events.at, record.events.count, script.at, script.count, &rule, &yes);
    unsigned number = reader_number(record.image.at, record.image.count, record.events.at, record.events.count, script.at, script.count, table,
                                    TABLE, &rule, &reading);
    return yes && number == 0 && reading == k;
}

/* Every number: how many readings there are, how many of their scripts come back, a number made of all their words, and the refusal of the
   number past the last. */
static void run_every(struct record record)
{
    uint32_t table[TABLE], total;
    uint16_t room[SCRIPT], rule;
    size_t n = record.events.count;
    struct words script = {room, n == 0 ? 0 : 2 * (2 * n - 1)};
    uint64_t yes = 0, sum = 0;
    unsigned number = 0;
    if (n > MOST_EVENTS)
        return;
    reader_count(record.image.at, record.image.count, record.events.at, n, table, TABLE, &rule, &total);
    for (uint32_t k = 0; k <= total; k++) {
        number = reader_reading(record.image.at, record.image.count, record.events.at, n, k, table, TABLE, room, SCRIPT, &rule);
        if (k == total)
            break;
        yes += comes_back(record, script, k, table);
        sum = mix_script(room, script.count, sum);
    }
    value(total);
    value(yes);
    value(sum);
    value(number);
}

/* A page: the length of the lent table and of the lent room, and the numbers k and m of two words each. */
static void run_page(struct record record, const char *text, const char *end)
{
    struct words head = read_words(text, end);
    size_t size = number_at(head, 0, 1), space = number_at(head, 1, 1);
    uint32_t *table = lend_table(size), written;
    uint16_t *room = lend_room(space), rule;
    unsigned number = reader_page(record.image.at, record.image.count, record.events.at, record.events.count, number_at(head, 2, 2),
                                  number_at(head, 4, 2), table, size, room, space, &rule, &written);
    write_refusal(number, rule);
    value(written);
    write_table(table, size);
    write_room(room, space);
    free(head.at);
}

/* With nothing behind the plus a session begins without events; else there are the count and the word of every place, four words each, and then
   a place and its word for each that holds another. */
static void begin(struct reader_session *session, struct words head)
{
    if (head.count == 0) {
        reader_begin(session->chart, &session->count);
        return;
    }
    session->count = number_at(head, 0, 4);
    for (size_t x = 0; x < READER_SESSION_WORDS; x++)
        session->chart[x] = number_at(head, 4, 4);
    for (size_t at = 8; at < head.count; at += 5)
        session->chart[number_at(head, at, 1) % READER_SESSION_WORDS] = number_at(head, at + 1, 4);
}

static void add(struct reader_session *session, struct bytes image, uint16_t event)
{
    uint64_t firings;
    uint16_t rule;
    bool admitted;
    unsigned number = reader_add(image.at, image.count, session->chart, &session->count, event, &rule, &admitted, &firings);
    write_refusal(number, rule);
    value(admitted);
    value(firings);
}

/* A step is two words: 0 and an event, which is added, or 1 and 0, by which the last is taken back. The session is written after each. */
static void run_session(struct bytes image, const char *text, const char *end)
{
    struct reader_session *session = lend(sizeof *session);
    const char *behind = find(text, ";");
    struct words head = read_words(text, behind), steps = read_words(behind + (behind < end), end);
    begin(session, head);
    for (size_t x = 0; x < steps.count; x += 2) {
        if (number_at(steps, x, 1) == 0)
            add(session, image, number_at(steps, x + 1, 1));
        else
            value(reader_take_back(session->chart, &session->count));
        value(session->count);
        write_chart(session->chart, READER_SESSION_WORDS);
        printf(";");
    }
    give_back(session, sizeof *session);
    free(head.at);
    free(steps.at);
}

static void run_judge_bytes(struct bytes image, struct bytes events, size_t lent)
{
    uint8_t *chart = lend_bytes(lent);
    uint64_t items, firings;
    uint16_t rule;
    bool admitted;
    unsigned number = reader_judge_bytes(image.at, image.count, events.at, events.count, chart, lent, &rule, &admitted, &items, &firings);
    write_refusal(number, rule);
    value(admitted);
    value(items);
    value(firings);
    write_bytes(chart, lent);
}

static void run_count_bytes(struct bytes image, struct bytes events, size_t lent)
{
    uint8_t *table = lend_bytes(lent);
    uint32_t total;
    uint16_t rule;
    unsigned number = reader_count_bytes(image.at, image.count, events.at, events.count, table, lent, &rule, &total);
    write_refusal(number, rule);
    value(total);
    write_bytes(table, lent);
}

static void run_reading_bytes(struct bytes image, struct bytes events, uint32_t k, size_t lent, size_t space)
{
    uint8_t *table = lend_bytes(lent), *room = lend_bytes(space);
    uint16_t rule;
    unsigned number = reader_reading_bytes(image.at, image.count, events.at, events.count, k, table, lent, room, space, &rule);
    write_refusal(number, rule);
    write_bytes(table, lent);
    write_bytes(room, space);
}

static void run_bytes(struct bytes image, const char *text, const char *end)
{
    const char *behind = find(text, ";");
    struct bytes events = read_bytes(text, behind), image_shown = show(image), events_shown = show(events);
    struct words head = read_words(behind + (behind < end), end);
    run_judge_bytes(image_shown, events_shown, number_at(head, 0, 2));
    printf(",");
    run_count_bytes(image_shown, events_shown, number_at(head, 2, 2));
    printf(",");
    run_reading_bytes(image_shown, events_shown, number_at(head, 6, 2), number_at(head, 2, 2), number_at(head, 4, 2));
    hide(image_shown, image);
    hide(events_shown, events);
    free(events.at);
    free(head.at);
}

/* What follows the image, up to the end of the line. */
static void run_record(struct bytes image, const char *text, const char *end)
{
    const char *behind = find(text + 1, "|;");
    struct record record = {image, read_words(text + 1, behind)};
    if (*text == ';')
        run_judge(record, behind + 1, end);
    else if (*behind == '|')
        run_page(record, behind + 1, end);
    else if (*behind == ';')
        run_one(record, behind + 1, end);
    else
        run_every(record);
    free(record.events.at);
}

static void run_line(char *line)
{
    const char *end = find(line, "\n"), *text = find(line, ":");
    if (*text != ':' || *end != '\n')
        fail("not a line");
    line[end - line] = 0;
    const char *mark = find(++text, "|+;=");
    struct bytes image = read_bytes(text, mark);
    printf("%.*s", (int)(text - line), line);
    if (*mark == 0)
        run_test(image);
    else if (*mark == '+')
        run_session(image, mark + 1, end);
    else if (*mark == '=')
        run_bytes(image, mark + 1, end);
    else
        run_record(image, mark, end);
    printf("\n");
    free(image.at);
}

int main(void)
{
    char *line = NULL;
    size_t room = 0;
    while (getline(&line, &room, stdin) > 0)
        run_line(line);
    free(line);
    return 0;
}
