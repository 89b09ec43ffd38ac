/* All ten functions of reader.h. The test, of CHAIN, of CHAIN in version 2 with the flag 1, of CHAIN with its event rule twice, which names
   rule 1, and of CHAIN with a second symbol that a rule names and none can finish. judge, count, reading, check, number and page, on CHAIN
   and the record 7 7 7, and on version 2 and a record without events. begin, add and take_back, on a session with CHAIN. c/expected is what
   it writes. */
#include "reader.h"
#include <stdio.h>

static const uint8_t chain[] = {0x45, 0x53, 0x47, 1, 0, 1, 1, 0, 1, 0, 0, 7, 0, 0, 0, 0};
static const uint8_t quiet[] = {0x45, 0x53, 0x47, 2, 0, 1, 1, 0, 1, 0, 1, 0, 7, 0, 0, 0, 0};
static const uint8_t twice[] = {0x45, 0x53, 0x47, 1, 0, 1, 2, 0, 1, 0, 0, 7, 0, 0, 7, 0, 0, 0, 0};
static const uint8_t misspelt[] = {0x45, 0x53, 0x47, 1, 0, 2, 1, 0, 2, 0, 0, 7, 0, 0, 0, 0, 0, 0, 1};
static const uint16_t events[] = {7, 7, 7};

static void test(const uint8_t *image, size_t length)
{
    uint16_t rule;
    size_t symbols, leaves, pairs;
    unsigned number = reader_test(image, length, &rule, &symbols, &leaves, &pairs);
    printf("test %u: %u %zu %zu %zu\n", number, rule, symbols, leaves, pairs);
}

static size_t script_words(size_t n)
{
    return n == 0 ? 0 : 2 * (2 * n - 1);
}

/* The first n events. Memory for three of them is lent; one symbol needs as many table words as chart words. */
static void read_record(const uint8_t *image, size_t length, size_t n)
{
    uint64_t chart[6], items, firings;
    uint32_t table[6], total, reading;
    uint16_t script[11] = {0}, rule;
    size_t words = script_words(n);
    bool admitted, yes;
    unsigned number = reader_judge(image, length, events, n, chart, 6, &rule, &admitted, &items, &firings);
    printf("judge %u: %u %d %llu %llu\n", number, rule, admitted, (unsigned long long)items, (unsigned long long)firings);
    number = reader_count(image, length, events, n, table, 6, &rule, &total);
    printf("count %u: %u %u\n", number, rule, total);
    for (uint32_t k = 0; k <= total; k++) {
        number = reader_reading(image, length, events, n, k, table, 6, script, 10, &rule);
        printf("reading %u %u: %u,", k, number, rule);
        for (size_t x = 0; number == 0 && x < words; x++)
            printf(" %u", script[x]);
        printf("\n");
    }
    number = reader_check(image, length, events, n, script, words, &rule, &yes);
    printf("check %u: %u %d\n", number, rule, yes);
    number = reader_number(image, length, events, n, script, words, table, 6, &rule, &reading);
    printf("number %u: %u %u\n", number, rule, reading);
    number = reader_number(image, length, events, n, script, words + 1, table, 6, &rule, &reading);
    printf("number %u: %u %u\n", number, rule, reading);
}

/* Readings k to k + m - 1 of the first n events, into so many words of a room that holds five scripts; a comma before each script. */
static void read_page(const uint8_t *image, size_t length, size_t n, uint32_t k, uint32_t m, size_t lent)
{
    uint32_t table[6], written;
    uint16_t room[50], rule;
    size_t words = script_words(n);
    unsigned number = reader_page(image, length, events, n, k, m, table, 6, room, lent, &rule, &written);
    printf("page %u %u %u: %u %u", k, m, number, rule, written);
    for (size_t script = 0; script < written; script++) {
        printf(",");
        for (size_t x = 0; x < words; x++)
            printf(" %u", room[script * words + x]);
    }
    printf("\n");
}

static void add(struct reader_session *session, uint16_t event)
{
    uint64_t firings;
    uint16_t rule;
    bool admitted;
    unsigned number = reader_add(chain, sizeof chain, session->chart, &session->count, event, &rule, &admitted, &firings);
    printf("add %u %u: %u %d %llu,", event, number, rule, admitted, (unsigned long long)firings);
    printf(" %llu\n", (unsigned long long)session->count);
}

static void take_back(struct reader_session *session)
{
    unsigned number = reader_take_back(session->chart, &session->count);
    printf("take back %u: %llu\n", number, (unsigned long long)session->count);
}

/* The events as they arrive; the last is taken back for one that no rule has. Before the first there is none to take back. */
static void follow(void)
{
    struct reader_session session;
    reader_begin(session.chart, &session.count);
    take_back(&session);
    for (size_t x = 0; x < 3; x++)
        add(&session, events[x]);
    take_back(&session);
    add(&session, 8);
}

int main(void)
{
    test(chain, sizeof chain);
    test(quiet, sizeof quiet);
    test(twice, sizeof twice);
    test(misspelt, sizeof misspelt);
    read_record(chain, sizeof chain, 3);
    read_page(chain, sizeof chain, 3, 0, 2, 20);
    read_page(chain, sizeof chain, 3, 1, 5, 50);
    read_page(chain, sizeof chain, 3, 0, 0, 0);
    read_page(chain, sizeof chain, 3, 2, 1, 10);
    read_page(chain, sizeof chain, 3, 0, 2, 19);
    read_record(quiet, sizeof quiet, 0);
    read_page(quiet, sizeof quiet, 0, 0, 1, 0);
    follow();
    return 0;
}
