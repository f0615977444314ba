/* K1 from C: the book is written, run, and its answer read; then the same with a fault in it. */
#include <inttypes.h>
#include <stdio.h>

#include "dispatch.h"

#define K1_WORDS 39

/* docs/BOOKS.md takes it apart word by word. */
static const uint32_t k1[K1_WORDS] = {
    4, 1, 13, 6, 2, 19, 1, 3, 20, 12, 4, 32, 7, /* contents: four bodies */
    1, 1, 0, 1, 3, 40,                          /* table 0, with one row */
    100,                                        /* counter 0 */
    1, 1, 1, 0, 1, 0, 0, 1, 2, 0, 1, 1,         /* rule 0, with one instruction */
    0, 4, 1, 3, 5, 5, 8                         /* a batch of rule 0, with four lanes */
};

/* What is lent to a call. None of it need be cleared. */
static uint32_t bindings[DISPATCH_BINDINGS_WORDS];
static uint32_t index_words[DISPATCH_INDEX_WORDS];
static uint32_t log_words[DISPATCH_LOG_WORDS_MOST];
static uint32_t table_words[DISPATCH_TABLES_WORDS_MOST];
static uint32_t answer[DISPATCH_ANSWER_WORDS_USUAL];

/* A word is four bytes, lowest first. */
static void write_word(uint8_t *bytes, uint32_t word)
{
    bytes[0] = (uint8_t)(word & 255);
    bytes[1] = (uint8_t)(word >> 8 & 255);
    bytes[2] = (uint8_t)(word >> 16 & 255);
    bytes[3] = (uint8_t)(word >> 24);
}

static uint64_t run(const uint32_t *words)
{
    uint8_t book[4 * K1_WORDS];
    size_t i;

    for (i = 0; i < K1_WORDS; i++)
        write_word(book + 4 * i, words[i]);
    return dispatch_run(book, sizeof book,
                        bindings, DISPATCH_BINDINGS_WORDS, index_words, DISPATCH_INDEX_WORDS,
                        log_words, DISPATCH_LOG_WORDS_MOST, table_words, DISPATCH_TABLES_WORDS_MOST,
                        answer, DISPATCH_ANSWER_WORDS_USUAL);
}

/* The contents of an answer: a count, then kind, first word and length of each body. */
static uint32_t kind_of(uint32_t entry)
{
    return answer[1 + 3 * entry];
}

static const uint32_t *body_of(uint32_t entry)
{
    return answer + answer[2 + 3 * entry];
}

static uint32_t length_of(uint32_t entry)
{
    return answer[3 + 3 * entry];
}

static void print_words(const uint32_t *words, uint32_t count)
{
    uint32_t i;

    for (i = 0; i < count; i++)
        printf(" %" PRIu32, words[i]);
    printf("\n");
}

/* The batch: survivors, lanes, variables; then each variable's number and its column. */
static void print_batch(const uint32_t *body)
{
    uint32_t lanes = body[1], variables = body[2], i;
    const uint32_t *at = body + 3;

    printf("%" PRIu32 " of %" PRIu32 " lanes survive\n", body[0], lanes);
    for (i = 0; i < variables; i++) {
        printf("variable %" PRIu32 ":", at[0]);
        print_words(at + 1, lanes);
        at += 1 + lanes;
    }
}

/* The log: the flag, then records of kind, table, and a row or, of a removal, a key. */
static void print_predicted(const uint32_t *body, uint32_t length)
{
    const uint32_t *at = body + 1;

    while (at < body + length) {
        /* Tables come first in an answer, so that table t has entry t. */
        const uint32_t *table = body_of(at[1]);
        uint32_t keys = table[0], values = table[1];
        uint32_t words = at[0] == DISPATCH_RECORD_REMOVE ? keys : keys + values;

        if (at[0] == DISPATCH_RECORD_PREDICTED) {
            printf("predicted for table %" PRIu32 ":", at[1]);
            print_words(at + 2, words);
        }
        at += 2 + words;
    }
}

static void print_answer(void)
{
    uint32_t entry;

    for (entry = 0; entry < answer[0]; entry++) {
        const uint32_t *body = body_of(entry);

        switch (kind_of(entry)) {
        case DISPATCH_KIND_COUNTER:
            printf("counter: next is %" PRIu32 "\n", body[0]);
            break;
        case DISPATCH_KIND_BATCH_DONE:
            print_batch(body);
            break;
        case DISPATCH_KIND_LOG:
            print_predicted(body, length_of(entry));
            break;
        default: /* tables; K1 has no predictions */
            break;
        }
    }
}

/* Whether the book was accepted. */
static int run_and_print(const char *name, const uint32_t *words)
{
    uint64_t returned = run(words);

    if (dispatch_refusal(returned) != DISPATCH_ACCEPTED) {
        printf("%s: refused %" PRIu32 " at %" PRIu32 "\n", name,
               dispatch_refusal(returned), dispatch_place(returned));
        return 0;
    }
    printf("%s: accepted, %" PRIu32 " words of answer\n", name, dispatch_words(returned));
    print_answer();
    return 1;
}

int main(void)
{
    uint32_t faulty[K1_WORDS];
    size_t i;

    if (!run_and_print("K1", k1))
        return 1;

    /* Word 26 is the variable that the lookup has for its key, 0. Variable 5 is bound by nothing:
       the instruction, whose first word is 22, is refused with DISPATCH_REFUSED_UNBOUND, 7. */
    for (i = 0; i < K1_WORDS; i++)
        faulty[i] = k1[i];
    faulty[26] = 5;
    if (run_and_print("K1 with variable 5", faulty))
        return 1;
    return 0;
}
