/*
 * The dispatch action engine for C and C++. examples/k1.c is a small program that uses it, and
 * examples/k1.rs the same for Rust; docs/BOOKS.md says how a book and an answer are written.
 *
 * `rt lib --cpu x86-64`, in crates/wirumbane, proves it and writes out/libwirumbane.a there, to be
 * linked behind what calls it:
 *
 *     cc -I include -o program program.c crates/wirumbane/out/libwirumbane.a
 *
 * The archive is for x86-64 Linux: System V calling convention, position independent, and no more
 * asked of the processor than every x86-64 has (without --cpu, a level of x86-64-v2). It needs
 * memcpy and memset from what it is linked with, and nothing else. It allocates nothing and keeps
 * nothing between calls, so that threads may call it at the same time, each with memory of its own.
 */
#ifndef DISPATCH_H
#define DISPATCH_H

#include <stddef.h>
#include <stdint.h>

#ifdef __cplusplus
extern "C" {
#endif

/* A book's bytes, at most. */
#define DISPATCH_BOOK_BYTES_MOST 65536

/* Words to lend: for bindings and index just so many; for log and tables at most so many. */
#define DISPATCH_BINDINGS_WORDS 8192
#define DISPATCH_INDEX_WORDS 8192
#define DISPATCH_LOG_WORDS_MOST 16384
#define DISPATCH_TABLES_WORDS_MOST 16384

/* Words for the answer, as program dispatch lends them; any other number may be lent. */
#define DISPATCH_ANSWER_WORDS_USUAL 16384

/* The stale mark: what a variable has in a lane that got no word. */
#define DISPATCH_STALE UINT32_C(4294967295)

/* The bodies of a book (1 to 5) and of an answer (1, 2, 6 to 8), by the kind in their entry. */
enum dispatch_kind {
    DISPATCH_KIND_TABLE = 1,
    DISPATCH_KIND_COUNTER = 2,
    DISPATCH_KIND_RULE = 3,
    DISPATCH_KIND_BATCH = 4,
    DISPATCH_KIND_PREDICTION = 5,
    DISPATCH_KIND_BATCH_DONE = 6,
    DISPATCH_KIND_PREDICTION_DONE = 7,
    DISPATCH_KIND_LOG = 8
};

/* The records of an answer's log. */
enum dispatch_record {
    DISPATCH_RECORD_INSERT = 0,
    DISPATCH_RECORD_REMOVE = 1,
    DISPATCH_RECORD_PREDICTED = 2
};

/*
 * Why a book is refused, and what the place names. Places count from 0: an entry or a body is its
 * position in the contents; a word its position in the book, a row and an instruction that of their
 * first word. docs/BOOKS.md says what to look at for each.
 */
enum dispatch_refused {
    /* Not refused. */
    DISPATCH_ACCEPTED = 0,
    /* The book has no bytes, more than DISPATCH_BOOK_BYTES_MOST, or no whole words. Place 0. */
    DISPATCH_REFUSED_LENGTH = 1,
    /* The contents are wrong at an entry; or at 0, in the count or in where the last body ends. */
    DISPATCH_REFUSED_CONTENTS = 2,
    /* A body is not built as its kind is: a count, an opcode, a tag, words too many or too few. */
    DISPATCH_REFUSED_BODY = 3,
    /* A word is DISPATCH_STALE where that may not stand. */
    DISPATCH_REFUSED_STALE = 4,
    /* A row has the key of an earlier row of its table. */
    DISPATCH_REFUSED_KEY_TWICE = 5,
    /* A word names a table, counter, function, rule, variable or merge rule that there is not. */
    DISPATCH_REFUSED_UNKNOWN = 6,
    /* An instruction reads a variable that nothing has bound before it. */
    DISPATCH_REFUSED_UNBOUND = 7,
    /* A list of an instruction has the wrong length, or its divider lies past the list. */
    DISPATCH_REFUSED_LIST = 8,
    /* An instruction asks for a column, or a current value, that the row has not. */
    DISPATCH_REFUSED_COLUMN = 9,
    /* An instruction reads its own dst where it may not. */
    DISPATCH_REFUSED_DST = 10,
    /* A step, named by its body, does not fit its rule (a batch) or its table (a prediction). */
    DISPATCH_REFUSED_STEP = 11,
    /* The step, named by its body, has a record to log for which the log has no room left. */
    DISPATCH_REFUSED_LOG_FULL = 12,
    /* The step, named by its body, asks for a number of a counter that has none left. */
    DISPATCH_REFUSED_COUNTER_SPENT = 13,
    /* The words lent as bindings, index, log or tables are not as many as asked. Place 0. */
    DISPATCH_REFUSED_LENT = 14,
    /* The rows after the commit have more words than were lent as tables. Place 0. */
    DISPATCH_REFUSED_TABLES_FULL = 15,
    /* The answer has more words than were lent for it. Place 0. */
    DISPATCH_REFUSED_ANSWER_FULL = 16
};

/*
 * Runs a rule book of any bytes to its end, or refuses it.
 *
 * Lent, each as an address and a length in elements; none may overlap another, and what they hold
 * before the call does not matter:
 *   book      the book's bytes, at any alignment; only read
 *   bindings  DISPATCH_BINDINGS_WORDS words
 *   index     DISPATCH_INDEX_WORDS words
 *   log       up to DISPATCH_LOG_WORDS_MOST words: the records that the run stages
 *   tables    up to DISPATCH_TABLES_WORDS_MOST words: the rows that the commit leaves
 *   answer    any number of words: the answer book
 * Any lengths are taken, 0 among them; those that are not as said are refused with 14. An address
 * may not be null, even beside length 0.
 *
 * Returned: what dispatch_refusal, dispatch_words and dispatch_place below take apart. An accepted
 * book has its answer at the front of `answer`, and zero past it; a refused one leaves `answer`
 * zero. Bindings, index, log and tables are left zero in either case.
 *
 * A call used up to 221 thousand bytes of stack where it was measured (docs/PERFORMANCE.md).
 */
uint64_t dispatch_run(const uint8_t *book, size_t book_len,
                      uint32_t *bindings, size_t bindings_len,
                      uint32_t *index, size_t index_len,
                      uint32_t *log, size_t log_len,
                      uint32_t *tables, size_t tables_len,
                      uint32_t *answer, size_t answer_len);

/* The refusal, an enum dispatch_refused: the high half. 0 where the book is accepted. */
static inline uint32_t dispatch_refusal(uint64_t returned)
{
    return (uint32_t)(returned >> 32);
}

/* Of a refused book, the place: the low half. */
static inline uint32_t dispatch_place(uint64_t returned)
{
    return (uint32_t)(returned & UINT32_C(4294967295));
}

/* Of an accepted book, how many words the answer has: the low half. */
static inline uint32_t dispatch_words(uint64_t returned)
{
    return (uint32_t)(returned & UINT32_C(4294967295));
}

#ifdef __cplusplus
}
#endif

#endif
