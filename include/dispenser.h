/* The channel checker's calls as C functions, for x86-64; C99 or later, or C++.
 *
 * Build: rt lib in crates/dispenser_c; link libdispenser_c.a of its folder out. The
 * library needs memcpy, memset and the like, and nothing else: it has no globals and
 * no heap, and keeps no pointer. So calls may run at the same time in several
 * threads, on different stores, or on one store that all of them only read. A store
 * is its bytes: it may be copied, moved and kept, and needs no alignment.
 *
 * A slice is a pointer and the count of bytes there; a list of thread records is a
 * pointer, aligned for them, and the count of records there. NULL with the count 0
 * is an empty one, of any parameter. No one else may write a slice's bytes or a
 * list's records during a call, and what a call writes must not overlap what else it
 * is lent.
 *
 * Every call returns one number, its answer, which the functions at the end of this
 * file take apart. Its low 8 bits are 0 where the call is accepted, else they are
 * the number of the refusal. Above them:
 *   refused           the line, 0 for none
 *   load accepted     rows, flows, comms and claims, 8 bits each, lowest first
 *   infer and replace accepted
 *                     as load
 *   judge and preview accepted
 *                     the count of claims
 *   verdict accepted  one-shot, one-to-one, fan-out, fan-in and one-sync, a bit
 *                     each, lowest first, 1 for yes
 *   write accepted    the bytes written
 *   report accepted   the bytes written
 *   begin, move and meet accepted
 *                     the number of threads then in use
 */
#ifndef DISPENSER_H
#define DISPENSER_H

#include <stddef.h>
#include <stdint.h>

#ifdef __cplusplus
extern "C" {
#endif

/* Sizes, for memory that is lent. The three functions that tell a size answer
 * these. */
#define DISPENSER_STORE_SIZE 52960 /* bytes of a store */
#define DISPENSER_RUN_SIZE 40968   /* bytes of run memory */
#define DISPENSER_REPORT_SIZE 5796 /* bytes of a report's output */
#define DISPENSER_FILE_MAX 32768   /* most bytes of a file; an input of one byte more
                                      tells a file that is too long */
#define DISPENSER_ROWS 160         /* most rows, and most names; numbered from 0 */
#define DISPENSER_THREADS 64       /* thread records of a run, and its most threads */

/* No text that write gives has more bytes, whatever the store: a proved bound, and a
 * generous one. Of a store as load left it, write gives the file back, so that
 * DISPENSER_FILE_MAX bytes do. */
#define DISPENSER_TEXT_MAX 2454414

/* Bytes of stack that a call takes at most, whatever it is lent. Load, write,
 * replace, begin, move and meet take no more than the smaller figure; judge,
 * verdict, preview, infer and report have 25 KB of notes besides. Some of it grows
 * by 112 bytes for each row of the program. Measured, not proved: the workbench's
 * tests hold the library to it. */
#define DISPENSER_STACK_SMALL 32768
#define DISPENSER_STACK 49152

/* Why a call is refused. The numbers are those of documents 01 and 02, and
 * dispenser_text has a text for each. */
enum dispenser_reason {
    DISPENSER_ACCEPTED = 0,

    /* Of the file, from load, with a line; the store is then empty. */
    DISPENSER_FILE_TOO_LONG = 1,      /* more than DISPENSER_FILE_MAX bytes; line 0 */
    DISPENSER_NOT_A_LINE = 2,         /* no line of the kinds that may stand there, or
                                         the last line has no byte 10 */
    DISPENSER_NUMBER_ABOVE_LIMIT = 3, /* a number above 159 */
    DISPENSER_ROW_OUT_OF_COUNT = 4,   /* rows are not 0, 1, 2 and on, or there is none */
    DISPENSER_NOT_RISING = 5,         /* flow, comm or claim lines, or a set, do not rise */
    DISPENSER_POINTER = 6,            /* a row is not pointed at exactly once, from a
                                         smaller row */
    DISPENSER_BOUND_EARLIER = 7,      /* a name is bound that is bound already */
    DISPENSER_OUT_OF_SCOPE = 8,       /* a name is used out of its scope */
    DISPENSER_MISNAMED = 9,           /* a set, flow, comm or claim names what it may not */

    /* Of what the file says, from judge, verdict (10 alone) and preview, with a line
     * of the text that write would give. */
    DISPENSER_FLOW_RULE = 10, /* the tables break the flow rule of a row */
    DISPENSER_CLAIM = 11,     /* a claim does not hold */

    /* Of what is lent or asked, with line 0; nothing is altered. */
    DISPENSER_STORE_TOO_SHORT = 20,  /* the store, run memory or records are shorter than
                                        their fixed size */
    DISPENSER_STORE_EMPTY = 21,      /* nothing is loaded, or the run is not begun */
    DISPENSER_STORE_UNSOUND = 22,    /* bytes that no load leaves, or a run that names
                                        what is not there */
    DISPENSER_OUTPUT_TOO_SHORT = 23, /* the text does not fit the output */
    DISPENSER_NOT_A_CHANNEL = 24,    /* verdict on a number that is not of a chan row */
    DISPENSER_MOVE_NOT_ALLOWED = 30, /* the run rules allow no such move */
    DISPENSER_MOVE_TOO_LARGE = 31,   /* it would take more than 4,096 cells, 1,024 frames
                                        or 64 threads */
    DISPENSER_NOT_BOUND = 32,        /* no row binds the name */
    DISPENSER_SET_NOT_ALLOWED = 33   /* the set does not rise, or holds what it may not */
};

/* The bytes that a store must have, DISPENSER_STORE_SIZE; it may have more, which no
 * call touches. */
size_t dispenser_store_size(void);

/* Loads a file into a store. Refusals 20 and 1 to 9; 1 to 9 empty the store. */
uint64_t dispenser_load(const uint8_t *file, size_t file_length,
                        uint8_t *store, size_t store_length);

/* Puts the smallest tables that keep the flow rules in place of a store's own,
 * from its rows alone; rows and claims keep their bytes. Answers the counts of
 * the outcome, whose text may be longer than a file. Refusals 20 to 22, which
 * alter nothing. */
uint64_t dispenser_infer(uint8_t *store, size_t store_length);

/* Judges the claims of a store. Refusals 20 to 22, 10 and 11. */
uint64_t dispenser_judge(const uint8_t *store, size_t store_length);

/* Puts a set in place of a bound name's own: unit is 0 for a set without `u` and
 * anything else for one with it, rows are the numbers of its rows, a byte each,
 * rising. The set may be empty (unit 0, rows_length 0); the name then has no flow
 * line. Answers the counts of the outcome, whose text may be longer than a file.
 * Refusals 20 to 22; 32: no row binds the name, which may be any number; 33: the rows
 * do not rise (equal ones do not), or one of them is absent or no value row. A call
 * that is refused alters nothing. */
uint64_t dispenser_replace(uint8_t *store, size_t store_length,
                           size_t name, uint8_t unit,
                           const uint8_t *rows, size_t rows_length);

/* What judge would answer on a copy of the store on which replace was called with
 * the same set, or the refusal of that replace: 20 to 22, 32 and 33, then 10 and
 * 11, whose lines count in the text with the set replaced. The set is put in,
 * judged, and the old one put back, so the store must be writable and no one else
 * may read it during the call; when it returns, every byte is as it was. */
uint64_t dispenser_preview(uint8_t *store, size_t store_length,
                           size_t name, uint8_t unit,
                           const uint8_t *rows, size_t rows_length);

/* The verdict of a channel row. Refusals 20 to 22, 24 and 10. */
uint64_t dispenser_verdict(const uint8_t *store, size_t store_length,
                           size_t channel);

/* Writes a store as text. Refusals 20 to 23; the rest of out is unaltered. */
uint64_t dispenser_write(const uint8_t *store, size_t store_length,
                         uint8_t *out, size_t out_length);

/* The bytes that the output of a report must have, DISPENSER_REPORT_SIZE. */
size_t dispenser_report_size(void);

/* Writes what the program prints of a file: the count of its claims and each
 * channel's verdict, or its refusal, which is a report too. Loads the file into
 * the store on the way. Refusals 20 and 23, which alter nothing; the rest of out
 * is unaltered. */
uint64_t dispenser_report(const uint8_t *file, size_t file_length,
                          uint8_t *store, size_t store_length,
                          uint8_t *out, size_t out_length);

/* A run of a store's program takes run memory and thread records, lent together
 * to each of its calls. It stands on the rows of the program: the calls say
 * something of it while those stay the same and nothing but these calls writes
 * what it was lent. It needs no tables, and they may break the flow rules. */

/* A thread of a run. Threads are numbered from 0 by birth, and each has the
 * record of its number; a record that no thread has is not looked at. A run must have
 * DISPENSER_THREADS records; it may have more, which no call touches. A thread
 * stands at the row of its record; what cell and frame mean is the library's
 * affair. */
struct dispenser_thread {
    uint8_t row;
    uint16_t cell;
    uint16_t frame;
};

#if defined(__cplusplus)
#if __cplusplus >= 201103L
#define DISPENSER_ASSERT(holds, why) static_assert(holds, why)
#endif
#elif defined(__STDC_VERSION__) && __STDC_VERSION__ >= 201112L
#define DISPENSER_ASSERT(holds, why) _Static_assert(holds, why)
#endif
#ifdef DISPENSER_ASSERT
DISPENSER_ASSERT(sizeof(size_t) == 8, "the library is for x86-64");
DISPENSER_ASSERT(sizeof(struct dispenser_thread) == 6, "a record has 6 bytes");
DISPENSER_ASSERT(offsetof(struct dispenser_thread, row) == 0, "row at 0");
DISPENSER_ASSERT(offsetof(struct dispenser_thread, cell) == 2, "cell at 2");
DISPENSER_ASSERT(offsetof(struct dispenser_thread, frame) == 4, "frame at 4");
#undef DISPENSER_ASSERT
#endif

/* The bytes that run memory must have, DISPENSER_RUN_SIZE; it may have more, which no
 * call touches. */
size_t dispenser_run_size(void);

/* Begins a run: thread 0 stands at row 0, and nothing else is in use, whatever
 * the run memory and the records held. Refusals 20 to 22: the store, the run
 * memory or the records are too short; the store is empty; it is unsound. A call
 * that is refused alters nothing, here and below. */
uint64_t dispenser_begin(const uint8_t *store, size_t store_length,
                         uint8_t *run, size_t run_length,
                         struct dispenser_thread *threads,
                         size_t threads_length);

/* A thread's own move. Refusals 20 to 22 as above, where a run that is not begun
 * is 21, and run memory or records that no begin and moves leave may be 22; 30:
 * the run rules allow no such move, or there is no such thread; 31: the move
 * would take more than 4,096 cells, 1,024 frames or 64 threads. */
uint64_t dispenser_move(const uint8_t *store, size_t store_length,
                        uint8_t *run, size_t run_length,
                        struct dispenser_thread *threads,
                        size_t threads_length,
                        size_t thread);

/* A meeting: one thread sends and another receives, on one channel. Refusals as
 * those of move. */
uint64_t dispenser_meet(const uint8_t *store, size_t store_length,
                        uint8_t *run, size_t run_length,
                        struct dispenser_thread *threads,
                        size_t threads_length,
                        size_t sender, size_t receiver);

/* An answer taken apart. Of an answer that is refused every count is 0 and every
 * word no; each function is for the calls that it names. */

/* Of any call: 1 if it is accepted, else 0. */
static inline int dispenser_accepted(uint64_t answer)
{
    return (answer & 0xff) == 0;
}

/* Of any call: the number of the refusal, an enum dispenser_reason; 0 if accepted. */
static inline int dispenser_refusal(uint64_t answer)
{
    return (int)(answer & 0xff);
}

/* Of any call: the line of the refusal, from 1; 0 for none, or if accepted. */
static inline unsigned dispenser_line(uint64_t answer)
{
    return dispenser_accepted(answer) ? 0 : (unsigned)(answer >> 8);
}

/* What stands above the low 8 bits if the call is accepted, else 0. */
static inline uint64_t dispenser_value(uint64_t answer)
{
    return dispenser_accepted(answer) ? answer >> 8 : 0;
}

/* Of load, infer and replace: how many lines of each kind there are. */
static inline unsigned dispenser_rows(uint64_t answer)
{
    return (unsigned)(dispenser_value(answer) & 0xff);
}

static inline unsigned dispenser_flows(uint64_t answer)
{
    return (unsigned)(dispenser_value(answer) >> 8 & 0xff);
}

static inline unsigned dispenser_comms(uint64_t answer)
{
    return (unsigned)(dispenser_value(answer) >> 16 & 0xff);
}

static inline unsigned dispenser_claims(uint64_t answer)
{
    return (unsigned)(dispenser_value(answer) >> 24 & 0xff);
}

/* Of judge and preview: how many claims there are, all of which hold. A file without
 * claims is accepted with 0; dispenser_accepted tells it from one refused. */
static inline unsigned dispenser_claims_held(uint64_t answer)
{
    return (unsigned)dispenser_value(answer);
}

/* Of verdict: 1 for yes, 0 for no. */
static inline int dispenser_one_shot(uint64_t answer)
{
    return (int)(dispenser_value(answer) & 1);
}

static inline int dispenser_one_to_one(uint64_t answer)
{
    return (int)(dispenser_value(answer) >> 1 & 1);
}

static inline int dispenser_fan_out(uint64_t answer)
{
    return (int)(dispenser_value(answer) >> 2 & 1);
}

static inline int dispenser_fan_in(uint64_t answer)
{
    return (int)(dispenser_value(answer) >> 3 & 1);
}

static inline int dispenser_one_sync(uint64_t answer)
{
    return (int)(dispenser_value(answer) >> 4 & 1);
}

/* Of write and report: the bytes written. */
static inline size_t dispenser_written(uint64_t answer)
{
    return (size_t)dispenser_value(answer);
}

/* Of begin, move and meet: the threads then in use. */
static inline unsigned dispenser_threads_in_use(uint64_t answer)
{
    return (unsigned)dispenser_value(answer);
}

/* A text for the number of a refusal, in one line without a full stop. Never NULL:
 * 0 and numbers that are of no refusal have a text too. */
static inline const char *dispenser_text(int refusal)
{
    switch (refusal) {
    case DISPENSER_ACCEPTED:
        return "accepted";
    case DISPENSER_FILE_TOO_LONG:
        return "the file has more than 32,768 bytes";
    case DISPENSER_NOT_A_LINE:
        return "this is no line of the kinds that may stand here";
    case DISPENSER_NUMBER_ABOVE_LIMIT:
        return "a number is above 159";
    case DISPENSER_ROW_OUT_OF_COUNT:
        return "a row is out of count";
    case DISPENSER_NOT_RISING:
        return "numbers do not rise";
    case DISPENSER_POINTER:
        return "a row is not pointed at exactly once, from a smaller row";
    case DISPENSER_BOUND_EARLIER:
        return "a name is bound that is bound already";
    case DISPENSER_OUT_OF_SCOPE:
        return "a name is used out of its scope";
    case DISPENSER_MISNAMED:
        return "a row or name is named that may not stand here";
    case DISPENSER_FLOW_RULE:
        return "the tables break the flow rule of this row";
    case DISPENSER_CLAIM:
        return "the claim does not hold";
    case DISPENSER_STORE_TOO_SHORT:
        return "the store, or a run's memory, is shorter than its fixed size";
    case DISPENSER_STORE_EMPTY:
        return "the store is empty, or the run not begun";
    case DISPENSER_STORE_UNSOUND:
        return "the store holds bytes that no load leaves, or the run names what is "
               "not there";
    case DISPENSER_OUTPUT_TOO_SHORT:
        return "the text does not fit the output";
    case DISPENSER_NOT_A_CHANNEL:
        return "the number is not that of a chan row";
    case DISPENSER_MOVE_NOT_ALLOWED:
        return "the run rules do not allow the move";
    case DISPENSER_MOVE_TOO_LARGE:
        return "the move needs more cells, frames or threads than there are";
    case DISPENSER_NOT_BOUND:
        return "the name is not bound";
    case DISPENSER_SET_NOT_ALLOWED:
        return "the set does not rise, or holds what a set may not";
    default:
        return "no refusal has this number";
    }
}

#ifdef __cplusplus
}
#endif

#endif
