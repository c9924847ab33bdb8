/*
 * Wulipday, a proved keno settlement core, for hosts in C.
 *
 * Link with the static library that `rt lib` writes in crates/host.
 *
 * The host keeps three things from call to call: the house, the rows and the
 * marks. What is proved of the core holds for a house that comes from
 * wulipday_fresh by wulipday_roll and wulipday_command alone. So the host must
 *
 *   - start with wulipday_fresh, once, and keep the house that each call reports
 *     in place of the one it passed;
 *   - lend the same rows and the same marks each time, as the last call left
 *     them, and let nobody else write them. Before the first call they may hold
 *     anything;
 *   - keep a house together with its rows and marks: a copy of one without the
 *     others is of no use;
 *   - make one call at a time with them;
 *   - lend buffers that do not overlap, and no null pointer, not even with a
 *     length of 0.
 *
 * A lent run of bytes is two arguments, its first byte's address and its length.
 * No call keeps an address, allocates memory, or fails in any way but by the
 * codes below. Money is in cents. Commands, codes and the rules behind them stand
 * in docs/PROTOCOL.md.
 */
#ifndef WULIPDAY_H
#define WULIPDAY_H

#include <stdbool.h>
#include <stddef.h>
#include <stdint.h>

#ifdef __cplusplus
extern "C" {
#endif

/* Words and marks of the 200 tickets that can be live at once. */
#define WULIPDAY_WORDS 3200
#define WULIPDAY_MARKS 16000

/* Bytes of an answer: command byte, code (0 or the refusal), number (4), cents
 * (8), high byte first. */
#define WULIPDAY_ANSWER_BYTES 14

/* Bytes of a live list that no house outgrows. */
#define WULIPDAY_LIVE_LIST_BYTES 800

/* Why reading ended. */
#define WULIPDAY_STOP_END 0
#define WULIPDAY_STOP_UNKNOWN_BYTE 1
#define WULIPDAY_STOP_TOO_FEW_BYTES 2
#define WULIPDAY_STOP_BOOK_FULL 3

/* The three pools and the seed debt of a jackpot. */
typedef struct {
    uint64_t primary;
    uint64_t secondary;
    uint64_t reimbursement;
    uint64_t debt;
} wulipday_jackpot;

/* What the house counts; the till shows it. */
typedef struct {
    uint64_t taken;
    uint64_t seeds;
    uint64_t paid;
    uint64_t refunded;
    uint64_t unclaimed;
    uint64_t gained;
    uint64_t lost;
} wulipday_counters;

/* The house but for its tickets, which stand in the rows and the marks. To be
 * kept and passed on, not to be written. */
typedef struct {
    uint64_t day;
    uint64_t game;
    uint8_t balls[20];
    uint64_t drawn;
    uint64_t issued;
    uint64_t live;
    wulipday_jackpot six;
    wulipday_jackpot eight;
    wulipday_counters counters;
} wulipday_house;

/* The house after a call, why reading ended, the bytes of the answered commands,
 * and how many answers were written. The unread part begins at roll + read. */
typedef struct {
    wulipday_house house;
    uint8_t stop;
    size_t read;
    size_t answers;
} wulipday_report;

/* The nine figures of the till. Retained is its size; negative says whether it is
 * below zero. */
typedef struct {
    uint64_t taken;
    uint64_t seeds;
    uint64_t paid;
    uint64_t refunded;
    uint64_t owed;
    uint64_t held;
    uint64_t unclaimed;
    uint64_t pooled;
    uint64_t retained;
    bool negative;
} wulipday_till_figures;

/* Both jackpots. */
typedef struct {
    wulipday_jackpot six;
    wulipday_jackpot eight;
} wulipday_jackpots;

/* Code 0 and the number of live tickets, or code 30 and 0. */
typedef struct {
    uint8_t code;
    uint32_t count;
} wulipday_listed;

/* A house in which nothing has happened, whatever rows and marks hold. */
wulipday_house wulipday_fresh(void);

/* Carries out the first command of the bytes and writes its answer.
 *
 * The report's answers says what was done:
 *   1  the first command was carried out or refused, and read is its bytes. The
 *      stop then only says what comes behind it: 0 nothing, 1 an unknown byte,
 *      2 a command cut off, 3 a whole command;
 *   0  nothing was done or written, and the stop says why: 0 there is no byte,
 *      1 no known command, 2 a command cut off. */
wulipday_report wulipday_command(wulipday_house house, uint64_t rows[WULIPDAY_WORDS],
                                 uint8_t marks[WULIPDAY_MARKS], const uint8_t *command,
                                 size_t command_length, uint8_t answer[WULIPDAY_ANSWER_BYTES]);

/* Carries out the commands of a roll and writes an answer each into the book, up
 * to the first place where it must stop:
 *   0  the end of the roll; 1 an unknown byte; 2 too few bytes left for the
 *      command; 3 under 14 bytes free in the book.
 * A refused command is answered and reading goes on. The book beyond its answers
 * is untouched. After a stop 3, empty the book and go on at roll + read. */
wulipday_report wulipday_roll(wulipday_house house, uint64_t rows[WULIPDAY_WORDS],
                              uint8_t marks[WULIPDAY_MARKS], const uint8_t *roll,
                              size_t roll_length, uint8_t *book, size_t book_length);

/* The till. Taken and seeds equal the other seven together. */
wulipday_till_figures wulipday_till(wulipday_house house, const uint64_t rows[WULIPDAY_WORDS]);

/* The pools and the debt of each jackpot. */
wulipday_jackpots wulipday_pools(wulipday_house house);

/* Writes the numbers of the live tickets in rising order, each once, 4 bytes
 * each, high byte first. Bytes beyond the list stay as they were. Refused with
 * 30, and nothing written, when out is too short. */
wulipday_listed wulipday_live_list(wulipday_house house, const uint64_t rows[WULIPDAY_WORDS],
                                   uint8_t *out, size_t out_length);

#ifdef __cplusplus
}
#endif

#endif
