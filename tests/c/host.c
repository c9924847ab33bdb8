/* A host in C: document 01's printed roll, one command at a time and in one roll,
 * a game with a winner and two jackpot hits, another whose last ball wins, a ticket that
 * is collected part way, a game called off, the live list after whatever issues or closes
 * tickets, and every stop and refusal of the boundary. Ends with 0, or with 1 and a message for
 * each check that fails. */
#include "wulipday.h"

#include <stdio.h>
#include <string.h>

#define BLANK 0xA5
#define SALE_BYTES 89
#define LUCKY_LAST_BYTES 93
#define MOST_LIVE 200
/* Bytes of a buffer beyond its live list, lent or not. */
#define BEYOND 16
#define LIST_BYTES (4 * MOST_LIVE + BEYOND)

static int failures = 0;

#define CHECK(condition) check((condition), __LINE__, #condition)

static void check(bool holds, int line, const char *condition)
{
    if (!holds) {
        fprintf(stderr, "tests/c/host.c:%d: %s does not hold\n", line, condition);
        failures++;
    }
}

/* What a host keeps. */
typedef struct {
    wulipday_house house;
    uint64_t rows[WULIPDAY_WORDS];
    uint8_t marks[WULIPDAY_MARKS];
} lounge;

typedef struct {
    unsigned command;
    unsigned code;
    uint32_t number;
    uint64_t cents;
} answer;

/* Fresh, in buffers that hold something. */
static void open_lounge(lounge *lounge)
{
    memset(lounge->rows, BLANK, sizeof lounge->rows);
    memset(lounge->marks, BLANK, sizeof lounge->marks);
    lounge->house = wulipday_fresh();
}

static uint64_t high_byte_first(const uint8_t *bytes, size_t count)
{
    uint64_t number = 0;
    for (size_t place = 0; place < count; place++)
        number = number * 256 + bytes[place];
    return number;
}

static bool all_blank(const uint8_t *bytes, size_t count)
{
    for (size_t place = 0; place < count; place++)
        if (bytes[place] != BLANK)
            return false;
    return true;
}

static bool answered(const uint8_t *record, answer expected)
{
    return record[0] == expected.command && record[1] == expected.code
        && high_byte_first(record + 2, 4) == expected.number
        && high_byte_first(record + 6, 8) == expected.cents;
}

/* One command, all of the bytes, with the answer it is to get. */
static bool gives(lounge *lounge, const uint8_t *command, size_t length, answer expected)
{
    uint8_t record[WULIPDAY_ANSWER_BYTES];
    wulipday_report report = wulipday_command(lounge->house, lounge->rows, lounge->marks, command,
                                              length, record);
    lounge->house = report.house;
    return report.stop == WULIPDAY_STOP_END && report.read == length && report.answers == 1
        && answered(record, expected);
}

/* A ticket of one way for one game, on the numbers from first on. */
static void write_sale(uint8_t sale[SALE_BYTES], uint8_t kind, uint8_t stake, uint8_t first,
                       uint8_t numbers)
{
    const uint8_t operands[] = {2, kind, 1, 0, 0, 0, stake, 1, 1};
    memset(sale, 0, SALE_BYTES);
    memcpy(sale, operands, sizeof operands);
    memset(sale + sizeof operands + first - 1, 1, numbers);
}

/* The same at 100, with a feature stake. */
static void write_lucky_last(uint8_t sale[LUCKY_LAST_BYTES], uint8_t kind, uint8_t first,
                             uint8_t numbers, uint8_t feature)
{
    const uint8_t feature_stake[] = {0, 0, 0, feature};
    write_sale(sale, kind, 100, first, numbers);
    sale[0] = 8;
    memcpy(sale + SALE_BYTES, feature_stake, sizeof feature_stake);
}

/* A ticket on one number at 100 a game, with the ticket number it is to get. */
static bool sells(lounge *lounge, uint8_t number, uint8_t games, uint32_t ticket)
{
    uint8_t sale[SALE_BYTES];
    write_sale(sale, 0, 100, number, 1);
    sale[2] = games;
    return gives(lounge, sale, SALE_BYTES, (answer){2, 0, ticket, 100 * (uint64_t)games});
}

/* Balls 1 to 20, with what is won in the game. */
static bool draws(lounge *lounge, uint64_t won)
{
    bool holds = true;
    for (uint8_t number = 1; number <= 20; number++) {
        const uint8_t ball[] = {4, number};
        holds &= gives(lounge, ball, 2, (answer){4, 0, number, number == 20 ? won : 0});
    }
    return holds;
}

static const uint8_t open_day_1[] = {1, 0, 1};
static const uint8_t cancel_1[] = {3, 0, 0, 0, 1};
static const uint8_t claim_1[] = {5, 0, 0, 0, 1};
static const uint8_t claim_2[] = {5, 0, 0, 0, 2};

static const answer printed[] = {{1, 0, 1, 0}, {2, 0, 1, 100}, {3, 0, 1, 100}, {5, 19, 0, 0}};

static size_t write_printed_roll(uint8_t roll[102])
{
    memcpy(roll, open_day_1, 3);
    write_sale(roll + 3, 0, 100, 1, 1);
    memcpy(roll + 92, cancel_1, 5);
    memcpy(roll + 97, claim_1, 5);
    return 102;
}

/* till 100 1350000 0 100 0 0 0 1350000 0 */
static void check_printed_till(const lounge *lounge)
{
    wulipday_till_figures till = wulipday_till(lounge->house, lounge->rows);
    CHECK(till.taken == 100 && till.seeds == 1350000 && till.paid == 0);
    CHECK(till.refunded == 100 && till.owed == 0 && till.held == 0);
    CHECK(till.unclaimed == 0 && till.pooled == 1350000);
    CHECK(till.retained == 0 && !till.negative);
}

static void printed_roll_at_once(lounge *lounge)
{
    uint8_t roll[102];
    uint8_t book[4 * WULIPDAY_ANSWER_BYTES + 5];
    size_t length = write_printed_roll(roll);
    memset(book, BLANK, sizeof book);
    open_lounge(lounge);
    wulipday_report report = wulipday_roll(lounge->house, lounge->rows, lounge->marks, roll, length,
                                           book, sizeof book);
    lounge->house = report.house;
    CHECK(report.stop == WULIPDAY_STOP_END && report.read == 102 && report.answers == 4);
    for (size_t place = 0; place < 4; place++)
        CHECK(answered(book + place * WULIPDAY_ANSWER_BYTES, printed[place]));
    CHECK(all_blank(book + 4 * WULIPDAY_ANSWER_BYTES, 5));
    check_printed_till(lounge);
}

/* The roll is passed whole each time, from where the last call ended. */
static void printed_roll_by_command(lounge *lounge)
{
    uint8_t roll[102];
    size_t length = write_printed_roll(roll);
    size_t read = 0;
    open_lounge(lounge);
    for (size_t place = 0; place < 4; place++) {
        uint8_t record[WULIPDAY_ANSWER_BYTES];
        wulipday_report report = wulipday_command(lounge->house, lounge->rows, lounge->marks,
                                                  roll + read, length - read, record);
        lounge->house = report.house;
        read += report.read;
        CHECK(report.stop == (place < 3 ? WULIPDAY_STOP_BOOK_FULL : WULIPDAY_STOP_END));
        CHECK(report.answers == 1 && answered(record, printed[place]));
    }
    CHECK(read == length);
    check_printed_till(lounge);
}

/* A whole command is done whatever comes behind it: answers is 1, read its bytes,
 * and the stop tells what comes behind. */
static void command_with_bytes_behind(lounge *lounge)
{
    static const struct {
        uint8_t behind;
        size_t bytes;
        uint8_t stop;
    } cases[] = {
        {0, 0, WULIPDAY_STOP_END},
        {0xFF, 1, WULIPDAY_STOP_UNKNOWN_BYTE},
        {4, 1, WULIPDAY_STOP_TOO_FEW_BYTES},
        {6, 1, WULIPDAY_STOP_BOOK_FULL},
    };
    for (size_t place = 0; place < sizeof cases / sizeof cases[0]; place++) {
        const uint8_t bytes[] = {1, 0, 1, cases[place].behind};
        uint8_t record[WULIPDAY_ANSWER_BYTES];
        open_lounge(lounge);
        /* Carried out, and then refused: a day can't be opened twice. */
        for (unsigned code = 0; code <= 5; code += 5) {
            wulipday_report report = wulipday_command(lounge->house, lounge->rows, lounge->marks,
                                                      bytes, 3 + cases[place].bytes, record);
            lounge->house = report.house;
            CHECK(report.stop == cases[place].stop && report.read == 3 && report.answers == 1);
            CHECK(answered(record, (answer){1, code, code == 0 ? 1 : 0, 0}));
            CHECK(report.house.day == 1);
        }
    }
}

/* Without a whole command nothing is done and nothing is written: answers is 0, and
 * the stop says why. */
static void no_command(lounge *lounge)
{
    static const uint8_t unknown[] = {0xFF, 0, 1};
    uint8_t record[WULIPDAY_ANSWER_BYTES];
    memset(record, BLANK, sizeof record);
    open_lounge(lounge);
    wulipday_report none = wulipday_command(lounge->house, lounge->rows, lounge->marks, open_day_1,
                                            0, record);
    CHECK(none.stop == WULIPDAY_STOP_END && none.read == 0 && none.answers == 0);
    wulipday_report other = wulipday_command(lounge->house, lounge->rows, lounge->marks, unknown, 3,
                                             record);
    CHECK(other.stop == WULIPDAY_STOP_UNKNOWN_BYTE && other.read == 0 && other.answers == 0);
    wulipday_report short_one = wulipday_command(lounge->house, lounge->rows, lounge->marks,
                                                 open_day_1, 2, record);
    CHECK(short_one.stop == WULIPDAY_STOP_TOO_FEW_BYTES && short_one.answers == 0);
    CHECK(short_one.house.day == 0 && all_blank(record, sizeof record));
}

/* A book without room stops a roll before its first command. */
static void full_book(lounge *lounge)
{
    uint8_t book[WULIPDAY_ANSWER_BYTES - 1];
    memset(book, BLANK, sizeof book);
    open_lounge(lounge);
    wulipday_report report = wulipday_roll(lounge->house, lounge->rows, lounge->marks, open_day_1,
                                           3, book, sizeof book);
    CHECK(report.stop == WULIPDAY_STOP_BOOK_FULL && report.read == 0 && report.answers == 0);
    CHECK(report.house.day == 0 && all_blank(book, sizeof book));
}

/* The numbers, and blank bytes to the end. */
static void write_list(uint8_t list[LIST_BYTES], const uint32_t *numbers, size_t count)
{
    memset(list, BLANK, LIST_BYTES);
    for (size_t place = 0; place < count; place++)
        for (size_t byte = 0; byte < 4; byte++)
            list[4 * place + byte] = (uint8_t)(numbers[place] >> (24 - 8 * byte));
}

/* The list in so many lent bytes. The whole buffer is compared, also what of it
 * was not lent. */
static bool lists_in(const lounge *lounge, size_t room, wulipday_listed expected,
                     const uint8_t expected_list[LIST_BYTES])
{
    uint8_t list[LIST_BYTES];
    memset(list, BLANK, sizeof list);
    wulipday_listed listed = wulipday_live_list(lounge->house, lounge->rows, list, room);
    return listed.code == expected.code && listed.count == expected.count
        && memcmp(list, expected_list, sizeof list) == 0;
}

/* These tickets are live: listed where just their bytes are lent and where more are,
 * refused with fewer, and then nothing is written. */
static bool lists(const lounge *lounge, const uint32_t *numbers, size_t count)
{
    const wulipday_listed all = {.code = 0, .count = (uint32_t)count};
    const wulipday_listed refused = {.code = 30, .count = 0};
    const size_t bytes = 4 * count;
    uint8_t list[LIST_BYTES];
    uint8_t untouched[LIST_BYTES];
    write_list(list, numbers, count);
    write_list(untouched, numbers, 0);
    bool holds = true;
    for (size_t room = 0; room < bytes; room++)
        holds &= lists_in(lounge, room, refused, untouched);
    for (size_t room = bytes; room <= bytes + BEYOND; room++)
        holds &= lists_in(lounge, room, all, list);
    return holds;
}

#define CHECK_LISTS(lounge, ...) \
    check(lists(lounge, (const uint32_t[]){__VA_ARGS__}, \
                sizeof (const uint32_t[]){__VA_ARGS__} / sizeof (uint32_t)), \
          __LINE__, "live list " #__VA_ARGS__)

static void nothing_live(lounge *lounge)
{
    const uint32_t none[] = {0};
    open_lounge(lounge);
    CHECK(lists(lounge, none, 0));
    CHECK(gives(lounge, open_day_1, 3, (answer){1, 0, 1, 0}));
    CHECK(lists(lounge, none, 0));
    CHECK(sells(lounge, 1, 1, 1));
    CHECK_LISTS(lounge, 1);
    CHECK(gives(lounge, cancel_1, 5, (answer){3, 0, 1, 100}));
    CHECK(lists(lounge, none, 0));
}

/* Number 1 is drawn, for 300, and number 80 is not. */
static void sell_eight(lounge *lounge)
{
    static const struct {
        uint8_t number;
        uint8_t games;
    } tickets[] = {{1, 2}, {1, 1}, {80, 1}, {1, 1}, {1, 1}, {80, 1}, {1, 2}, {1, 1}};
    for (uint32_t place = 0; place < 8; place++)
        CHECK(sells(lounge, tickets[place].number, tickets[place].games, place + 1));
}

/* Each time, tickets with lower and with higher numbers stay. */
static void closed_in_the_middle(lounge *lounge)
{
    static const uint8_t cancel_4[] = {3, 0, 0, 0, 4};
    static const uint8_t claim_5[] = {5, 0, 0, 0, 5};
    /* 1 and 2 March 1999, and the same dates of 2000. */
    static const uint8_t open_day_425[] = {1, 1, 169};
    static const uint8_t open_day_426[] = {1, 1, 170};
    static const uint8_t open_day_791[] = {1, 3, 23};
    static const uint8_t open_day_792[] = {1, 3, 24};
    static const uint8_t expire[] = {6};
    open_lounge(lounge);
    CHECK(gives(lounge, open_day_425, 3, (answer){1, 0, 425, 0}));
    sell_eight(lounge);
    CHECK_LISTS(lounge, 1, 2, 3, 4, 5, 6, 7, 8);
    CHECK(gives(lounge, cancel_4, 5, (answer){3, 0, 4, 100}));
    CHECK_LISTS(lounge, 1, 2, 3, 5, 6, 7, 8);
    CHECK(draws(lounge, 5 * 300));
    CHECK_LISTS(lounge, 1, 2, 5, 7, 8);
    CHECK(gives(lounge, claim_5, 5, (answer){5, 0, 5, 300}));
    CHECK_LISTS(lounge, 1, 2, 7, 8);
    CHECK(gives(lounge, open_day_426, 3, (answer){1, 0, 426, 0}));
    CHECK(draws(lounge, 2 * 300));
    CHECK(gives(lounge, open_day_791, 3, (answer){1, 0, 791, 0}));
    CHECK(gives(lounge, expire, 1, (answer){6, 0, 0, 0}));
    CHECK_LISTS(lounge, 1, 2, 7, 8);
    CHECK(sells(lounge, 1, 1, 9));
    /* 2 and 8 were finished on day 425, 1 and 7 on day 426. */
    CHECK(gives(lounge, open_day_792, 3, (answer){1, 0, 792, 0}));
    CHECK(gives(lounge, expire, 1, (answer){6, 0, 2, 600}));
    CHECK_LISTS(lounge, 1, 7, 9);
    CHECK(sells(lounge, 1, 1, 10));
    CHECK_LISTS(lounge, 1, 7, 9, 10);
}

/* Tickets 1 to 200; then the odd ones have lost, and 100 more are sold. */
static void two_hundred_live(lounge *lounge)
{
    uint32_t numbers[MOST_LIVE];
    open_lounge(lounge);
    CHECK(gives(lounge, open_day_1, 3, (answer){1, 0, 1, 0}));
    for (uint32_t ticket = 1; ticket <= MOST_LIVE; ticket++) {
        CHECK(sells(lounge, ticket % 2 == 0 ? 1 : 80, 1, ticket));
        numbers[ticket - 1] = ticket;
    }
    CHECK(lists(lounge, numbers, MOST_LIVE));
    CHECK(draws(lounge, 100 * 300));
    for (uint32_t place = 0; place < 100; place++)
        numbers[place] = 2 * (place + 1);
    CHECK(lists(lounge, numbers, 100));
    for (uint32_t place = 100; place < MOST_LIVE; place++) {
        numbers[place] = place + 101;
        CHECK(sells(lounge, 1, 1, numbers[place]));
    }
    CHECK(lists(lounge, numbers, MOST_LIVE));
}

/* Sixes at 100 and 200 hit: 33,348 and 66,697, the odd cent to the larger stake. */
static void shared_jackpot(lounge *lounge)
{
    uint8_t sale[SALE_BYTES];
    open_lounge(lounge);
    CHECK(gives(lounge, open_day_1, 3, (answer){1, 0, 1, 0}));
    write_sale(sale, 1, 100, 1, 6);
    CHECK(gives(lounge, sale, SALE_BYTES, (answer){2, 0, 1, 100}));
    write_sale(sale, 1, 200, 1, 6);
    CHECK(gives(lounge, sale, SALE_BYTES, (answer){2, 0, 2, 200}));
    CHECK_LISTS(lounge, 1, 2);
    CHECK(draws(lounge, 100045));
    wulipday_jackpots pools = wulipday_pools(lounge->house);
    CHECK(pools.six.primary == 100000 && pools.six.secondary == 0);
    CHECK(pools.six.reimbursement == 0 && pools.six.debt == 100000 + 99985 - 15);
    CHECK(pools.eight.primary == 1250000 && pools.eight.debt == 1250000);
    CHECK(gives(lounge, claim_1, 5, (answer){5, 0, 1, 33348}));
    CHECK(gives(lounge, claim_2, 5, (answer){5, 0, 2, 66697}));
    CHECK(gives(lounge, claim_2, 5, (answer){5, 19, 0, 0}));
    wulipday_till_figures till = wulipday_till(lounge->house, lounge->rows);
    CHECK(till.taken == 300 && till.seeds == 1350000 + 99985 && till.paid == 100045);
    CHECK(till.retained == 300 - 75 + 15 && !till.negative);
}

/* 15 of 15 at 100: the house loses, and retained is below zero. */
static void losing_house(lounge *lounge)
{
    uint8_t sale[SALE_BYTES];
    open_lounge(lounge);
    CHECK(gives(lounge, open_day_1, 3, (answer){1, 0, 1, 0}));
    write_sale(sale, 0, 100, 1, 15);
    CHECK(gives(lounge, sale, SALE_BYTES, (answer){2, 0, 1, 100}));
    CHECK(draws(lounge, 5000000));
    wulipday_till_figures till = wulipday_till(lounge->house, lounge->rows);
    CHECK(till.owed == 5000000 && till.retained == 4999900 && till.negative);
}

/* Three of three twice, 3,600 each. The last ball is 20, which the first ticket has:
 * 2,000 for a dollar of its feature stake. */
static void lucky_last(lounge *lounge)
{
    uint8_t sale[LUCKY_LAST_BYTES];
    uint8_t record[WULIPDAY_ANSWER_BYTES];
    open_lounge(lounge);
    CHECK(gives(lounge, open_day_1, 3, (answer){1, 0, 1, 0}));
    write_lucky_last(sale, 1, 1, 6, 200);
    CHECK(gives(lounge, sale, LUCKY_LAST_BYTES, (answer){8, 31, 0, 0}));
    write_lucky_last(sale, 0, 18, 3, 150);
    CHECK(gives(lounge, sale, LUCKY_LAST_BYTES, (answer){8, 32, 0, 0}));
    write_lucky_last(sale, 0, 18, 3, 200);
    wulipday_report cut_off = wulipday_command(lounge->house, lounge->rows, lounge->marks, sale,
                                               LUCKY_LAST_BYTES - 1, record);
    CHECK(cut_off.stop == WULIPDAY_STOP_TOO_FEW_BYTES && cut_off.answers == 0);
    CHECK(gives(lounge, sale, LUCKY_LAST_BYTES, (answer){8, 0, 1, 100 + 200}));
    write_lucky_last(sale, 0, 17, 3, 200);
    CHECK(gives(lounge, sale, LUCKY_LAST_BYTES, (answer){8, 0, 2, 100 + 200}));
    CHECK_LISTS(lounge, 1, 2);
    CHECK(draws(lounge, 2 * 3600 + 4000));
    CHECK(gives(lounge, claim_1, 5, (answer){5, 0, 1, 3600 + 4000}));
    CHECK(gives(lounge, claim_2, 5, (answer){5, 0, 2, 3600}));
    wulipday_till_figures till = wulipday_till(lounge->house, lounge->rows);
    CHECK(till.taken == 600 && till.paid == 11200 && till.owed == 0 && till.held == 0);
    CHECK(till.retained == 11200 - 600 && till.negative);
}

/* Two games of which the first is won: paid, and the second is ticket 2's. */
static void collected(lounge *lounge)
{
    static const uint8_t collect_1[] = {9, 0, 0, 0, 1};
    static const uint8_t collect_2[] = {9, 0, 0, 0, 2};
    uint8_t record[WULIPDAY_ANSWER_BYTES];
    open_lounge(lounge);
    CHECK(gives(lounge, collect_1, 5, (answer){9, 4, 0, 0}));
    CHECK(gives(lounge, open_day_1, 3, (answer){1, 0, 1, 0}));
    CHECK(sells(lounge, 1, 2, 1));
    CHECK(gives(lounge, collect_1, 5, (answer){9, 34, 0, 0}));
    CHECK(draws(lounge, 300));
    wulipday_report cut_off = wulipday_command(lounge->house, lounge->rows, lounge->marks,
                                               collect_1, 4, record);
    CHECK(cut_off.stop == WULIPDAY_STOP_TOO_FEW_BYTES && cut_off.answers == 0);
    CHECK(gives(lounge, collect_1, 5, (answer){9, 0, 2, 300}));
    CHECK_LISTS(lounge, 2);
    wulipday_till_figures till = wulipday_till(lounge->house, lounge->rows);
    CHECK(till.taken == 200 && till.paid == 300 && till.owed == 0 && till.held == 100);
    CHECK(gives(lounge, claim_1, 5, (answer){5, 19, 0, 0}));
    CHECK(draws(lounge, 300));
    CHECK(gives(lounge, collect_2, 5, (answer){9, 33, 0, 0}));
    CHECK(gives(lounge, claim_2, 5, (answer){5, 0, 2, 300}));
    till = wulipday_till(lounge->house, lounge->rows);
    CHECK(till.taken == 200 && till.paid == 600 && till.owed == 0 && till.held == 0);
    CHECK(till.retained == 600 - 200 && till.negative);
}

/* Three balls are in: what two tickets paid for the game is due on them, and one has another
 * game, which wins. */
static void called_off(lounge *lounge)
{
    static const uint8_t call_off[] = {10};
    static const uint8_t cancel_2[] = {3, 0, 0, 0, 2};
    open_lounge(lounge);
    CHECK(gives(lounge, call_off, 1, (answer){10, 4, 0, 0}));
    CHECK(gives(lounge, open_day_1, 3, (answer){1, 0, 1, 0}));
    CHECK(sells(lounge, 1, 2, 1));
    CHECK(sells(lounge, 1, 1, 2));
    for (uint8_t number = 1; number <= 3; number++) {
        const uint8_t ball[] = {4, number};
        CHECK(gives(lounge, ball, 2, (answer){4, 0, number, 0}));
    }
    CHECK(gives(lounge, call_off, 1, (answer){10, 0, 1, 200}));
    CHECK(lounge->house.game == 2 && lounge->house.drawn == 0);
    CHECK_LISTS(lounge, 1, 2);
    wulipday_till_figures till = wulipday_till(lounge->house, lounge->rows);
    CHECK(till.taken == 300 && till.owed == 200 && till.held == 100);
    CHECK(till.refunded == 0 && till.pooled == 1350000 && till.retained == 0);
    CHECK(gives(lounge, cancel_2, 5, (answer){3, 22, 0, 0}));
    CHECK(gives(lounge, claim_2, 5, (answer){5, 0, 2, 100}));
    CHECK(draws(lounge, 300));
    CHECK(gives(lounge, claim_1, 5, (answer){5, 0, 1, 100 + 300}));
    till = wulipday_till(lounge->house, lounge->rows);
    CHECK(till.paid == 500 && till.owed == 0 && till.held == 0);
    CHECK(till.retained == 300 - 100 && till.negative);
}

int main(void)
{
    static lounge lounge;
    printed_roll_at_once(&lounge);
    printed_roll_by_command(&lounge);
    command_with_bytes_behind(&lounge);
    no_command(&lounge);
    full_book(&lounge);
    nothing_live(&lounge);
    closed_in_the_middle(&lounge);
    two_hundred_live(&lounge);
    shared_jackpot(&lounge);
    losing_house(&lounge);
    lucky_last(&lounge);
    collected(&lounge);
    called_off(&lounge);
    if (failures > 0) {
        fprintf(stderr, "the host in C: %d checks failed\n", failures);
        return 1;
    }
    puts("the host in C: every check holds");
    return 0;
}
