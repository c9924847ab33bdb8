/* A host in C: a day, a ticket on 7, 8 and 9, a game, and the winner is paid. */
#include "wulipday.h"
#include <inttypes.h>
#include <stdio.h>

static wulipday_house house; /* what a host keeps from call to call */
static uint64_t rows[WULIPDAY_WORDS];
static uint8_t marks[WULIPDAY_MARKS];

static void give(const uint8_t *command, size_t length)
{
    uint8_t answer[WULIPDAY_ANSWER_BYTES] = {0};
    wulipday_report report = wulipday_command(house, rows, marks, command, length, answer);
    uint64_t cents = 0;
    house = report.house;
    for (size_t place = 6; place < WULIPDAY_ANSWER_BYTES; place++)
        cents = cents * 256 + answer[place];
    printf("command %d: code %d, %" PRIu64 " cents\n", command[0], answer[1], cents);
}

int main(void)
{
    uint8_t sale[89] = {2, 0, 1, 0, 0, 0, 100, 1, 1, [8 + 7] = 1, [8 + 8] = 1, [8 + 9] = 1};
    house = wulipday_fresh();
    give((const uint8_t[]){1, 0, 1}, 3);
    give(sale, sizeof sale);
    for (uint8_t ball = 1; ball <= 20; ball++) give((const uint8_t[]){4, ball}, 2);
    give((const uint8_t[]){5, 0, 0, 0, 1}, 5);
    printf("paid %" PRIu64 " cents in all\n", wulipday_till(house, rows).paid);
}
