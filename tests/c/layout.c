/* Where each field stands. The Rust declarations are held to the same lines. */
#include "wulipday.h"

#define SIZE(type, bytes) _Static_assert(sizeof(type) == (bytes), "size of " #type)
#define PLACE(type, field, bytes) \
    _Static_assert(offsetof(type, field) == (bytes), "place of " #field " in " #type)

SIZE(wulipday_jackpot, 32);
PLACE(wulipday_jackpot, primary, 0);
PLACE(wulipday_jackpot, secondary, 8);
PLACE(wulipday_jackpot, reimbursement, 16);
PLACE(wulipday_jackpot, debt, 24);

SIZE(wulipday_counters, 56);
PLACE(wulipday_counters, taken, 0);
PLACE(wulipday_counters, seeds, 8);
PLACE(wulipday_counters, paid, 16);
PLACE(wulipday_counters, refunded, 24);
PLACE(wulipday_counters, unclaimed, 32);
PLACE(wulipday_counters, gained, 40);
PLACE(wulipday_counters, lost, 48);

SIZE(wulipday_house, 184);
PLACE(wulipday_house, day, 0);
PLACE(wulipday_house, game, 8);
PLACE(wulipday_house, balls, 16);
PLACE(wulipday_house, drawn, 40);
PLACE(wulipday_house, issued, 48);
PLACE(wulipday_house, live, 56);
PLACE(wulipday_house, six, 64);
PLACE(wulipday_house, eight, 96);
PLACE(wulipday_house, counters, 128);

SIZE(wulipday_report, 208);
PLACE(wulipday_report, house, 0);
PLACE(wulipday_report, stop, 184);
PLACE(wulipday_report, read, 192);
PLACE(wulipday_report, answers, 200);

SIZE(wulipday_till_figures, 80);
PLACE(wulipday_till_figures, taken, 0);
PLACE(wulipday_till_figures, seeds, 8);
PLACE(wulipday_till_figures, paid, 16);
PLACE(wulipday_till_figures, refunded, 24);
PLACE(wulipday_till_figures, owed, 32);
PLACE(wulipday_till_figures, held, 40);
PLACE(wulipday_till_figures, unclaimed, 48);
PLACE(wulipday_till_figures, pooled, 56);
PLACE(wulipday_till_figures, retained, 64);
PLACE(wulipday_till_figures, negative, 72);

SIZE(wulipday_jackpots, 64);
PLACE(wulipday_jackpots, six, 0);
PLACE(wulipday_jackpots, eight, 32);

SIZE(wulipday_listed, 8);
PLACE(wulipday_listed, code, 0);
PLACE(wulipday_listed, count, 4);
