/* Two workers and a club buy from one register. README, "From C", says how to build and run it. */
#include "huztiral.h"
#include <inttypes.h>
#include <stdio.h>

#define N 4 /* copies: mixes of the edition, and lines of its register */

static void sell(huz_ledger *ledger, uint32_t *orders, uint8_t *items, uint64_t serial, uint32_t order, uint8_t item) {
    huz_answer answer = huz_claim_in(ledger, orders, N, items, N, serial, order, item);
    if (answer.number == HUZ_ACCEPTED)
        printf("serial %" PRIu64 " is for order %" PRIu32 ", item line %d\n", answer.serial, order, item);
    else /* here HUZ_ALREADY_WRITTEN, whose detail is the order that has the serial */
        printf("refused %" PRIu32 " order %" PRIu64 "\n", answer.number, answer.detail);
}

int main(void) {
    const uint8_t upper[N] = {1, 1, 1, 1};
    const uint32_t club[2] = {1021, 1038};
    const uint8_t club_items[2] = {1, 1};
    uint32_t orders[N] = {0};
    uint8_t items[N] = {0};
    huz_opened opened = huz_open(upper, N, 1, orders, N, items, N);
    huz_peeked seen = huz_peek(opened.ledger, orders, N, items, N); /* two workers look, and both see serial 1 */
    if (opened.number != HUZ_ACCEPTED || seen.number != HUZ_ACCEPTED)
        return 1;
    sell(&opened.ledger, orders, items, seen.serial, 1007, 1); /* the first takes it for order 1007 */
    sell(&opened.ledger, orders, items, seen.serial, 1014, 1); /* the second is refused, and learns who has it */
    sell(&opened.ledger, orders, items, 2, 1007, 2); /* the second copy in the basket of order 1007 */
    huz_claimed claimed = huz_claim_all(opened.ledger, orders, N, items, N, 3, club, 2, club_items, 2); /* a club takes two, or neither */
    if (claimed.number != HUZ_ACCEPTED)
        return 1;
    opened.ledger = claimed.ledger; /* the record as it is now */
    printf("serials %" PRIu64 " to %" PRIu64 " are for the club\n", claimed.serial, claimed.serial + 1);
}
