/* Every function of the C interface, called from C with all kinds and with one withdrawn, and the layouts that other languages copy. */
#include "../include/huztiral.h"
#include <stdio.h>
#include <string.h>

#define AT(type, field, place) _Static_assert(offsetof(type, field) == place, #type "." #field)
#define SIZE(type, bytes) _Static_assert(sizeof(type) == bytes, #type)
#define ANSWER(type, bytes) SIZE(type, bytes); AT(type, number, 0); AT(type, detail, 8)
SIZE(huz_bounds, 40); AT(huz_bounds, parts, 0); AT(huz_bounds, upper, 8); AT(huz_bounds, total, 32);
SIZE(huz_ledger, 88); AT(huz_ledger, bounds, 0); AT(huz_ledger, entries, 40); AT(huz_ledger, sold, 48); AT(huz_ledger, voided, 56);
AT(huz_ledger, next, 64);
ANSWER(huz_done, 16);
ANSWER(huz_checked, 64); AT(huz_checked, bounds, 16); AT(huz_checked, count, 56);
ANSWER(huz_ranked, 24); AT(huz_ranked, serial, 16);
ANSWER(huz_stepped, 48); AT(huz_stepped, composition, 16); AT(huz_stepped, gain, 40); AT(huz_stepped, loss, 44);
ANSWER(huz_opened, 104); AT(huz_opened, ledger, 16);
ANSWER(huz_peeked, 56); AT(huz_peeked, serial, 16); AT(huz_peeked, composition, 24); AT(huz_peeked, gain, 48); AT(huz_peeked, loss, 52);
ANSWER(huz_answer, 48); AT(huz_answer, serial, 16); AT(huz_answer, composition, 24);
ANSWER(huz_claimed, 136); AT(huz_claimed, serial, 16); AT(huz_claimed, composition, 24); AT(huz_claimed, ledger, 48);

static int failed;

static void expect(int holds, const char *what) {
    if (!holds) {
        printf("smoke: %s is not as it should be\n", what);
        failed = 1;
    }
}

static int is(const uint8_t *cells, int a, int b, int c) {
    return cells[0] == a && cells[1] == b && cells[2] == c;
}

/* the same mixes with a kind withdrawn between the first and the second, which is no puzzle edition */
static void withdrawn(void) {
    const uint8_t upper[4] = {3, 0, 2, 1}, composition[4] = {2, 0, 1, 0}, given[5] = {2, 4, 1, 3, 5};
    const uint32_t bundle[2] = {1021, 1021};
    uint8_t out[8], order[5];
    const uint8_t lines[2] = {1, 2};
    uint32_t orders[6] = {0};
    uint8_t items[6] = {0};

    huz_checked checked = huz_check(upper, 4, 3);
    expect(checked.number == 0 && checked.count == 6 && checked.bounds.parts == 4 && is(checked.bounds.upper, 3, 0, 2), "huz_check, withdrawn");
    expect(huz_rank(upper, 4, 3, composition, 4).serial == 2, "huz_rank, withdrawn");
    expect(huz_unrank(upper, 4, 3, 4, out, 4).number == 0 && is(out, 0, 0, 2) && out[3] == 1, "huz_unrank, withdrawn");
    huz_stepped stepped = huz_successor(upper, 4, 3, composition, 4);
    expect(is(stepped.composition, 1, 0, 2) && stepped.gain == 3 && stepped.loss == 1, "huz_successor, withdrawn");
    stepped = huz_predecessor(upper, 4, 3, composition, 4);
    expect(is(stepped.composition, 3, 0, 0) && stepped.gain == 1 && stepped.loss == 3, "huz_predecessor, withdrawn");
    expect(huz_batch(upper, 4, 3, 5, 2, out, 8).number == 0 && is(out, 1, 0, 1) && is(out + 4, 2, 0, 0) && out[7] == 1, "huz_batch, withdrawn");
    expect(huz_permutation(upper, 4, 3, composition, 4, order, 5).number == HUZ_NOT_A_STAIRCASE, "huz_permutation, withdrawn");
    expect(huz_inversions(upper, 4, 3, given, 5, out, 4).number == HUZ_NOT_A_STAIRCASE, "huz_inversions, withdrawn");
    expect(huz_major_permutation(upper, 4, 3, composition, 4, order, 5).number == HUZ_NOT_A_STAIRCASE, "huz_major_permutation, withdrawn");
    expect(huz_major_code(upper, 4, 3, given, 5, out, 4).number == HUZ_NOT_A_STAIRCASE, "huz_major_code, withdrawn");
    huz_opened opened = huz_open(upper, 4, 3, orders, 6, items, 6);
    expect(opened.number == 0 && is(opened.ledger.next, 3, 0, 0), "huz_open, withdrawn");
    huz_claimed claimed = huz_claim(opened.ledger, orders, 6, items, 6, 1, 1007, 1);
    huz_peeked peeked = huz_peek(claimed.ledger, orders, 6, items, 6);
    expect(peeked.serial == 2 && is(peeked.composition, 2, 0, 1) && peeked.gain == 3 && peeked.loss == 1, "huz_claim and huz_peek, withdrawn");
    claimed = huz_void(claimed.ledger, orders, 6, items, 6, 2);
    expect(is(claimed.composition, 2, 0, 1) && huz_entries(claimed.ledger, orders, 6, items, 6) == 2, "huz_void and huz_entries, withdrawn");
    expect(is(huz_claim_in(&claimed.ledger, orders, 6, items, 6, 3, 1007, 2).composition, 1, 0, 2), "huz_claim_in, withdrawn");
    expect(is(huz_void_in(&claimed.ledger, orders, 6, items, 6, 4).composition, 0, 0, 2) && claimed.ledger.entries == 4, "huz_void_in, withdrawn");
    claimed = huz_claim_all(claimed.ledger, orders, 6, items, 6, 5, bundle, 2, lines, 2);
    expect(claimed.number == 0 && is(claimed.composition, 1, 0, 1) && claimed.ledger.entries == 6, "huz_claim_all, withdrawn");
    expect(orders[5] == 1021 && items[5] == 2, "the columns after huz_claim_all, withdrawn");
}

/* a whole edition, which is its tray from serial 1 on; a tray that is a byte short or a copy long stays as it is */
static void whole(void) {
    const uint8_t upper[3] = {3, 2, 1}, gap[4] = {3, 0, 2, 1}, vast[24] = {6, 6, 6, 6, 6, 6, 6, 6, 6, 6, 6, 6, 6, 6, 6, 6, 6, 6, 6, 6, 6, 6, 6, 6};
    uint8_t all[24], batch[24];

    memset(all, 170, sizeof all);
    expect(huz_listing(upper, 3, 3, all, 17).number == HUZ_OUTPUT_LENGTH && is(all, 170, 170, 170), "huz_listing a byte short");
    expect(huz_listing(upper, 3, 3, all, 21).number == HUZ_OUTPUT_LENGTH && is(all, 170, 170, 170), "huz_listing a copy long");
    expect(huz_listing(vast, 24, 72, all, 24).number == HUZ_OUTPUT_LENGTH, "huz_listing of more bytes than 64 bits count");
    huz_done done = huz_listing(upper, 3, 3, all, 18);
    expect(done.number == 0 && done.detail == 0 && is(all, 3, 0, 0) && is(all + 9, 0, 2, 1) && is(all + 15, 2, 0, 1), "huz_listing");
    expect(is(all + 18, 170, 170, 170), "what lies behind the tray of huz_listing");
    expect(huz_batch(upper, 3, 3, 1, 6, batch, 18).number == 0 && memcmp(all, batch, 18) == 0, "huz_batch of the whole edition");
    expect(huz_listing(gap, 4, 3, all, 24).number == 0 && is(all, 3, 0, 0) && is(all + 20, 2, 0, 0), "huz_listing, withdrawn");
    expect(huz_batch(gap, 4, 3, 1, 6, batch, 24).number == 0 && memcmp(all, batch, 24) == 0, "huz_batch of the whole edition, withdrawn");
}

/* sheet orders by major index */
static void major(void) {
    const uint8_t upper[3] = {3, 2, 1}, composition[3] = {2, 1, 0}, turned[4] = {1, 3, 4, 2}, other[4] = {2, 4, 1, 3};
    uint8_t out[3], order[4];

    huz_done done = huz_major_permutation(upper, 3, 3, composition, 3, order, 4);
    expect(done.number == 0 && memcmp(order, turned, 4) == 0, "huz_major_permutation");
    done = huz_major_code(upper, 3, 3, turned, 4, out, 3);
    expect(done.number == 0 && is(out, 2, 1, 0), "huz_major_code");
    done = huz_major_code(upper, 3, 3, other, 4, out, 3);
    expect(done.number == HUZ_MAJOR_INDEX_NOT_TOTAL && done.detail == 0 && is(out, 2, 1, 0), "huz_major_code of another major index");
}

/* a club order: two of three copies, then one too many, one order twice, none; a refused one answers the record that went in */
static void club(void) {
    const uint8_t upper[3] = {1, 1, 1}, lines[3] = {1, 1, 1};
    const uint32_t bundle[3] = {1007, 1014, 1014};
    uint32_t orders[4] = {5, 5, 5, 5};
    uint8_t items[4] = {200, 200, 200, 200};

    huz_opened opened = huz_open(upper, 3, 1, orders, 4, items, 4);
    huz_claimed claimed = huz_claim_all(opened.ledger, orders, 4, items, 4, 1, bundle, 3, lines, 3);
    expect(claimed.number == HUZ_ORDER_STANDS_EARLIER && claimed.detail == 2 && claimed.serial == 0, "huz_claim_all with an order twice");
    expect(claimed.ledger.entries == 0 && is(claimed.ledger.next, 1, 0, 0), "the record after a refused huz_claim_all");
    expect(orders[0] == 5 && items[0] == 200, "the columns after a refused huz_claim_all");
    expect(huz_claim_all(opened.ledger, orders, 4, items, 4, 1, bundle, 2, lines, 1).number == HUZ_BUNDLE_LENGTH, "an item line too few");
    expect(huz_claim_all(opened.ledger, orders, 4, items, 4, 1, bundle, 2, lines, 3).number == HUZ_BUNDLE_LENGTH, "an item line too many");
    claimed = huz_claim_all(opened.ledger, orders, 4, items, 4, 1, bundle, 2, lines, 2);
    expect(claimed.number == 0 && claimed.detail == 0 && claimed.serial == 1 && is(claimed.composition, 1, 0, 0), "huz_claim_all");
    expect(claimed.ledger.entries == 2 && claimed.ledger.sold == 2 && is(claimed.ledger.next, 0, 0, 1), "the record after huz_claim_all");
    expect(orders[0] == 1007 && orders[1] == 1014 && orders[2] == 5, "the order column after huz_claim_all");
    expect(is(items, 1, 1, 200), "the item column after huz_claim_all");
    huz_claimed second = huz_claim_all(claimed.ledger, orders, 4, items, 4, 1, bundle, 1, lines, 1);
    expect(second.number == HUZ_ALREADY_WRITTEN && second.detail == 1007 && second.ledger.entries == 2, "a second huz_claim_all");
    const uint32_t more[2] = {1021, 1038};
    second = huz_claim_all(claimed.ledger, orders, 4, items, 4, 3, more, 2, lines, 2);
    expect(second.number == HUZ_SERIAL_OUT_OF_RANGE && orders[2] == 5 && items[2] == 200, "huz_claim_all past the last mix");
    expect(huz_claim_all(claimed.ledger, orders, 4, items, 4, 3, NULL, 0, NULL, 0).number == HUZ_BUNDLE_LENGTH, "huz_claim_all of no orders");
    claimed = huz_claim_all(claimed.ledger, orders, 4, items, 4, 3, more, 1, lines, 1);
    expect(claimed.number == 0 && claimed.ledger.entries == 3 && is(claimed.ledger.next, 0, 0, 1), "huz_claim_all of the last copy");
    expect(orders[2] == 1021 && orders[3] == 5 && items[2] == 1 && items[3] == 200, "the columns after the last copy");
}

/* two copies on one order, and sales made before there were item lines */
static void basket(void) {
    const uint8_t upper[3] = {1, 1, 1};
    uint32_t orders[3] = {1007, 0, 5};
    uint8_t items[3] = {0, 0, 0};

    huz_opened opened = huz_open(upper, 3, 1, orders, 3, items, 2);
    expect(opened.number == HUZ_COLUMN_TOO_SHORT && opened.ledger.bounds.parts == 0, "huz_open with a short item column");
    huz_ledger ledger = huz_open(upper, 3, 1, orders, 3, items, 3).ledger;
    expect(huz_claim_in(&ledger, orders, 3, items, 3, 1, 1007, 0).number == HUZ_ITEM_LINE, "huz_claim_in of item line 0");
    expect(huz_claim_in(&ledger, orders, 3, items, 3, 1, 1007, 100).number == HUZ_ITEM_LINE, "huz_claim_in of item line 100");
    expect(huz_claim_in(&ledger, orders, 3, items, 3, 1, 1007, 99).serial == 1, "huz_claim_in of item line 99");
    expect(huz_claim_in(&ledger, orders, 3, items, 3, 2, 1007, 98).serial == 2, "huz_claim_in of the second copy");
    huz_answer answer = huz_claim_in(&ledger, orders, 3, items, 3, 3, 1007, 98);
    expect(answer.number == HUZ_ORDER_STANDS_EARLIER && answer.detail == 2, "huz_claim_in of the same copy");
    expect(is(items, 99, 98, 0) && orders[0] == 1007 && orders[1] == 1007, "the columns of two copies");

    /* as it was kept before: one line sold, one spoilt */
    orders[1] = 0;
    items[0] = items[1] = 0;
    ledger.sold = ledger.voided = 1;
    expect(huz_peek(ledger, orders, 3, items, 3).number == HUZ_LEDGER_INCONSISTENT, "huz_peek without item lines");
    expect(huz_entries(ledger, orders, 3, items, 3) == 0, "huz_entries without item lines");
    for (size_t i = 0; i < ledger.entries; i++)
        items[i] = orders[i] != 0;
    expect(huz_peek(ledger, orders, 3, items, 3).serial == 3, "huz_peek with a 1 beside the order");
    expect(huz_entries(ledger, orders, 3, items, 3) == 2, "huz_entries with a 1 beside the order");
}

/* mistyped order numbers, and a sale made before they were refused */
static void mistyped(void) {
    const uint8_t upper[3] = {1, 1, 1}, lines[2] = {1, 1};
    const uint32_t wrong[2] = {1007, 1008}, right[2] = {1007, 1014};
    uint32_t orders[3] = {5, 5, 5};
    uint8_t items[3] = {200, 200, 200};

    expect(huz_order_passes(1007) == true && huz_order_passes(1008) == false, "huz_order_passes");
    expect(huz_order_passes(0) && huz_order_passes(UINT32_MAX - 3) && !huz_order_passes(UINT32_MAX), "huz_order_passes at the ends of its range");
    huz_ledger ledger = huz_open(upper, 3, 1, orders, 3, items, 3).ledger;
    huz_claimed claimed = huz_claim(ledger, orders, 3, items, 3, 1, 1008, 1);
    expect(claimed.number == HUZ_CHECK_DIGIT && claimed.detail == 0 && claimed.serial == 0 && claimed.ledger.entries == 0, "huz_claim of a mistyped order");
    expect(huz_claim_in(&ledger, orders, 3, items, 3, 9, 1008, 0).number == HUZ_CHECK_DIGIT, "huz_claim_in of a mistyped order");
    claimed = huz_claim_all(ledger, orders, 3, items, 3, 1, wrong, 2, lines, 2);
    expect(claimed.number == HUZ_CHECK_DIGIT && claimed.detail == 0 && claimed.ledger.entries == 0, "huz_claim_all with a mistyped order");
    expect(orders[0] == 5 && items[0] == 200, "the columns after a mistyped order");
    expect(huz_claim_in(&ledger, orders, 3, items, 3, 1, 1007, 1).number == 0, "huz_claim_in of the right order");

    /* as it was sold before */
    orders[0] = 1008;
    expect(huz_peek(ledger, orders, 3, items, 3).serial == 2, "huz_peek after a sale to 1008");
    expect(huz_entries(ledger, orders, 3, items, 3) == 1, "huz_entries after a sale to 1008");
    huz_answer answer = huz_void_in(&ledger, orders, 3, items, 3, 1);
    expect(answer.number == HUZ_ALREADY_WRITTEN && answer.detail == 1008, "huz_void_in of a line of 1008");
    claimed = huz_claim_all(ledger, orders, 3, items, 3, 2, right, 2, lines, 2);
    expect(claimed.number == 0 && claimed.ledger.entries == 3 && orders[0] == 1008, "huz_claim_all after a sale to 1008");
}

int main(void) {
    const uint8_t upper[3] = {3, 2, 1}, composition[3] = {2, 1, 0}, given[4] = {2, 4, 1, 3}, wanted[4] = {3, 2, 1, 4};
    uint8_t out[6], order[4];

    expect(huz_version() == HUZ_VERSION, "huz_version");
    huz_checked checked = huz_check(upper, 3, 3);
    huz_bounds bounds = checked.bounds;
    expect(checked.number == 0 && checked.count == 6 && bounds.parts == 3 && is(bounds.upper, 3, 2, 1) && bounds.total == 3, "huz_check");
    huz_ranked ranked = huz_rank(upper, 3, 3, composition, 3);
    expect(ranked.number == 0 && ranked.serial == 2, "huz_rank");
    huz_done done = huz_unrank(upper, 3, 3, 4, out, 3);
    expect(done.number == 0 && is(out, 0, 2, 1), "huz_unrank");
    huz_stepped stepped = huz_successor(upper, 3, 3, composition, 3);
    expect(stepped.number == 0 && is(stepped.composition, 1, 2, 0) && stepped.gain == 2 && stepped.loss == 1, "huz_successor");
    stepped = huz_predecessor(upper, 3, 3, composition, 3);
    expect(stepped.number == 0 && is(stepped.composition, 3, 0, 0) && stepped.gain == 1 && stepped.loss == 2, "huz_predecessor");
    done = huz_batch(upper, 3, 3, 5, 2, out, 6);
    expect(done.number == 0 && is(out, 1, 1, 1) && is(out + 3, 2, 0, 1), "huz_batch");
    done = huz_permutation(upper, 3, 3, composition, 3, order, 4);
    expect(done.number == 0 && memcmp(order, wanted, 4) == 0, "huz_permutation");
    done = huz_inversions(upper, 3, 3, given, 4, out, 3);
    expect(done.number == 0 && is(out, 1, 2, 0), "huz_inversions");

    const uint8_t two[2] = {1, 1};
    uint32_t orders[2] = {5, 5};
    uint8_t items[2] = {7, 7};
    huz_opened opened = huz_open(two, 2, 1, orders, 2, items, 2);
    expect(opened.number == 0 && opened.ledger.entries == 0 && is(opened.ledger.next, 1, 0, 0), "huz_open");
    huz_peeked peeked = huz_peek(opened.ledger, orders, 2, items, 2);
    expect(peeked.number == 0 && peeked.serial == 1 && is(peeked.composition, 1, 0, 0) && peeked.gain == 0 && peeked.loss == 0, "huz_peek");
    huz_claimed claimed = huz_claim(opened.ledger, orders, 2, items, 2, 1, 1007, 1);
    expect(claimed.number == 0 && claimed.serial == 1 && orders[0] == 1007 && items[0] == 1 && claimed.ledger.sold == 1, "huz_claim");
    peeked = huz_peek(claimed.ledger, orders, 2, items, 2);
    expect(peeked.number == 0 && peeked.serial == 2 && peeked.gain == 2 && peeked.loss == 1, "huz_peek of serial 2");
    huz_claimed second = huz_claim(claimed.ledger, orders, 2, items, 2, 1, 1014, 1);
    expect(second.number == HUZ_ALREADY_WRITTEN && second.detail == 1007 && second.ledger.entries == 1, "a second huz_claim");
    claimed = huz_void(claimed.ledger, orders, 2, items, 2, 2);
    expect(claimed.number == 0 && orders[1] == 0 && items[1] == 0 && claimed.ledger.voided == 1, "huz_void");
    expect(huz_entries(claimed.ledger, orders, 2, items, 2) == 2, "huz_entries");

    huz_ledger lent = opened.ledger, before;
    orders[0] = orders[1] = 5;
    items[0] = items[1] = 7;
    huz_answer answer = huz_claim_in(&lent, orders, 2, items, 2, 1, 1007, 1);
    expect(answer.number == 0 && answer.serial == 1 && is(answer.composition, 1, 0, 0) && orders[0] == 1007 && lent.sold == 1, "huz_claim_in");
    memcpy(&before, &lent, sizeof lent);
    answer = huz_claim_in(&lent, orders, 2, items, 2, 1, 1014, 1);
    expect(answer.number == HUZ_ALREADY_WRITTEN && answer.detail == 1007 && orders[1] == 5 && items[1] == 7, "a second huz_claim_in");
    expect(memcmp(&before, &lent, sizeof lent) == 0, "the record after a refused huz_claim_in");
    answer = huz_void_in(&lent, orders, 2, items, 2, 2);
    expect(answer.number == 0 && answer.serial == 2 && orders[1] == 0 && lent.voided == 1 && lent.entries == 2, "huz_void_in");
    whole();
    major();
    club();
    basket();
    mistyped();
    withdrawn();
    if (!failed)
        puts("smoke: 21 functions, 19 of them with a kind withdrawn");
    return failed;
}
