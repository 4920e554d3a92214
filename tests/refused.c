/* Refused calls on a lent record, refused bundles and refused lists of a whole edition write nothing: record, columns, bundle and tray lie in memory
 * that can only be read, and afterwards every byte is as it was, those between the fields too. */
#define _DEFAULT_SOURCE
#include "../include/huztiral.h"
#include <stdio.h>
#include <string.h>
#include <sys/mman.h>

typedef struct {
    huz_ledger ledger;
    uint32_t orders[4], bundle[41];
    uint8_t items[4], lines[41], tray[32];
} lent;

static int calls, failed;

static void expect(uint32_t number, uint32_t expected) {
    calls++;
    if (number != expected) {
        printf("refused: call %d answers %u, expected %u\n", calls, (unsigned)number, (unsigned)expected);
        failed = 1;
    }
}

/* bundles are parts of this one: 1014 1021 1014, 1014 0, 1038 1038, 1045 1007, each with item line 1, 1007 with 100 and 0, and 1052 1008, of which
 * 1008 fails the check of an order number */
static const uint32_t bundled[13] = {1014, 1021, 1014, 0, 1014, 1038, 1038, 1045, 1007, 1007, 1007, 1052, 1008};
static const uint8_t lined[13] = {1, 1, 1, 1, 1, 1, 1, 1, 1, 100, 0, 1, 1};

/* three mixes, of which the first is claimed for order 1007, item line 1; the columns have room for one more */
static void open_on(lent *page, const uint8_t *upper, size_t parts) {
    memset(page, 0xA5, sizeof *page);
    memcpy(page->bundle, bundled, sizeof bundled);
    memcpy(page->lines, lined, sizeof lined);
    page->ledger = huz_open(upper, parts, 1, page->orders, 4, page->items, 4).ledger;
    expect(huz_claim_in(&page->ledger, page->orders, 4, page->items, 4, 1, 1007, 1).number, 0);
    memset((unsigned char *)&page->ledger + offsetof(huz_bounds, total) + 4, 0xA5, sizeof(huz_bounds) - offsetof(huz_bounds, total) - 4);
}

static void refuse_lines(const lent *page, size_t len, size_t items_len, uint64_t serial, size_t from, size_t count, size_t lines, uint32_t number) {
    huz_claimed claimed = huz_claim_all(page->ledger, (uint32_t *)page->orders, len, (uint8_t *)page->items, items_len, serial,
                                        page->bundle + from, count, page->lines + from, lines);
    expect(claimed.number, number);
    const huz_ledger *now = &claimed.ledger, *then = &page->ledger;
    if (now->entries != then->entries || now->sold != then->sold || now->voided != then->voided || memcmp(now->next, then->next, HUZ_PARTS)) {
        printf("refused: call %d does not answer the record that went in\n", calls);
        failed = 1;
    }
}

/* with an item line for each order */
static void refuse_bundle(const lent *page, size_t len, uint64_t serial, size_t from, size_t count, uint32_t number) {
    refuse_lines(page, len, 4, serial, from, count, count, number);
}

static void refuse_bundles(const lent *page) {
    refuse_lines(page, 4, 2, 2, 0, 2, 2, 16);
    refuse_lines(page, 4, 2, 2, 0, 2, 1, 16);
    refuse_lines(page, 4, 4, 2, 0, 2, 1, 24);
    refuse_lines(page, 4, 4, 2, 0, 2, 3, 24);
    refuse_lines(page, 4, 4, 2, 0, 2, 0, 24);
    refuse_lines(page, 4, 4, 2, 12, 1, 0, 24);
    refuse_bundle(page, 2, 2, 12, 1, 16);
    refuse_bundle(page, 4, 2, 12, 1, 26);
    refuse_bundle(page, 4, 2, 11, 2, 26);
    refuse_bundle(page, 4, 1, 12, 1, 26);
    refuse_bundle(page, 4, 4, 12, 1, 26);
    refuse_bundle(page, 4, 2, 9, 1, 25);
    refuse_bundle(page, 4, 4, 10, 1, 25);
    refuse_bundle(page, 4, 2, 7, 3, 20);
    refuse_bundle(page, 2, 2, 0, 2, 16);
    refuse_bundle(page, 2, 2, 0, 0, 16);
    refuse_bundle(page, 4, 2, 0, 0, 24);
    refuse_bundle(page, 4, 2, 0, 41, 24);
    refuse_bundle(page, 4, 2, 3, 1, 17);
    refuse_bundle(page, 4, 2, 2, 2, 17);
    refuse_bundle(page, 4, 0, 0, 1, 6);
    refuse_bundle(page, 4, 4, 0, 2, 6);
    refuse_bundle(page, 4, 2, 0, 3, 6);
    refuse_bundle(page, 4, 1, 0, 2, 18);
    refuse_bundle(page, 4, 3, 0, 2, 19);
    refuse_bundle(page, 4, 2, 8, 1, 20);
    refuse_bundle(page, 4, 2, 7, 2, 20);
    refuse_bundle(page, 4, 2, 5, 2, 20);
}

static void refuse(lent *page) {
    huz_ledger *ledger = &page->ledger;
    uint32_t *orders = page->orders;
    uint8_t *items = page->items;
    expect(huz_claim_in(ledger, orders, 2, items, 4, 2, 1014, 1).number, 16);
    expect(huz_claim_in(ledger, orders, 4, items, 2, 2, 1014, 1).number, 16);
    expect(huz_claim_in(ledger, orders, 4, items, 4, 2, 0, 1).number, 17);
    expect(huz_claim_in(ledger, orders, 4, items, 4, 2, 0, 0).number, 17);
    expect(huz_claim_in(ledger, orders, 2, items, 4, 2, 1008, 1).number, 16);
    expect(huz_claim_in(ledger, orders, 4, items, 4, 2, 1008, 1).number, 26);
    expect(huz_claim_in(ledger, orders, 4, items, 4, 2, 1008, 0).number, 26);
    expect(huz_claim_in(ledger, orders, 4, items, 4, 1, 1008, 1).number, 26);
    expect(huz_claim_in(ledger, orders, 4, items, 4, 3, 1008, 1).number, 26);
    expect(huz_claim_in(ledger, orders, 4, items, 4, 4, UINT32_MAX, 100).number, 26);
    expect(huz_claim_in(ledger, orders, 4, items, 4, 2, 1014, 0).number, 25);
    expect(huz_claim_in(ledger, orders, 4, items, 4, 4, 1014, 100).number, 25);
    expect(huz_claim_in(ledger, orders, 4, items, 4, 1, 1014, 255).number, 25);
    expect(huz_claim_in(ledger, orders, 4, items, 4, 4, 1014, 1).number, 6);
    expect(huz_claim_in(ledger, orders, 4, items, 4, 1, 1014, 1).number, 18);
    expect(huz_claim_in(ledger, orders, 4, items, 4, 3, 1014, 1).number, 19);
    expect(huz_claim_in(ledger, orders, 4, items, 4, 2, 1007, 1).number, 20);
    expect(huz_void_in(ledger, orders, 2, items, 4, 2).number, 16);
    expect(huz_void_in(ledger, orders, 4, items, 2, 2).number, 16);
    expect(huz_void_in(ledger, orders, 4, items, 4, 0).number, 6);
    expect(huz_void_in(ledger, orders, 4, items, 4, 1).number, 18);
    expect(huz_void_in(ledger, orders, 4, items, 4, 3).number, 19);
}

/* whole editions that are refused, and an accepted one of three mixes in trays that are not as long as they are */
static void refuse_listings(lent *page, const uint8_t *upper, size_t parts) {
    const uint8_t wrong[3] = {1, 61, 1};
    uint8_t many[25], *tray = page->tray;
    memset(many, 60, sizeof many);
    expect(huz_listing(NULL, 0, 300, tray, 32).number, 1);
    expect(huz_listing(many, 25, 300, tray, 32).number, 1);
    expect(huz_listing(wrong, 3, 300, tray, 32).number, 2);
    expect(huz_listing(upper, parts, 256, tray, 3 * parts).number, 3);
    expect(huz_listing(upper, parts, 4, tray, 3 * parts).number, 4);
    expect(huz_listing(many, 24, 255, tray, 32).number, 5);
    expect(huz_listing(upper, parts, 1, NULL, 0).number, 13);
    for (size_t len = 0; len <= 32; len++)
        if (len != 3 * parts)
            expect(huz_listing(upper, parts, 1, tray, len).number, 13);
}

/* an edition of more bytes than 64 bits count, in a tray as long as the low 64 bits of their number, which a product cut to 64 bits would fill */
static int refuse_cut_to_64_bits(void) {
    const uint8_t upper[20] = {1, 1, 52, 22, 3, 15, 34, 48, 6, 38, 34, 10, 9, 4, 1, 1, 34, 2, 14, 16};
    const uint64_t count = huz_check(upper, 20, 169).count, len = 20922556;
    uint8_t *tray = mmap(NULL, len, PROT_READ, MAP_PRIVATE | MAP_ANONYMOUS, -1, 0);
    if (tray == MAP_FAILED)
        return 0;
    expect(count > UINT64_MAX / 20 && count * 20 == len, 1);
    expect(huz_listing(upper, 20, 169, tray, len).number, 13);
    return !munmap(tray, len);
}

/* opens the register, and makes its memory one that can only be read */
static int shut(lent *page, lent *before, const uint8_t *upper, size_t parts) {
    if (mprotect(page, sizeof *page, PROT_READ | PROT_WRITE))
        return 0;
    open_on(page, upper, parts);
    memcpy(before, page, sizeof *before);
    return !mprotect(page, sizeof *page, PROT_READ);
}

int main(void) {
    const uint8_t upper[2][5] = {{1, 1, 1}, {0, 1, 1, 0, 1}}; /* with all kinds, and with two withdrawn */
    const size_t parts[2] = {3, 5};
    lent before, *page = mmap(NULL, sizeof *page, PROT_READ | PROT_WRITE, MAP_PRIVATE | MAP_ANONYMOUS, -1, 0);
    if (page == MAP_FAILED || !refuse_cut_to_64_bits()) {
        perror("refused: mmap");
        return 1;
    }
    for (int i = 0; i < 2; i++) {
        if (!shut(page, &before, upper[i], parts[i])) {
            perror("refused: mprotect");
            return 1;
        }
        refuse(page);
        refuse_bundles(page);
        refuse_listings(page, upper[i], parts[i]);
        if (memcmp(&before, page, sizeof before)) {
            puts("refused: a lent byte has changed");
            failed = 1;
        }
    }
    if (!failed)
        printf("refused: %d calls, nothing written by those refused\n", calls);
    return failed;
}
