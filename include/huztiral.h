/* The numbering engine, for C and for every language that can call C.
 *
 * Every function is total: it answers whatever values it is given, and wrong ones get their refusal. The caller has C's
 * own duties: each pointer leads to as many readable elements as the length passed after it says (a lent record is one;
 * with length 0 it may be NULL), and where it is not `const`, they are writable and overlap nothing else that is passed.
 *
 *   number   HUZ_ACCEPTED (0), or why the call is refused: one of the names in enum huz_number. Look at it first.
 *   detail   what the name's comment says, else 0
 *
 * A refused call changes no lent byte. Structures are passed and returned by value, except where a pointer is shown, and
 * are laid out by C's own rules on a 64-bit little-endian machine; crate `engine` has the same functions in Rattle, and
 * each structure says which one it is there. docs/REFUSALS.md has the refusals in a table, with the calls that give them.
 */
#ifndef HUZTIRAL_H
#define HUZTIRAL_H
#include <stdbool.h>
#include <stddef.h>
#include <stdint.h>

#ifdef __cplusplus
extern "C" {
#endif

#define HUZ_VERSION 1500 /* of this header, 0.15.0: major * 10000 + minor * 100 + patch */
#define HUZ_PARTS 24 /* the most kinds of an edition; the arrays in the structures have as many cells, and those past n are 0 */

/* The numbers of answers: what each means, and its detail where that is not 0. */
enum huz_number {
    HUZ_ACCEPTED = 0,               /* the call is accepted */
    HUZ_PARTS_OUT_OF_RANGE = 1,     /* the edition has no kinds, or more than 24 */
    HUZ_UPPER_OUT_OF_RANGE = 2,     /* a ceiling is over 60; detail: the first such kind, from 1 */
    HUZ_TOTAL_OUT_OF_RANGE = 3,     /* the total is over 255 */
    HUZ_TOTAL_ABOVE_SUM = 4,        /* the total is over the sum of the ceilings */
    HUZ_COUNT_TOO_LARGE = 5,        /* the edition has more than 9,223,372,036,854,775,807 mixes */
    HUZ_SERIAL_OUT_OF_RANGE = 6,    /* the serial is 0 or over the number of mixes, or a tray or a bundle runs past the last mix */
    HUZ_COMPOSITION_LENGTH = 7,     /* the mix given does not have one count for each kind */
    HUZ_NOT_A_COMPOSITION = 8,      /* a count of the mix given is over its ceiling, or their sum is not the total */
    HUZ_NO_NEIGHBOUR = 9,           /* no mix follows the last, and none stands before the first */
    HUZ_NOT_A_STAIRCASE = 10,       /* the edition is no puzzle edition: its ceilings are not k-1, .., 2, 1 */
    HUZ_NOT_A_PERMUTATION = 11,     /* the sheet order given is no permutation of 1 to k */
    HUZ_INVERSIONS_NOT_TOTAL = 12,  /* the inversions of the sheet order given are not as many as the total */
    HUZ_OUTPUT_LENGTH = 13,         /* the memory lent for the answer is not exactly as long as the answer */
    HUZ_COUNT_ABOVE_MILLION = 14,   /* the edition has more than 1,000,000 mixes */
    HUZ_COLUMN_TOO_SHORT = 15,      /* a column has fewer entries than the edition has mixes */
    HUZ_LEDGER_INCONSISTENT = 16,   /* the record and the columns do not belong together */
    HUZ_NO_ORDER = 17,              /* the order number is 0 */
    HUZ_ALREADY_WRITTEN = 18,       /* the serial is already written; detail: the order number on its line, 0 if it is spoilt */
    HUZ_ABOVE_NEXT = 19,            /* the serial is above the next one; detail: the next serial */
    HUZ_ORDER_STANDS_EARLIER = 20,  /* the order number stands earlier with this item line, on a line or in the bundle; detail: the lowest such serial */
    HUZ_ALL_WRITTEN = 21,           /* every serial is written */
    HUZ_NOT_A_REQUEST = 22,         /* the slip does not have the form that the listing program reads */
    HUZ_MAJOR_INDEX_NOT_TOTAL = 23, /* the major index of the sheet order given is not the total */
    HUZ_BUNDLE_LENGTH = 24,         /* the bundle has no orders, or more than 40, or not as many item lines as orders */
    HUZ_ITEM_LINE = 25,             /* the item line is 0 or over 99 */
    HUZ_CHECK_DIGIT = 26            /* the digits of the order number, weighted 1, 3, 1, 3 and so on from the right, do not sum to a multiple of ten */
};

/* An edition, as a record keeps it: the number of kinds n, their ceilings, the total. (bounds::Bounds) */
typedef struct {
    size_t parts;
    uint8_t upper[HUZ_PARTS];
    uint32_t total;
} huz_bounds;

/* The record of a register: its edition, how many lines are written, sold and spoilt, and the mix of the next serial (of
 * serial N when full). (model::Ledger) */
typedef struct {
    huz_bounds bounds;
    uint64_t entries, sold, voided;
    uint8_t next[HUZ_PARTS];
} huz_ledger;

/* Answers. In a refused one all fields but number and detail are 0, except that a refused huz_claim, huz_void or
 * huz_claim_all answers the record that went in. */

/* Nothing but whether it was done. (bounds::Refusal) */
typedef struct {
    uint32_t number;
    uint64_t detail;
} huz_done;

/* An edition's record and its number of mixes, N. (count::Checked) */
typedef struct {
    uint32_t number;
    uint64_t detail;
    huz_bounds bounds;
    uint64_t count;
} huz_checked;

/* A serial. (engine::Ranked) */
typedef struct {
    uint32_t number;
    uint64_t detail;
    uint64_t serial;
} huz_ranked;

/* The mix one serial on or back, and the press card's pair: the kind that gains a tile and the kind that loses one, from 1, on
 * the way from the mix given to this one. (step::Stepped) */
typedef struct {
    uint32_t number;
    uint64_t detail;
    uint8_t composition[HUZ_PARTS];
    uint32_t gain, loss;
} huz_stepped;

/* The record of a new register. (model::Opened) */
typedef struct {
    uint32_t number;
    uint64_t detail;
    huz_ledger ledger;
} huz_opened;

/* Of a look: the next serial, its mix, and the kinds, from 1, that gain and lose a tile on the way from the mix of the serial
 * before; 0 and 0 for serial 1. (model::Peeked) */
typedef struct {
    uint32_t number;
    uint64_t detail;
    uint64_t serial;
    uint8_t composition[HUZ_PARTS];
    uint32_t gain, loss;
} huz_peeked;

/* Of a take or a spoil on a lent record: the serial and its mix. (model::Answer) */
typedef struct {
    uint32_t number;
    uint64_t detail;
    uint64_t serial;
    uint8_t composition[HUZ_PARTS];
} huz_answer;

/* Of a take, a spoil or a bundle: the serial, of a bundle its first, the mix of that serial, and the record as it is now.
 * (model::Claimed) */
typedef struct {
    uint32_t number;
    uint64_t detail;
    uint64_t serial;
    uint8_t composition[HUZ_PARTS];
    huz_ledger ledger;
} huz_claimed;

/* The version of the library that is linked, to be compared with HUZ_VERSION. */
uint32_t huz_version(void);

/* Editions, serials and mixes. `upper`, `parts` and `total` are the edition: its ceilings, how many they are (n), and the
 * total. A ceiling of 0 is that of a kind withdrawn after the artwork is fixed: the kinds keep their numbers, each mix has
 * 0 there, and the order is that of the edition without it. Refusals are named in the order in which they are checked. */

/* Checks an edition: its record and its number of mixes, N. Refusals: 1 to 5. */
huz_checked huz_check(const uint8_t *upper, size_t parts, uint32_t total);

/* Mix to serial. Refusals: 1 to 5, 7, 8. */
huz_ranked huz_rank(const uint8_t *upper, size_t parts, uint32_t total, const uint8_t *composition, size_t len);
/* Serial to mix, written to `out`, exactly n bytes. Refusals: 1 to 5, 6, 13. */
huz_done huz_unrank(const uint8_t *upper, size_t parts, uint32_t total, uint64_t serial, uint8_t *out, size_t len);

/* The mix one serial on, or one back, and its pair; back, it is that of the way forward exchanged. Refusals: 1 to 5, 7, 8, 9. */
huz_stepped huz_successor(const uint8_t *upper, size_t parts, uint32_t total, const uint8_t *composition, size_t len);
huz_stepped huz_predecessor(const uint8_t *upper, size_t parts, uint32_t total, const uint8_t *composition, size_t len);

/* A tray: the mixes of `copies` serials from `serial` on, n bytes each, written to `out`, exactly copies * n bytes.
 * Refusals: 1 to 5, 6, 13. */
huz_done huz_batch(const uint8_t *upper, size_t parts, uint32_t total, uint64_t serial, uint64_t copies, uint8_t *out, size_t len);
/* A whole edition: all N mixes in their order, n bytes each, written to `out`, exactly N * n bytes; huz_check answers N. They
 * are the bytes of huz_batch from serial 1 with N copies, and huz_batch is the faster one. This one uses no serials: it is the
 * order's rising walk and falling walk, to be read in crate `listing`. Refusals: 1 to 5, 13. */
huz_done huz_listing(const uint8_t *upper, size_t parts, uint32_t total, uint8_t *out, size_t len);

/* Sheet orders. An edition with the ceilings k-1, .., 2, 1 is a puzzle edition of k = n + 1 sheets, and a sheet order is a
 * permutation of 1 to k, a byte each. A mix stands for an order in two ways, each with a function from mix to order and one
 * back; over the whole edition each way gives every order of the kind that it names exactly once.
 *
 *   by inversions    the count of kind i is how many sheets after place i are smaller than the sheet at place i: all orders
 *                    with as many inversions as the total
 *   by major index   the counts are turns. Begin with 1 to k; turn all k sheets right by the count of kind 1, then the first
 *                    k - 1 by that of kind 2, and so on to the first two by that of kind n (right by one: the last of them
 *                    goes to the front): all orders whose major index is the total
 *
 * The major index is the sum of the places i, from 1, at which sheet i is greater than sheet i + 1. Three sheets, total 1:
 * by major index mix 1 0 is 3 1 2 and mix 0 1 is 2 1 3. */

/* Mix to sheet order by inversions, written to `out`, exactly n + 1 bytes. Refusals: 1 to 5, 10, 7, 8, 13. */
huz_done huz_permutation(const uint8_t *upper, size_t parts, uint32_t total, const uint8_t *composition, size_t len, uint8_t *out, size_t out_len);
/* Sheet order to mix by inversions, written to `out`, exactly n bytes. Refusals: 1 to 5, 10, 11, 12, 13. */
huz_done huz_inversions(const uint8_t *upper, size_t parts, uint32_t total, const uint8_t *permutation, size_t len, uint8_t *out, size_t out_len);
/* Mix to sheet order by major index, written to `out`, exactly n + 1 bytes. Refusals: 1 to 5, 10, 7, 8, 13. */
huz_done huz_major_permutation(const uint8_t *upper, size_t parts, uint32_t total, const uint8_t *composition, size_t len, uint8_t *out, size_t out_len);
/* Sheet order to mix by major index, written to `out`, exactly n bytes. Refusals: 1 to 5, 10, 11, 23, 13. */
huz_done huz_major_code(const uint8_t *upper, size_t parts, uint32_t total, const uint8_t *permutation, size_t len, uint8_t *out, size_t out_len);

/* The register. The caller keeps its record and its two columns, `len` order numbers and `items_len` item lines: the line of
 * serial s is orders[s - 1] and items[s - 1]. An item line, 1 to 99, tells the copies on one order apart: of two copies in a
 * basket one is sold on its order number and item line 1, the other on the same number and item line 2. A spoilt line has 0
 * in both columns. Entries past the lines written are not looked at, whatever they are, and keep their values.
 *
 * Calls on one register come one after another, each with the record that the call before it answered or updated, and with
 * the columns as it left them: threads and processes that share a register hold a lock of the caller's over each call.
 *
 * The last digit of an order number is a check digit, and takes and bundles refuse a number in which it is wrong (26). A
 * register begun before they did (until version 0.14.0) goes on as it is: lines that are written are not checked.
 *
 * A register that was kept before there were item lines (until version 0.13.0) has an order column alone. Give it an item
 * column with 1 beside each order number and 0 beside each 0; the record stays as it is. */

/* Whether the check digit of an order number is right, for a form that asks before anything is sold: the digits, weighted
 * 1, 3, 1, 3 and so on from the right, sum to a multiple of ten. 1007 passes (7 + 3 * 0 + 0 + 3 * 1 = 10), 1008 fails. One
 * mistyped digit of a number that passes is always found, two neighbours exchanged unless they are five apart. 0 passes, but
 * no order is numbered 0: a take refuses it, 17. */
bool huz_order_passes(uint32_t order);
/* Opens a register: a new record. Each column needs N entries; none is written. Refusals: 1 to 5, 14, 15. */
huz_opened huz_open(const uint8_t *upper, size_t parts, uint32_t total, const uint32_t *orders, size_t len, const uint8_t *items, size_t items_len);
/* Look: the next serial, its mix and its pair. Refusals: 16, 21. */
huz_peeked huz_peek(huz_ledger ledger, const uint32_t *orders, size_t len, const uint8_t *items, size_t items_len);
/* Take: writes the order number and the item line into the line of the serial. Refusals: 16, 17, 26, 25, 6, 18, 19, 20. */
huz_claimed huz_claim(huz_ledger ledger, uint32_t *orders, size_t len, uint8_t *items, size_t items_len, uint64_t serial, uint32_t order, uint8_t item);
/* Spoil: writes 0 and 0 into the line of the serial. Refusals: 16, 6, 18, 19. */
huz_claimed huz_void(huz_ledger ledger, uint32_t *orders, size_t len, uint8_t *items, size_t items_len, uint64_t serial);
/* A bundle, for a club that wants consecutive serials or nothing: what takes of `serial`, `serial` + 1 and so on do, one for
 * each of the `count` order numbers in `bundle`, 1 to 40, with the item line at the same place in `bundle_items`, if all of
 * them would be accepted, each after those before it. Else it answers the refusal of the first that would fail, and no line
 * is written; so an order number that stands twice in the bundle with one item line is 20, with the serial that the first of
 * the two would have had. `bundle_items_len` is `count`, else it is 24. Refusals: 16, 24, 17, 26, 25, 6, 18, 19, 20. */
huz_claimed huz_claim_all(huz_ledger ledger, uint32_t *orders, size_t len, uint8_t *items, size_t items_len, uint64_t serial,
                          const uint32_t *bundle, size_t count, const uint8_t *bundle_items, size_t bundle_items_len);
/* Take and spoil on a lent record: `ledger` points to it, and an accepted call updates it there (the bytes between two
 * fields may change as well); a refused call writes no byte, none between two fields either. They answer what
 * huz_claim and huz_void answer, and both forms may be used in turn on one register. */
huz_answer huz_claim_in(huz_ledger *ledger, uint32_t *orders, size_t len, uint8_t *items, size_t items_len, uint64_t serial, uint32_t order, uint8_t item);
huz_answer huz_void_in(huz_ledger *ledger, uint32_t *orders, size_t len, uint8_t *items, size_t items_len, uint64_t serial);
/* How many lines are written, from the first entry of both columns on; 0 where refusal 16 would be given. */
uint64_t huz_entries(huz_ledger ledger, const uint32_t *orders, size_t len, const uint8_t *items, size_t items_len);

#ifdef __cplusplus
}
#endif
#endif
