/*
 * Pages of generalized integrated interleaved BCH (GII-BCH) codes: the C functions of libgii_bch.a.
 *
 * Every function tests all that it is given and works everything out afresh: there is no state, no allocation and no
 * input or output.
 *
 * What the archive needs
 *
 *   machine   x86-64 with SSE2, which every x86-64 has, and the System V calling convention, its red zone included; the
 *             code is position-independent
 *   symbols   memcpy and memset, from the C library or the firmware; nothing else is left undefined
 *   stack     at most 128 KiB for gii_write_many, at most 64 KiB for gii_mend, at most 96 KiB for gii_mend_page, and at most
 *             32 KiB for every other function
 *   threads   calls may run at once in several threads, each on buffers of its own
 *
 * Parameters (every function): the sheet, struct gii_sheet
 *
 *   q         4, 8 or 12: the field is GF(2^q), and n = 2^q - 1
 *   m         the number of sub-words, v + 1 to 8
 *   v         1 to 3: there are v + 1 levels of strength
 *   t0 .. t3  the strengths: 1 <= t0 < t1 <= .. <= t_v <= 64 and 2 t_v <= n - 1; those past t_v are 0
 *   s         the shortening: the top s coefficients of every sub-word are 0 and are not stored; 0 for full sub-words, at
 *             most n - w_v - 1 (w_v below), so that every block has a data bit
 *
 * and no clash: for d from 1 to m - 1 and j from 1 to 2 t_v, d * j is no multiple of n.
 *
 * Buffers
 *
 *   page      m sub-words, one behind another. A sub-word stores n - s coefficients, those of x^0 to x^(n-s-1), and takes
 *             (n - s + 7) / 8 bytes: 2^q / 8 where s is 0. The coefficient of x^k is bit k mod 8, least first, of byte
 *             k div 8 of its sub-word. The bits above the last coefficient in each last byte are spare and 0: one where s
 *             is 0, none where n - s is a multiple of 8, seven at most. gii_page_bytes gives the size.
 *             A page is blank when every stored coefficient of every sub-word is 1, whatever its spare bits are: so a
 *             board is delivered, erased, every byte FF. A blank page is no member, and no blocks are written as one.
 *   blocks    m blocks, one behind another, each on whole bytes. Sub-word i has w check bits and block i has n - s - w data
 *             bits, so that it takes (n - s - w + 7) / 8 bytes; bit r of it, least first, is the coefficient of x^(w + r).
 *             The unused top bits of its last byte are 0. Here w = w_(v-i) for i < v and w_0 from i = v on, and w_a, the
 *             degree of the generator of strength t_a, is the number of different values of j * 2^e mod n, for j from 1
 *             to 2 t_a and e from 0 to q - 1. At q = 4, t = 1, 2, 3, 4 it is 4, 8, 10, 14; at most it is q * t_a.
 *             gii_data_bytes gives the size of all blocks, gii_quote the data bits of each.
 *   list      16-bit numbers, two bytes each, low byte first, which gii_number reads: the syndromes S_1, S_3, .., t numbers
 *             on GII_LIST_BYTES(t) bytes; all of S_1, S_2, .., 2 t numbers on GII_ALL_BYTES(t) bytes; a quote, 12 numbers
 *             on GII_QUOTE_BYTES bytes; or the places that gii_mend flips, t0 numbers on GII_PLACES_BYTES(t0) bytes. The
 *             list of gii_write_many alone has one byte a page.
 *
 *   Examples, where none is named s is 0
 *
 *             q 4, m 2, v 1, t 1, 2:              page 4 bytes, blocks 1 + 2 = 3 bytes
 *             q 8, m 4, v 2, t 4, 8, 16:          page 128 bytes, blocks 17 + 24 + 28 + 28 = 97 bytes
 *             q 12, m 8, v 3, t 28, 32, 39, 58:   page 4096 bytes, blocks 426 + 455 + 464 + 5 * 470 = 3695 bytes
 *             the same with s 1900:               page 8 * 275 = 2200 bytes, 5 spare bits a sub-word,
 *                                                 blocks 189 + 217 + 227 + 5 * 233 = 1798 bytes
 *             q 12, m 4, v 1, t 4, 12, s 3071:    page 4 * 128 = 512 bytes, no spare bits, blocks 110 + 3 * 122 = 476 bytes
 *
 * A shortened sub-word is the full one with zeros in its top s places: check bits, syndromes, nested words (which keep n
 * places, x^n being 1) and the distance are those of the full sheet.
 *
 * What the caller owes, and what no function can test:
 *
 *   - a pointer and the length behind it describe bytes that may be read and, where the pointer is not to const, written;
 *     `flips` of gii_mend, which has no length behind it, is one such byte;
 *   - nothing else writes them during the call;
 *   - the buffers of one call do not overlap;
 *   - no pointer is NULL. With length 0 nothing is read or written through it, and any pointer to an object will do.
 *
 * The bytes behind a pointer to const are never altered. A lent buffer is altered only by a call that is not refused, and
 * then wholly: what it held before is of no account. Only gii_write_many leaves some of the pages lent to it: those that
 * it lists as refused. And only gii_alter, gii_mend and gii_mend_page read the page that is lent to them, and leave of it
 * what the bit, the sub-word or the faults do not concern.
 *
 * Results are of enum gii_answer. Conditions are tested in the order 1, 2, 3, 4, 14, 5, 6, 7, 8, 9, 10, 13, 15, 17: of the
 * refusals whose conditions a call meets the first of these is given, and a refusal leaves every byte of every buffer as it
 * was. In gii_write_many 9 is for the count of pages and comes before 6; 8 and 13 are listed, page by page, and refuse no
 * call. In gii_alter 9 is for the block, the bit and the value, 13 for the page as it would be altered. Only gii_mend gives
 * 15, and it never gives 13: what it leaves may be blank. Only gii_mend_page gives 17, also for a page that would be blank.
 * In gii_all_syndromes 9 is for the level, 10 for both lists. gii_judge and gii_read_out know a blank page after 7 and
 * before 8, which is for stray bits; no other function answers GII_BLANK. gii_page_bytes, gii_data_bytes and gii_distance
 * give a size, or 0 where the sheet is refused.
 */
#ifndef GII_BCH_H
#define GII_BCH_H

#include <stddef.h>
#include <stdint.h>

/* The version. A function or a number that goes or is given a new meaning moves the first number on. */
#define GII_BCH_VERSION_MAJOR 5
#define GII_BCH_VERSION_MINOR 1
#define GII_BCH_VERSION_PATCH 0
#define GII_BCH_VERSION "5.1.0"

/* Bytes of a list of the t odd syndromes, S_1, S_3, .., S_(2t-1), and of one of all 2t: t is t0 for a sub-word, t_(v-l) for
 * nested word l. */
#define GII_LIST_BYTES(t) ((size_t)2 * (size_t)(t))
#define GII_ALL_BYTES(t) ((size_t)4 * (size_t)(t))

/* Bytes of a quote; the places in it of the degree w_a, a up to 3, and of the data bits of block i, i up to 7. */
#define GII_QUOTE_BYTES 24
#define GII_QUOTE_DEGREE(a) ((size_t)(a))
#define GII_QUOTE_DATA_BITS(i) ((size_t)4 + (size_t)(i))

/* Bytes of the list of the places that gii_mend flips; what each of its numbers holds that is no place. */
#define GII_PLACES_BYTES(t0) ((size_t)2 * (size_t)(t0))
#define GII_NO_PLACE 65535

/* The most bytes of a page (q 12, m 8, s 0), of blocks (q 12, m 8, v 1, t 1, 2, s 0), of a list of odd syndromes and of all
 * (t 64), and of places (t0 63, since t0 is below t1, which is at most 64). */
#define GII_PAGE_MAX 4096
#define GII_BLOCKS_MAX 4086
#define GII_LIST_MAX 128
#define GII_ALL_MAX 256
#define GII_PLACES_MAX 126

/* The most pages that gii_write_many writes in one call. */
#define GII_COUNT_MAX 16

/* The numbers that are returned. */
enum gii_answer {
    GII_DONE = 0,   /* done */
    GII_MEMBER = 0, /* the page is a member of the code */

    /* Refusals. The functions here give 1 to 10, 13 to 15 and 17; 14 is tested after 4 and before 5. */
    GII_FIELD = 1,          /* q is not 4, 8 or 12 */
    GII_SHAPE = 2,          /* v or m is out of range */
    GII_STRENGTHS = 3,      /* a rule on t0 to t_v is broken, or a place past t_v is not 0 */
    GII_CLASH = 4,          /* some d * j is a multiple of n */
    GII_WIDTH = 5,          /* the width is not 1 to 64 */
    GII_BLOCKS = 6,         /* the blocks' length is not exact */
    GII_PAGE = 7,           /* the page's length, or that of many pages, is not exact */
    GII_STRAY = 8,          /* a spare bit of a page, or an unused bit of the blocks, that is read is 1 */
    GII_INDEX = 9,          /* no such sub-word, nested word, block, bit or level; a value is above 1; not 1 to 16 pages */
    GII_LIST = 10,          /* a list's length, or that of the places, is not exact */
    GII_FULL = 11,          /* a register would take more than n - s coefficients */
    GII_REGISTER = 12,      /* a register's level or remainder is out of range */
    GII_BLANK_BLOCKS = 13,  /* the page of the blocks, where s is 0 and every data bit 1, or the altered page would be blank */
    GII_SHORTENING = 14,    /* s is above n - w_v - 1 */
    GII_UNMENDED = 15,      /* no multiple of g_0 with zeros in its top s places is within t0 flips of the sub-word */
    GII_UNMENDED_PAGE = 17, /* the page cannot be mended through its nested words */

    /* Verdicts on a page. */
    GII_SUB_WORD = 32,    /* 32 + i: sub-word i is the lowest that is no multiple of g_0 */
    GII_NESTED_WORD = 64, /* 64 + l: every sub-word is, and nested word l is the lowest that is no multiple of g_(v-l) */
    GII_BLANK = 96        /* the page is blank: every stored coefficient is 1 */
};

/* Whether a number is a refusal. Refusals are 1 to 31, all numbers from 32 on verdicts. */
#define GII_IS_REFUSAL(number) ((uint32_t)(number) - 1u < 31u)

#ifdef __cplusplus
extern "C" {
#endif

/*
 * Write: the page of the blocks, check bits and all, into `page`.
 *
 * `width` is the number of coefficients taken in a step, 1 to 64; it never alters a result. The page is a member of the
 * code, and gii_read_out gives its blocks back. No page that is written is blank: where s is 0, blocks whose data bits are
 * all 1, the only ones whose page would be, are refused; where s is above 0 there are none such, and these blocks are
 * written like any others.
 *
 * Returns GII_DONE, or refuses: 1 to 4, 14, 5, 6, 7, 8 (an unused bit of the blocks), 13 (s is 0 and every data bit is 1).
 */
uint32_t gii_write(uint32_t q, uint32_t m, uint32_t v, uint32_t t0, uint32_t t1, uint32_t t2, uint32_t t3,
                   uint32_t s, uint32_t width, const uint8_t *blocks, size_t blocks_len, uint8_t *page, size_t page_len);

/*
 * Write many: the pages of `count` sets of blocks, 1 to GII_COUNT_MAX of them, into `pages`. It does what `count` calls of
 * gii_write do, but works out once what each of them would work out of the sheet.
 *
 * The sets of blocks stand one behind another, each on gii_data_bytes bytes, and so do the pages, each on gii_page_bytes
 * bytes. `list` has one byte for each page, in their order, which is what gii_write would answer of that page alone:
 * GII_DONE, GII_STRAY (an unused bit of its blocks is 1) or GII_BLANK_BLOCKS (s is 0 and every data bit of its blocks is 1).
 * A page that is listed as done is the one that gii_write makes; one that is listed as refused keeps every byte.
 *
 * Returns GII_DONE, whatever is listed, even where no page is written; or refuses the call, and leaves every byte of the
 * pages and of the list: 1 to 4, 14, 5, 9 (count is not 1 to GII_COUNT_MAX), 6 (blocks_len is not count * gii_data_bytes),
 * 7 (pages_len is not count * gii_page_bytes), 10 (list_len is not count).
 */
uint32_t gii_write_many(uint32_t q, uint32_t m, uint32_t v, uint32_t t0, uint32_t t1, uint32_t t2, uint32_t t3,
                        uint32_t s, uint32_t width, uint32_t count, const uint8_t *blocks, size_t blocks_len,
                        uint8_t *pages, size_t pages_len, uint8_t *list, size_t list_len);

/*
 * Alter: bit `bit` of block `block` of a stored page made `value`, 0 or 1, with the check bits that go with it. No block is
 * sent again: a member comes to be the page that gii_write makes of its blocks with this one bit altered.
 *
 * Bit r of block i is the coefficient of x^(w + r) of sub-word i, as above. Where it is `value` already, no byte changes.
 * Else the page of this bit alone, which gii_write makes of blocks whose other data bits are 0, is added to the page, bit by
 * bit modulo 2. So it is with any page, member or not: what a page has beside the page of its blocks, it keeps. Only
 * sub-word i and the sub-words below both i and v change; beside the bit these are check bits alone, and in all at least
 * gii_distance bits, at most one more than the check bits of all these sub-words. Altered back, the page is what it was.
 *
 * No page is made blank or left so: where every stored coefficient of the page would be 1, even if the bit has its value
 * already, the call is refused by 13. Of members these are those of s 0 that have the bit as their only data bit of 0, whose
 * altered blocks gii_write refuses too; where s is above 0, none. A blank page takes the value 0 like any other page; where a
 * spare bit of it is 1, as in an erased page, it is refused by 8.
 *
 * Returns GII_DONE, or refuses: 1 to 4, 14, 7, 8 (a spare bit anywhere in the page, blank or not), 9 (block >= m, bit >= the
 * data bits of this block, or value > 1), 13 (the page would be blank).
 */
uint32_t gii_alter(uint32_t q, uint32_t m, uint32_t v, uint32_t t0, uint32_t t1, uint32_t t2, uint32_t t3, uint32_t s,
                   uint8_t *page, size_t page_len, uint32_t block, uint32_t bit, uint32_t value);

/*
 * Mend: sub-word `index` of a stored page made a multiple of g_0 by at most t0 flips.
 *
 * Where some multiple of g_0, of n places, is 0 in its top s places and differs from the sub-word in at most t0 places, it is
 * put in the sub-word's stead; there is no more than one, since two of them differ in at least 2 t0 + 1 places. `places`, of
 * GII_PLACES_BYTES(t0) bytes, comes to hold the places that are flipped, k for the coefficient of x^k, rising, and
 * GII_NO_PLACE in every number behind them; `flips`, one byte, how many they are. A sub-word without faults has 0 flips: the
 * page stays, and all t0 numbers are GII_NO_PLACE. All bytes of the other sub-words stay, no spare bit is ever set, and no
 * place that is not stored is ever flipped. Where there is no such multiple, the call is refused by 15.
 *
 * The other sub-words and the nested words are of no account: the page need be no member, before or afterwards, and where
 * more than t0 places were damaged, it may be another multiple than the one written that is found. gii_judge tells whether
 * the page has come to be a member.
 *
 * A blank page without spare bits that are 1 is mended like any other: where s is 0, its sub-words are multiples of g_0, and
 * none of its places is flipped. Where a spare bit of it is 1, as in an erased page, it is refused by 8.
 *
 * Returns GII_DONE, or refuses: 1 to 4, 14, 7, 8 (a spare bit anywhere in the page, blank or not), 9 (index >= m), 10
 * (places_len is not GII_PLACES_BYTES(t0)), 15 (there is no such multiple).
 */
uint32_t gii_mend(uint32_t q, uint32_t m, uint32_t v, uint32_t t0, uint32_t t1, uint32_t t2, uint32_t t3, uint32_t s,
                  uint8_t *page, size_t page_len, uint32_t index, uint8_t *places, size_t places_len, uint8_t *flips);

/*
 * Mend page: a stored page made a member, also where up to v of its sub-words have more than t0 faults.
 *
 * First every sub-word is mended as by gii_mend; b is how many could not be. While b is 1 to v there is a round, at level
 * a = v - b + 1: from the syndromes S_1 to S_(2 t_a) of nested words 0 to b - 1, of the page as the round finds it, those of
 * the b unknown errors are worked out; each broken sub-word whose syndromes are those of an error of at most t_a stored
 * places has these flipped, the others stay broken. There are no more than v rounds. In the end every sub-word is mended and
 * the page is a member, or the call is refused by 17: where b is above v, where a round mends none, and where the page that
 * comes of it is no member, or blank.
 *
 * A member with up to t0 faults in a sub-word and, in b of them, up to t_(v-b+1), b at most v, is always found again, if no
 * sub-word with more than t0 is near another multiple of g_0. Where one is, it may be taken for that: what comes of it is
 * another member, or the call is refused. A member stays as it is.
 *
 * Returns GII_DONE, or refuses: 1 to 4, 14, 7, 8 (a spare bit anywhere in the page, blank or not), 17.
 */
uint32_t gii_mend_page(uint32_t q, uint32_t m, uint32_t v, uint32_t t0, uint32_t t1, uint32_t t2, uint32_t t3, uint32_t s,
                       uint8_t *page, size_t page_len);

/*
 * Read out: the data bits of the page, member or not, blank or not, into `blocks`. Nothing is corrected. Of a blank page
 * every data bit is 1, and every unused bit is 0 as ever, whatever the spare bits are.
 *
 * Returns what gii_judge gives for the page, or refuses: 1 to 4, 14, 6, 7, 8 (a spare bit of a page that is not blank).
 */
uint32_t gii_read_out(uint32_t q, uint32_t m, uint32_t v, uint32_t t0, uint32_t t1, uint32_t t2, uint32_t t3,
                      uint32_t s, const uint8_t *page, size_t page_len, uint8_t *blocks, size_t blocks_len);

/*
 * Judge: whether the page is a member of the code.
 *
 * Returns GII_BLANK for a blank page, whatever its spare bits are. For any other it returns GII_MEMBER; or GII_SUB_WORD + i
 * for the lowest sub-word i that is no multiple of g_0; or, if all are, GII_NESTED_WORD + l for the lowest nested word l
 * that is no multiple of g_(v-l), nested word l being the sum over i of x^(l i) c_i with x^n = 1, whatever s is. Or it
 * refuses: 1 to 4, 14, 7, 8 (a spare bit of a page that is not blank).
 *
 * What comes of a member by changes within w_v neighbouring coefficients of one sub-word, w_v being GII_QUOTE_DEGREE(v) of
 * the quote, is never a member; where s is 0 the coefficient of x^0 follows that of x^(n-1).
 */
uint32_t gii_judge(uint32_t q, uint32_t m, uint32_t v, uint32_t t0, uint32_t t1, uint32_t t2, uint32_t t3,
                   uint32_t s, const uint8_t *page, size_t page_len);

/*
 * Syndromes of a sub-word: S_j, the value of sub-word `index` at alpha^j, for the odd j from 1 to 2 t0 - 1, into `list`, of
 * GII_LIST_BYTES(t0) bytes: number i of it, 0 the first, is S_(2i+1). An element is a number below 2^q, alpha is 2; the field
 * polynomials are 0x13, 0x11D, 0x1053. The others are squares of these, which gii_all_syndromes gives.
 *
 * Returns GII_DONE, or refuses: 1 to 4, 14, 7, 8 (a spare bit anywhere in the page, blank or not), 9 (index >= m), 10.
 */
uint32_t gii_syndromes(uint32_t q, uint32_t m, uint32_t v, uint32_t t0, uint32_t t1, uint32_t t2, uint32_t t3,
                       uint32_t s, const uint8_t *page, size_t page_len, uint32_t index, uint8_t *list, size_t list_len);

/*
 * Syndromes of nested word `index`, likewise, for the odd j from 1 to 2 t_(v-index) - 1: GII_LIST_BYTES(t_(v-index)) bytes.
 *
 * Returns GII_DONE, or refuses: 1 to 4, 14, 7, 8 (a spare bit anywhere in the page, blank or not), 9 (index >= v), 10.
 */
uint32_t gii_nested_syndromes(uint32_t q, uint32_t m, uint32_t v, uint32_t t0, uint32_t t1, uint32_t t2, uint32_t t3,
                              uint32_t s, const uint8_t *page, size_t page_len, uint32_t index, uint8_t *list,
                              size_t list_len);

/*
 * All syndromes: S_1, S_2, .., S_2t, t being t_level, into `list`, of GII_ALL_BYTES(t) bytes, from `odd`, the list of the odd
 * ones, S_1, S_3, .., S_(2t-1), of GII_LIST_BYTES(t) bytes. The level is 0 for the list of a sub-word, v - l for that of
 * nested word l.
 *
 * S_2j is the square of S_j, as it is of every word: from the list of gii_syndromes or gii_nested_syndromes all are the values
 * of that word at alpha^j, for j from 1 to 2 t. The odd ones are copied as they are given, all 16 bits. A number that is no
 * element, 2^q or above, is squared as a polynomial modulo that of the field.
 *
 * At q 4 the odd ones 2, 8 give 2, 4, 8, 3.
 *
 * Returns GII_DONE, or refuses: 1 to 4, 14, 9 (level > v), 10 (odd_len is not GII_LIST_BYTES(t_level), or list_len is not
 * GII_ALL_BYTES(t_level)).
 */
uint32_t gii_all_syndromes(uint32_t q, uint32_t m, uint32_t v, uint32_t t0, uint32_t t1, uint32_t t2, uint32_t t3,
                           uint32_t s, uint32_t level, const uint8_t *odd, size_t odd_len, uint8_t *list, size_t list_len);

/*
 * Quote: what the sheet comes to, 12 numbers into `list`, of GII_QUOTE_BYTES bytes: the degrees w_0 to w_3, 0 past v; then
 * the data bits of block 0 to block 7, 0 past the last block. Block i has n - s - w_(v-i) data bits for i < v and
 * n - s - w_0 from i = v on. It needs no page, and tells whether a sheet is accepted; asked with s 0, it tells the greatest
 * s, one less than the data bits of block 0.
 *
 * At q 12, m 8, v 3, t 28, 32, 39, 58, s 0: 336, 384, 462, 690; 3405, 3633, 3711, 3759, 3759, 3759, 3759, 3759.
 * With s 1900: 336, 384, 462, 690; 1505, 1733, 1811, 1859, 1859, 1859, 1859, 1859.
 *
 * Returns GII_DONE, or refuses: 1 to 4, 14, 10.
 */
uint32_t gii_quote(uint32_t q, uint32_t m, uint32_t v, uint32_t t0, uint32_t t1, uint32_t t2, uint32_t t3,
                   uint32_t s, uint8_t *list, size_t list_len);

/* Bytes of a page; 0 where the sheet is refused. */
uint32_t gii_page_bytes(uint32_t q, uint32_t m, uint32_t v, uint32_t t0, uint32_t t1, uint32_t t2, uint32_t t3,
                        uint32_t s);

/* Bytes of all blocks, each on whole bytes; 0 where the sheet is refused. */
uint32_t gii_data_bytes(uint32_t q, uint32_t m, uint32_t v, uint32_t t0, uint32_t t1, uint32_t t2, uint32_t t3,
                        uint32_t s);

/*
 * Distance: two different members differ in at least so many bits, the smallest of (v + 1)(2 t0 + 1) and
 * b (2 t_(v-b+1) + 1) for b from 1 to v; 0 where the sheet is refused.
 */
uint32_t gii_distance(uint32_t q, uint32_t m, uint32_t v, uint32_t t0, uint32_t t1, uint32_t t2, uint32_t t3,
                      uint32_t s);

/* The parameters of a code in one place, and the functions above on them. Later versions may add members behind these. */
struct gii_sheet {
    uint32_t q, m, v;
    uint32_t t[4]; /* t0 .. t3 */
    uint32_t s;    /* 0, which it is where an initializer leaves it out, for full sub-words */
};

static inline uint32_t gii_sheet_write(const struct gii_sheet *sheet, uint32_t width, const uint8_t *blocks,
                                       size_t blocks_len, uint8_t *page, size_t page_len)
{
    return gii_write(sheet->q, sheet->m, sheet->v, sheet->t[0], sheet->t[1], sheet->t[2], sheet->t[3], sheet->s,
                     width, blocks, blocks_len, page, page_len);
}

static inline uint32_t gii_sheet_write_many(const struct gii_sheet *sheet, uint32_t width, uint32_t count,
                                            const uint8_t *blocks, size_t blocks_len, uint8_t *pages, size_t pages_len,
                                            uint8_t *list, size_t list_len)
{
    return gii_write_many(sheet->q, sheet->m, sheet->v, sheet->t[0], sheet->t[1], sheet->t[2], sheet->t[3], sheet->s,
                          width, count, blocks, blocks_len, pages, pages_len, list, list_len);
}

static inline uint32_t gii_sheet_alter(const struct gii_sheet *sheet, uint8_t *page, size_t page_len, uint32_t block,
                                       uint32_t bit, uint32_t value)
{
    return gii_alter(sheet->q, sheet->m, sheet->v, sheet->t[0], sheet->t[1], sheet->t[2], sheet->t[3], sheet->s,
                     page, page_len, block, bit, value);
}

static inline uint32_t gii_sheet_mend(const struct gii_sheet *sheet, uint8_t *page, size_t page_len, uint32_t index,
                                      uint8_t *places, size_t places_len, uint8_t *flips)
{
    return gii_mend(sheet->q, sheet->m, sheet->v, sheet->t[0], sheet->t[1], sheet->t[2], sheet->t[3], sheet->s,
                    page, page_len, index, places, places_len, flips);
}

static inline uint32_t gii_sheet_mend_page(const struct gii_sheet *sheet, uint8_t *page, size_t page_len)
{
    return gii_mend_page(sheet->q, sheet->m, sheet->v, sheet->t[0], sheet->t[1], sheet->t[2], sheet->t[3], sheet->s,
                         page, page_len);
}

static inline uint32_t gii_sheet_read_out(const struct gii_sheet *sheet, const uint8_t *page, size_t page_len,
                                          uint8_t *blocks, size_t blocks_len)
{
    return gii_read_out(sheet->q, sheet->m, sheet->v, sheet->t[0], sheet->t[1], sheet->t[2], sheet->t[3], sheet->s,
                        page, page_len, blocks, blocks_len);
}

static inline uint32_t gii_sheet_judge(const struct gii_sheet *sheet, const uint8_t *page, size_t page_len)
{
    return gii_judge(sheet->q, sheet->m, sheet->v, sheet->t[0], sheet->t[1], sheet->t[2], sheet->t[3], sheet->s,
                     page, page_len);
}

static inline uint32_t gii_sheet_syndromes(const struct gii_sheet *sheet, const uint8_t *page, size_t page_len,
                                           uint32_t index, uint8_t *list, size_t list_len)
{
    return gii_syndromes(sheet->q, sheet->m, sheet->v, sheet->t[0], sheet->t[1], sheet->t[2], sheet->t[3], sheet->s,
                         page, page_len, index, list, list_len);
}

static inline uint32_t gii_sheet_nested_syndromes(const struct gii_sheet *sheet, const uint8_t *page, size_t page_len,
                                                  uint32_t index, uint8_t *list, size_t list_len)
{
    return gii_nested_syndromes(sheet->q, sheet->m, sheet->v, sheet->t[0], sheet->t[1], sheet->t[2], sheet->t[3], sheet->s,
                                page, page_len, index, list, list_len);
}

static inline uint32_t gii_sheet_all_syndromes(const struct gii_sheet *sheet, uint32_t level, const uint8_t *odd,
                                               size_t odd_len, uint8_t *list, size_t list_len)
{
    return gii_all_syndromes(sheet->q, sheet->m, sheet->v, sheet->t[0], sheet->t[1], sheet->t[2], sheet->t[3], sheet->s,
                             level, odd, odd_len, list, list_len);
}

static inline uint32_t gii_sheet_quote(const struct gii_sheet *sheet, uint8_t *list, size_t list_len)
{
    return gii_quote(sheet->q, sheet->m, sheet->v, sheet->t[0], sheet->t[1], sheet->t[2], sheet->t[3], sheet->s,
                     list, list_len);
}

static inline uint32_t gii_sheet_page_bytes(const struct gii_sheet *sheet)
{
    return gii_page_bytes(sheet->q, sheet->m, sheet->v, sheet->t[0], sheet->t[1], sheet->t[2], sheet->t[3], sheet->s);
}

static inline uint32_t gii_sheet_data_bytes(const struct gii_sheet *sheet)
{
    return gii_data_bytes(sheet->q, sheet->m, sheet->v, sheet->t[0], sheet->t[1], sheet->t[2], sheet->t[3], sheet->s);
}

static inline uint32_t gii_sheet_distance(const struct gii_sheet *sheet)
{
    return gii_distance(sheet->q, sheet->m, sheet->v, sheet->t[0], sheet->t[1], sheet->t[2], sheet->t[3], sheet->s);
}

/* The number at a place of a list, 0 the first. */
static inline uint32_t gii_number(const uint8_t *list, size_t place)
{
    return list[2 * place] | (uint32_t)list[2 * place + 1] << 8;
}

/* A number in words. */
static inline const char *gii_answer_text(uint32_t number)
{
    switch (number) {
    case GII_DONE: return "done; a member";
    case GII_FIELD: return "field: q is not 4, 8 or 12";
    case GII_SHAPE: return "shape: v or m is out of range";
    case GII_STRENGTHS: return "strengths: a rule on t is broken";
    case GII_CLASH: return "clash: some d * j is a multiple of n";
    case GII_WIDTH: return "width: not 1 to 64";
    case GII_BLOCKS: return "blocks: the length is not exact";
    case GII_PAGE: return "page: the length is not exact";
    case GII_STRAY: return "stray: a spare or unused bit is 1";
    case GII_INDEX: return "index: no such sub-word, nested word, block, bit or level, a value above 1, or not 1 to 16 pages";
    case GII_LIST: return "list: the length is not exact";
    case GII_FULL: return "full: a register would take more than n - s coefficients";
    case GII_REGISTER: return "register: level or remainder out of range";
    case GII_BLANK_BLOCKS: return "blank: the page would be all ones";
    case GII_SHORTENING: return "shortening: s is above n - w_v - 1";
    case GII_UNMENDED: return "unmended: no multiple of g_0 within t0 flips of the sub-word";
    case GII_UNMENDED_PAGE: return "unmended page: it cannot be mended through its nested words";
    case GII_SUB_WORD + 0: return "sub-word 0 fails";
    case GII_SUB_WORD + 1: return "sub-word 1 fails";
    case GII_SUB_WORD + 2: return "sub-word 2 fails";
    case GII_SUB_WORD + 3: return "sub-word 3 fails";
    case GII_SUB_WORD + 4: return "sub-word 4 fails";
    case GII_SUB_WORD + 5: return "sub-word 5 fails";
    case GII_SUB_WORD + 6: return "sub-word 6 fails";
    case GII_SUB_WORD + 7: return "sub-word 7 fails";
    case GII_NESTED_WORD + 0: return "nested word 0 fails";
    case GII_NESTED_WORD + 1: return "nested word 1 fails";
    case GII_NESTED_WORD + 2: return "nested word 2 fails";
    case GII_BLANK: return "a blank page";
    default: return "no answer of this version";
    }
}

#ifdef __cplusplus
}
#endif

#endif
