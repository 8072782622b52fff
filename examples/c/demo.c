/*
 * The C functions at work: a sheet is quoted, a page is written, judged, damaged, judged and read out, its odd syndromes are
 * listed and all made of them, it is scratched and judged, an erased page is known as blank, many pages are written in one
 * call, one bit of a stored page is altered, damaged sub-words are mended, and so is a page through its nested words, all that
 * with full and with shortened sub-words, and every refusal is shown to leave its buffers.
 * Every length comes from the calls. Prints what it does; the first surprise ends it with status 1.
 *
 *   (cd crates/gii_bch && rt lib)
 *   cc -O2 -Iinclude examples/c/demo.c crates/gii_bch/out/libgii_bch.a -o demo && ./demo
 *
 * or, installed (install.sh):
 *
 *   cc -O2 examples/c/demo.c $(pkg-config --cflags --libs gii_bch) -o target/demo && target/demo
 */
#include "gii_bch.h"

#include <stdio.h>
#include <stdlib.h>
#include <string.h>

static void must(int holds, const char *what)
{
    printf("  %s: %s\n", holds ? "ok" : "SURPRISE", what);
    if (!holds)
        exit(1);
}

/* The coefficients of a sub-word that a page stores. */
static uint32_t stored(const struct gii_sheet *s)
{
    return ((uint32_t)1 << s->q) - 1 - s->s;
}

/* The spare bits of the last byte of a sub-word: 0 to 7. */
static uint32_t spare_bits(const struct gii_sheet *s)
{
    return 8 * (gii_sheet_page_bytes(s) / s->m) - stored(s);
}

/* What the sheet comes to, into `quote`; the sizes fit it. */
static void quoted(const struct gii_sheet *s, uint8_t *quote)
{
    uint32_t page_len = gii_sheet_page_bytes(s), data_len = gii_sheet_data_bytes(s), bytes = 0, a, i, bits;
    int fits = page_len == s->m * ((stored(s) + 7) / 8);

    memset(quote, 0xA5, GII_QUOTE_BYTES);
    must(gii_sheet_quote(s, quote, GII_QUOTE_BYTES) == GII_DONE, "quoted");
    printf("  degrees:");
    for (a = 0; a <= s->v; a++)
        printf(" %u", (unsigned)gii_number(quote, GII_QUOTE_DEGREE(a)));
    printf("\n  data bits:");
    for (i = 0; i < s->m; i++)
        printf(" %u", (unsigned)gii_number(quote, GII_QUOTE_DATA_BITS(i)));
    printf("\n  page %u bytes, data %u bytes, distance %u\n", (unsigned)page_len, (unsigned)data_len,
           (unsigned)gii_sheet_distance(s));

    for (i = 0; i < s->m; i++) {
        bits = gii_number(quote, GII_QUOTE_DATA_BITS(i));
        a = i < s->v ? s->v - i : 0;
        fits = fits && bits + gii_number(quote, GII_QUOTE_DEGREE(a)) == stored(s);
        bytes += (bits + 7) / 8;
    }
    must(fits, "check bits and data bits fill the sub-words, these the page");
    must(bytes == data_len, "the blocks, each on whole bytes, fill the data bytes");
    for (a = s->v + 1; a < 4; a++)
        fits = fits && gii_number(quote, GII_QUOTE_DEGREE(a)) == 0;
    for (i = s->m; i < 8; i++)
        fits = fits && gii_number(quote, GII_QUOTE_DATA_BITS(i)) == 0;
    must(fits, "the places past the last level and past the last block are 0");
}

/* Any data, by a number to begin with, unused bits 0. */
static void fill_blocks(const struct gii_sheet *s, const uint8_t *quote, uint32_t number, uint8_t *blocks)
{
    uint32_t i, bits;
    size_t k = 0, end = 0;

    for (i = 0; i < s->m; i++) {
        bits = gii_number(quote, GII_QUOTE_DATA_BITS(i));
        for (end += (bits + 7) / 8; k < end; k++) {
            number = number * 1664525u + 1013904223u;
            blocks[k] = (uint8_t)(number >> 24);
        }
        if (bits % 8)
            blocks[end - 1] &= (uint8_t)((1u << bits % 8) - 1);
    }
}

static void print_bytes(const char *name, const uint8_t *bytes, size_t length)
{
    size_t k;

    printf("  %s:", name);
    for (k = 0; k < length && k < 16; k++)
        printf(" %02X", (unsigned)bytes[k]);
    printf("%s (%lu bytes)\n", length > 16 ? " .." : "", (unsigned long)length);
}

/* A member scratched: w_v neighbouring places of sub-word i flipped, from many places on. */
static void scratched(const struct gii_sheet *s, const uint8_t *quote, const uint8_t *page, uint32_t i)
{
    static uint8_t other[GII_PAGE_MAX];
    size_t page_len = gii_sheet_page_bytes(s);
    uint32_t w = gii_number(quote, GII_QUOTE_DEGREE(s->v)), a, k, at, verdict;
    int found = 1;

    for (a = 0; a < stored(s); a += 1 + stored(s) / 9) {
        memcpy(other, page, page_len);
        for (k = a; k < a + w && (s->s == 0 || k < stored(s)); k++) {
            at = k % stored(s);
            other[i * (page_len / s->m) + at / 8] ^= (uint8_t)(1u << at % 8);
        }
        verdict = gii_sheet_judge(s, other, page_len);
        found = found && (verdict == GII_SUB_WORD + i || verdict == GII_NESTED_WORD);
    }
    must(found, "scratched, w_v places in a row: never a member");
}

/* An element times alpha^e. */
static uint32_t times_alpha(const struct gii_sheet *s, uint32_t element, uint32_t e)
{
    for (; e; e--) {
        element <<= 1;
        if (element >> s->q)
            element ^= s->q == 4 ? 0x13 : s->q == 8 ? 0x11D : 0x1053;
    }
    return element;
}

/* All syndromes of a word of a level whose only fault is at place `at`, from the odd ones: S_j is alpha^(j at). */
static void all_of_one_fault(const struct gii_sheet *s, uint32_t level, const uint8_t *odd, uint32_t at)
{
    uint8_t all[GII_ALL_MAX];
    uint32_t t = s->t[level], j, power = 1;
    int equal = 1;

    memset(all, 0xA5, sizeof all);
    must(gii_sheet_all_syndromes(s, level, odd, GII_LIST_BYTES(t), all, GII_ALL_BYTES(t)) == GII_DONE, "all from the odd ones");
    for (j = 1; j <= 2 * t; j++) {
        power = times_alpha(s, power, at);
        equal = equal && gii_number(all, j - 1) == power && (j % 2 == 0 || gii_number(odd, j / 2) == power);
    }
    must(equal, "they are the powers of the one at the fault's place");
}

/* A page's way: written, judged, read out; damaged, judged, read out. */
static void round_trip(const struct gii_sheet *s)
{
    static uint8_t blocks[GII_BLOCKS_MAX], page[GII_PAGE_MAX], other[GII_PAGE_MAX], out[GII_BLOCKS_MAX];
    size_t blocks_len = gii_sheet_data_bytes(s), page_len = gii_sheet_page_bytes(s), k;
    uint8_t list[GII_LIST_MAX], quote[GII_QUOTE_BYTES];
    uint32_t i, t;
    int zero;

    printf("q %u, m %u, v %u, t %u, %u, %u, %u, s %u\n", (unsigned)s->q, (unsigned)s->m, (unsigned)s->v,
           (unsigned)s->t[0], (unsigned)s->t[1], (unsigned)s->t[2], (unsigned)s->t[3], (unsigned)s->s);
    quoted(s, quote);
    fill_blocks(s, quote, 1, blocks);
    print_bytes("blocks", blocks, blocks_len);
    memset(page, 0xA5, sizeof page);
    must(gii_sheet_write(s, 64, blocks, blocks_len, page, page_len) == GII_DONE, "written, 64 coefficients a step");
    print_bytes("page", page, page_len);
    must(gii_sheet_write(s, 1, blocks, blocks_len, other, page_len) == GII_DONE, "written, 1 coefficient a step");
    must(memcmp(page, other, page_len) == 0, "the pages are equal");
    must(gii_sheet_judge(s, page, page_len) == GII_MEMBER, "the page is a member");
    memset(out, 0xA5, sizeof out);
    must(gii_sheet_read_out(s, page, page_len, out, blocks_len) == GII_MEMBER, "read out");
    must(memcmp(out, blocks, blocks_len) == 0, "the blocks come back");

    for (i = 0; i <= s->m; i++) {
        /* Syndromes of sub-word i; past the last, those of nested word 0. */
        t = i < s->m ? s->t[0] : s->t[s->v];
        memset(list, 0xA5, sizeof list);
        if (i < s->m)
            must(gii_sheet_syndromes(s, page, page_len, i, list, GII_LIST_BYTES(t)) == GII_DONE, "odd syndromes");
        else
            must(gii_sheet_nested_syndromes(s, page, page_len, 0, list, GII_LIST_BYTES(t)) == GII_DONE, "odd nested syndromes");
        for (k = 0, zero = 1; k < GII_LIST_BYTES(t); k++)
            zero = zero && list[k] == 0;
        must(zero, "they are 0");
    }

    for (i = 0; i < s->m; i++) {
        memcpy(other, page, page_len);
        other[i * (page_len / s->m) + 1] ^= 0x01;
        must(gii_sheet_judge(s, other, page_len) == GII_SUB_WORD + i, "one bit flipped: its sub-word fails");
        must(gii_sheet_read_out(s, other, page_len, out, blocks_len) == GII_SUB_WORD + i, "read out says so too");
        must(gii_sheet_syndromes(s, other, page_len, i, list, GII_LIST_BYTES(s->t[0])) == GII_DONE, "odd syndromes");
        must(gii_number(list, 0) != 0, "S_1 is not 0");
        all_of_one_fault(s, 0, list, 8);
        /* In nested word l the place is l i higher. */
        for (k = 0; k < s->v; k++) {
            t = s->t[s->v - k];
            must(gii_sheet_nested_syndromes(s, other, page_len, (uint32_t)k, list, GII_LIST_BYTES(t)) == GII_DONE, "odd nested syndromes");
            all_of_one_fault(s, s->v - (uint32_t)k, list, 8 + (uint32_t)k * i);
        }
        scratched(s, quote, page, i);
    }
}

/* A page as it is delivered, every byte FF; and the blocks that it has, which are written only where s is above 0. */
static void erased_page(const struct gii_sheet *s)
{
    static uint8_t page[GII_PAGE_MAX], other[GII_PAGE_MAX], ones[GII_BLOCKS_MAX], out[GII_BLOCKS_MAX];
    size_t blocks_len = gii_sheet_data_bytes(s), page_len = gii_sheet_page_bytes(s), sub_word = page_len / s->m, k;
    uint8_t list[GII_LIST_MAX], quote[GII_QUOTE_BYTES];
    uint32_t number, i, r, bits;

    printf("  %u spare bits a sub-word\n", (unsigned)spare_bits(s));
    memset(page, 0xFF, page_len);
    must(gii_sheet_judge(s, page, page_len) == GII_BLANK, "an erased page is blank");
    memset(ones, 0xA5, sizeof ones);
    must(gii_sheet_read_out(s, page, page_len, ones, blocks_len) == GII_BLANK, "read out says so too");
    print_bytes("blocks", ones, blocks_len);
    must(gii_sheet_quote(s, quote, sizeof quote) == GII_DONE, "quoted");
    memset(out, 0, sizeof out);
    for (i = 0, k = 0; i < s->m; i++, k += (bits + 7) / 8) {
        bits = gii_number(quote, GII_QUOTE_DATA_BITS(i));
        for (r = 0; r < bits; r++)
            out[k + r / 8] |= (uint8_t)(1u << r % 8);
    }
    must(memcmp(out, ones, blocks_len) == 0, "every data bit is 1, every unused bit 0");
    must(gii_sheet_syndromes(s, page, page_len, 0, list, GII_LIST_BYTES(s->t[0])) == (spare_bits(s) ? GII_STRAY : GII_DONE),
         "its syndromes are refused where it has spare bits: they are 1");

    for (i = 0; i < s->m; i++) {
        for (bits = 0; bits < spare_bits(s); bits++) {
            page[(i + 1) * sub_word - 1] ^= (uint8_t)(0x80u >> bits);
            must(gii_sheet_judge(s, page, page_len) == GII_BLANK, "a spare bit cleared: blank");
            memset(out, 0xA5, sizeof out);
            must(gii_sheet_read_out(s, page, page_len, out, blocks_len) == GII_BLANK, "read out says so too");
            must(memcmp(out, ones, blocks_len) == 0, "the same blocks");
        }
    }
    for (i = 0; i < s->m; i++) {
        memcpy(other, page, page_len);
        other[i * sub_word] ^= 0x01;
        number = gii_sheet_judge(s, other, page_len);
        if (s->s == 0)
            must(number == GII_SUB_WORD + i, "one coefficient 0: not blank, its sub-word fails");
        else
            must(number == GII_SUB_WORD || number == GII_SUB_WORD + 1, "one coefficient 0: not blank, a sub-word fails");
    }

    memset(page, 0xA5, page_len);
    memcpy(other, page, page_len);
    number = gii_sheet_write(s, 64, ones, blocks_len, page, page_len);
    if (s->s == 0) {
        must(number == GII_BLANK_BLOCKS && GII_IS_REFUSAL(number), "blocks of all ones are refused");
        must(memcmp(page, other, page_len) == 0, "every byte of the page stays");
    } else {
        must(number == GII_DONE, "blocks of all ones are written: their page is not blank");
        must(gii_sheet_read_out(s, page, page_len, out, blocks_len) == GII_MEMBER, "the page is a member");
        must(memcmp(out, ones, blocks_len) == 0, "the blocks come back");
    }
    ones[0] ^= 0x01;
    must(gii_sheet_write(s, 64, ones, blocks_len, page, page_len) == GII_DONE, "one data bit cleared: written");
    must(gii_sheet_read_out(s, page, page_len, out, blocks_len) == GII_MEMBER, "the page is a member");
    must(memcmp(out, ones, blocks_len) == 0, "the blocks come back");
}

/*
 * Many pages in one call: a page of drawn data, one whose blocks have a stray bit, if they can, one of ones, and so on, as
 * many as there may be. Each is listed by what it gives alone, and is the page that it gives alone or as it was.
 */
static void many_pages(const struct gii_sheet *s)
{
    static uint8_t blocks[GII_COUNT_MAX * GII_BLOCKS_MAX], pages[GII_COUNT_MAX * GII_PAGE_MAX], page[GII_PAGE_MAX];
    size_t blocks_len = gii_sheet_data_bytes(s), page_len = gii_sheet_page_bytes(s), k;
    uint8_t list[GII_COUNT_MAX], quote[GII_QUOTE_BYTES];
    uint32_t bits, number, written = 0;
    int equal = 1, same = 1;

    printf("  %u pages in one call\n", (unsigned)GII_COUNT_MAX);
    must(gii_sheet_quote(s, quote, sizeof quote) == GII_DONE, "quoted");
    bits = gii_number(quote, GII_QUOTE_DATA_BITS(0));
    memset(page, 0xFF, page_len);
    for (k = 0; k < GII_COUNT_MAX; k++) {
        uint8_t *own = blocks + k * blocks_len;

        if (k % 3 == 2)
            must(gii_sheet_read_out(s, page, page_len, own, blocks_len) == GII_BLANK, "blocks of ones, those of an erased page");
        else
            fill_blocks(s, quote, (uint32_t)k + 1, own);
        if (k % 3 == 1 && bits % 8)
            own[bits / 8] |= 0x80;
    }
    memset(pages, 0xA5, sizeof pages);
    memset(list, 0xA5, sizeof list);
    must(gii_sheet_write_many(s, 64, GII_COUNT_MAX, blocks, GII_COUNT_MAX * blocks_len, pages, GII_COUNT_MAX * page_len, list,
                              GII_COUNT_MAX) == GII_DONE,
         "done, whatever is listed");
    print_bytes("list", list, GII_COUNT_MAX);
    for (k = 0; k < GII_COUNT_MAX; k++) {
        number = k % 3 == 1 && bits % 8 ? GII_STRAY : k % 3 == 2 && s->s == 0 ? GII_BLANK_BLOCKS : GII_DONE;
        written += number == GII_DONE;
        memset(page, 0xA5, page_len);
        equal = equal && list[k] == number && gii_sheet_write(s, 64, blocks + k * blocks_len, blocks_len, page, page_len) == number;
        same = same && memcmp(pages + k * page_len, page, page_len) == 0;
    }
    must(equal, "each is listed by what it gives alone: done, stray or blank");
    must(same, "each is the page that it gives alone; the refused ones are as they were");
    printf("  %u pages written\n", (unsigned)written);

    must(gii_sheet_write_many(s, 1, 2, blocks, 2 * blocks_len, page, page_len, list, 2) == GII_PAGE,
         "two pages into the room of one: refused");
    memset(pages, 0xA5, 2 * page_len);
    must(gii_sheet_write_many(s, 1, 1, blocks, blocks_len, pages, page_len, list, 1) == GII_DONE, "one page in one call");
    must(gii_sheet_write(s, 64, blocks, blocks_len, page, page_len) == GII_DONE && list[0] == GII_DONE &&
             memcmp(pages, page, page_len) == 0 && pages[page_len] == 0xA5,
         "it is the same page");
}

/*
 * One bit altered in a stored page, of each block the last: the page comes to be that of the altered blocks, which are not
 * sent again. So it is with a damaged page, which keeps its damage.
 */
static void altered_bit(const struct gii_sheet *s)
{
    static uint8_t blocks[GII_BLOCKS_MAX], page[GII_PAGE_MAX], before[GII_PAGE_MAX], written[GII_PAGE_MAX];
    size_t blocks_len = gii_sheet_data_bytes(s), page_len = gii_sheet_page_bytes(s), sub_word = page_len / s->m, start = 0, k;
    uint8_t quote[GII_QUOTE_BYTES];
    uint32_t i, bits, value, changed, most;

    printf("  one bit altered\n");
    must(gii_sheet_quote(s, quote, sizeof quote) == GII_DONE, "quoted");
    fill_blocks(s, quote, 1, blocks);
    must(gii_sheet_write(s, 64, blocks, blocks_len, page, page_len) == GII_DONE, "written");
    for (i = 0; i < s->m; i++) {
        uint8_t *last;

        bits = gii_number(quote, GII_QUOTE_DATA_BITS(i));
        last = blocks + start + (bits - 1) / 8;
        *last ^= (uint8_t)(1u << (bits - 1) % 8);
        value = (uint32_t)*last >> (bits - 1) % 8 & 1;
        start += (bits + 7) / 8;
        memcpy(before, page, page_len);
        must(gii_sheet_alter(s, page, page_len, i, bits - 1, value) == GII_DONE, "the last bit of a block altered");
        must(gii_sheet_write(s, 64, blocks, blocks_len, written, page_len) == GII_DONE, "the altered blocks written");
        must(memcmp(page, written, page_len) == 0, "the altered page is theirs");

        /* Check bits of sub-word i and of those below both i and v, and the bit. */
        for (k = 0, most = 1 + stored(s) - bits; k < i && k < s->v; k++)
            most += gii_number(quote, GII_QUOTE_DEGREE(s->v - k));
        for (k = 0, changed = 0; k < 8 * page_len; k++)
            changed += (uint32_t)(page[k / 8] ^ before[k / 8]) >> k % 8 & 1;
        printf("  block %u: %u bits changed\n", (unsigned)i, (unsigned)changed);
        must(changed >= gii_sheet_distance(s) && changed <= most, "no fewer than the distance, no more than check bits and the bit");
        for (k = 0, changed = 0; k < s->m; k++)
            if (k > i || (k < i && k >= s->v))
                changed += memcmp(page + k * sub_word, before + k * sub_word, sub_word) != 0;
        must(changed == 0, "other sub-words are as they were");
        must(gii_sheet_alter(s, page, page_len, i, bits - 1, value) == GII_DONE && memcmp(page, written, page_len) == 0,
             "altered to what it is: nothing changes");
        page[0] ^= 0x01;
        before[0] ^= 0x01;
        must(gii_sheet_alter(s, page, page_len, i, bits - 1, !value) == GII_DONE && memcmp(page, before, page_len) == 0,
             "damaged and altered back: the page from before, with its damage");
        memcpy(page, written, page_len);
    }

    memset(page, 0xFF, page_len);
    must(gii_sheet_alter(s, page, page_len, 0, 0, 1) == (spare_bits(s) ? GII_STRAY : GII_BLANK_BLOCKS),
         "an erased page is refused: by its spare bits, if it has some");
    for (i = 0; i < s->m; i++)
        page[(i + 1) * sub_word - 1] = (uint8_t)(0xFFu >> spare_bits(s));
    must(gii_sheet_alter(s, page, page_len, 0, 0, 1) == GII_BLANK_BLOCKS, "without them: it would stay blank");
    must(gii_sheet_alter(s, page, page_len, 0, 0, 0) == GII_DONE && gii_sheet_judge(s, page, page_len) != GII_BLANK,
         "a bit of it made 0: no longer blank");
    must(gii_sheet_alter(s, page, page_len, 0, 0, 1) == GII_BLANK_BLOCKS, "not made blank again");
}

/* Place k of the so many of sub-word i that are flipped, evenly apart. */
static uint32_t flipped_place(const struct gii_sheet *s, uint32_t i, uint32_t k, uint32_t flips)
{
    return (k * stored(s) + i) / flips;
}

static void flip_places(const struct gii_sheet *s, uint8_t *page, uint32_t i, uint32_t flips)
{
    size_t sub_word = gii_sheet_page_bytes(s) / s->m;
    uint32_t k, at;

    for (k = 0; k < flips; k++) {
        at = flipped_place(s, i, k, flips);
        page[i * sub_word + at / 8] ^= (uint8_t)(1u << at % 8);
    }
}

/*
 * A stored page damaged in t0 places of every sub-word: each is mended by the places that were flipped, the page is what was
 * written, and its blocks come back. A sub-word without faults has no flips.
 */
static void mended_sub_words(const struct gii_sheet *s)
{
    static uint8_t blocks[GII_BLOCKS_MAX], written[GII_PAGE_MAX], page[GII_PAGE_MAX], out[GII_BLOCKS_MAX];
    size_t blocks_len = gii_sheet_data_bytes(s), page_len = gii_sheet_page_bytes(s), sub_word = page_len / s->m;
    size_t places_len = GII_PLACES_BYTES(s->t[0]);
    uint8_t quote[GII_QUOTE_BYTES], places[GII_PLACES_MAX], flips;
    uint32_t i, k;
    int found;

    printf("  sub-words mended\n");
    must(gii_sheet_quote(s, quote, sizeof quote) == GII_DONE, "quoted");
    fill_blocks(s, quote, 1, blocks);
    must(gii_sheet_write(s, 64, blocks, blocks_len, written, page_len) == GII_DONE, "written");
    memcpy(page, written, page_len);
    for (i = 0; i < s->m; i++)
        flip_places(s, page, i, s->t[0]);
    must(gii_sheet_judge(s, page, page_len) == GII_SUB_WORD, "t0 places of every sub-word flipped: sub-word 0 fails");
    for (i = 0; i < s->m; i++) {
        memset(places, 0xA5, sizeof places);
        must(gii_sheet_mend(s, page, page_len, i, places, places_len, &flips) == GII_DONE, "mended");
        printf("  sub-word %u: %u flips, places", (unsigned)i, (unsigned)flips);
        for (k = 0, found = flips == s->t[0]; k < flips; k++) {
            printf(" %u", (unsigned)gii_number(places, k));
            found = found && gii_number(places, k) == flipped_place(s, i, k, s->t[0]);
        }
        printf("\n");
        must(found, "these were flipped");
        must(memcmp(page, written, (i + 1) * sub_word) == 0, "so far the page is what was written");
        must(gii_sheet_judge(s, page, page_len) == (i + 1 < s->m ? GII_SUB_WORD + i + 1 : GII_MEMBER),
             i + 1 < s->m ? "the next sub-word fails" : "the page is a member");
        must(gii_sheet_mend(s, page, page_len, i, places, places_len, &flips) == GII_DONE && flips == 0, "mended again: no flips");
        for (k = 0, found = 1; k < s->t[0]; k++)
            found = found && gii_number(places, k) == GII_NO_PLACE;
        must(found && memcmp(page, written, (i + 1) * sub_word) == 0, "no places, and the page as it was");
    }
    must(gii_sheet_read_out(s, page, page_len, out, blocks_len) == GII_MEMBER, "read out");
    must(memcmp(out, blocks, blocks_len) == 0, "the blocks come back");

    memset(page, 0xFF, page_len);
    if (spare_bits(s))
        must(gii_sheet_mend(s, page, page_len, 0, places, places_len, &flips) == GII_STRAY, "an erased page is refused: its spare bits are 1");
    for (i = 0; i < s->m; i++)
        page[(i + 1) * sub_word - 1] = (uint8_t)(0xFFu >> spare_bits(s));
    if (s->s == 0) {
        page[0] ^= 0x01;
        must(gii_sheet_mend(s, page, page_len, 0, places, places_len, &flips) == GII_DONE && flips == 1 && gii_number(places, 0) == 0,
             "without them, and with one coefficient 0: mended");
        must(gii_sheet_judge(s, page, page_len) == GII_BLANK, "it is blank");
    }
}

/*
 * A stored page damaged beyond t0 in v sub-words, in t_v places of the first, t_(v-1) of the next and so on, and in t0 places of
 * every other: the v cannot be mended alone, but are through the nested words, and the blocks come back. With one more sub-word
 * beyond t0 the page is refused. Where t0 is 1, words beyond it are mostly near other multiples of g_0: there no sub-word is.
 */
static void mended_page(const struct gii_sheet *s)
{
    static uint8_t blocks[GII_BLOCKS_MAX], written[GII_PAGE_MAX], page[GII_PAGE_MAX], before[GII_PAGE_MAX], out[GII_BLOCKS_MAX];
    size_t blocks_len = gii_sheet_data_bytes(s), page_len = gii_sheet_page_bytes(s), sub_word = page_len / s->m;
    size_t places_len = GII_PLACES_BYTES(s->t[0]);
    uint8_t quote[GII_QUOTE_BYTES], places[GII_PLACES_MAX], flips;
    uint32_t beyond = s->t[0] > 1 ? s->v : 0, i;

    printf("  a page mended through its nested words\n");
    must(gii_sheet_quote(s, quote, sizeof quote) == GII_DONE, "quoted");
    fill_blocks(s, quote, 1, blocks);
    must(gii_sheet_write(s, 64, blocks, blocks_len, written, page_len) == GII_DONE, "written");
    memcpy(page, written, page_len);
    must(gii_sheet_mend_page(s, page, page_len) == GII_DONE && memcmp(page, written, page_len) == 0, "without damage: it stays");
    printf("  places flipped:");
    for (i = 0; i < s->m; i++) {
        flip_places(s, page, i, i < beyond ? s->t[s->v - i] : s->t[0]);
        printf(" %u", (unsigned)(i < beyond ? s->t[s->v - i] : s->t[0]));
    }
    printf("\n");
    memcpy(before, page, page_len);
    for (i = 0; i < beyond; i++)
        must(gii_sheet_mend(s, page, page_len, i, places, places_len, &flips) == GII_UNMENDED, "a sub-word that cannot be mended alone");
    must(gii_sheet_mend_page(s, page, page_len) == GII_DONE, "the page is mended");
    must(memcmp(page, written, page_len) == 0, "it is what was written");
    must(gii_sheet_judge(s, page, page_len) == GII_MEMBER, "a member");
    must(gii_sheet_read_out(s, page, page_len, out, blocks_len) == GII_MEMBER, "read out");
    must(memcmp(out, blocks, blocks_len) == 0, "the blocks come back");

    if (beyond) {
        memcpy(page, before, page_len);
        memcpy(page + beyond * sub_word, written + beyond * sub_word, sub_word);
        flip_places(s, page, beyond, s->t[s->v]);
        memcpy(before, page, page_len);
        must(gii_sheet_mend_page(s, page, page_len) == GII_UNMENDED_PAGE, "one more sub-word beyond t0: refused");
        must(memcmp(page, before, page_len) == 0, "every byte stays");
    }
    memset(page, 0xFF, page_len);
    if (spare_bits(s))
        must(gii_sheet_mend_page(s, page, page_len) == GII_STRAY, "an erased page is refused: its spare bits are 1");
    for (i = 0; i < s->m; i++)
        page[(i + 1) * sub_word - 1] = (uint8_t)(0xFFu >> spare_bits(s));
    page[0] ^= 0x01;
    if (s->s == 0)
        must(gii_sheet_mend_page(s, page, page_len) == GII_UNMENDED_PAGE, "without them, and with one coefficient 0: it would be blank");
}

/* A quote that is known number for number, with data bits less s, and known sizes. */
static void known_quote(void)
{
    static const struct gii_sheet large = {12, 8, 3, {28, 32, 39, 58}, 0}, middle = {8, 4, 2, {4, 8, 16, 0}, 0};
    static const struct gii_sheet small = {12, 4, 1, {4, 12, 0, 0}, 3071};
    static const uint32_t expected[] = {336, 384, 462, 690, 3405, 3633, 3711, 3759, 3759, 3759, 3759, 3759};
    struct gii_sheet shortened = large;
    uint8_t list[GII_QUOTE_BYTES];
    size_t k;
    int equal = sizeof list == 2 * (sizeof expected / sizeof *expected);

    printf("the quote of q 12, m 8, v 3, t 28, 32, 39, 58\n");
    must(gii_sheet_quote(&large, list, sizeof list) == GII_DONE, "quoted");
    for (k = 0; k < sizeof expected / sizeof *expected; k++)
        equal = equal && gii_number(list, k) == expected[k];
    must(equal, "degrees 336, 384, 462, 690, data bits 3405, 3633, 3711, 3759 five times");
    must(gii_sheet_page_bytes(&large) == 4096, "page 4096 bytes");
    must(gii_sheet_data_bytes(&large) == 3695, "data 3695 bytes");
    must(gii_sheet_distance(&large) == 117, "distance 117, 2 t_3 + 1");
    must(gii_sheet_distance(&middle) == 27, "distance 27, 3 (2 t_0 + 1), of q 8, m 4, v 2, t 4, 8, 16");

    shortened.s = 1900;
    must(gii_sheet_quote(&shortened, list, sizeof list) == GII_DONE, "quoted with s 1900");
    for (k = 0; k < sizeof expected / sizeof *expected; k++)
        equal = equal && gii_number(list, k) == expected[k] - (k < GII_QUOTE_DATA_BITS(0) ? 0 : shortened.s);
    must(equal, "the same degrees, and each data bits less 1900");
    must(gii_sheet_page_bytes(&shortened) == 2200, "page 2200 bytes");
    must(gii_sheet_data_bytes(&shortened) == 1798, "data 1798 bytes");
    must(gii_sheet_distance(&shortened) == 117, "distance 117");
    must(gii_sheet_page_bytes(&small) == 512 && gii_sheet_data_bytes(&small) == 476,
         "page 512 bytes, data 476 bytes, of q 12, m 4, v 1, t 4, 12, s 3071");

    shortened.s = expected[GII_QUOTE_DATA_BITS(0)] - 1;
    must(gii_sheet_quote(&shortened, list, sizeof list) == GII_DONE, "quoted with the greatest s, 3404");
    must(gii_number(list, GII_QUOTE_DATA_BITS(0)) == 1, "block 0 has one data bit");
    shortened.s++;
    must(gii_sheet_quote(&shortened, list, sizeof list) == GII_SHORTENING, "refused with s 3405");
}

/* The counter's cases that are known byte for byte. */
static void known_pages(void)
{
    static const struct gii_sheet a = {4, 2, 1, {1, 2, 0, 0}, 0}, shorter = {4, 2, 1, {1, 2, 0, 0}, 5};
    static const uint8_t blocks[3] = {0x01, 0x01, 0x00}, page[4] = {0xC2, 0x01, 0x13, 0x00};
    static const uint8_t mixed[4] = {0xFF, 0x03, 0xFF, 0xA7}, altered[4] = {0x13, 0x00, 0x13, 0x00};
    static const uint8_t one[4] = {0x01}, multiple[4] = {0x13}, second[4] = {0x02}, syndromes[8] = {2, 0, 4, 0, 8, 0, 3, 0};
    static const uint8_t odd[4] = {2, 0, 8, 0}, no_elements[4] = {0x10, 0x00, 0x00, 0x80}, squares[8] = {0x10, 0, 5, 0, 0, 0x80, 2, 0};
    static const uint8_t erased[4] = {0xFF, 0xFF, 0xFF, 0xFF}, clear[4] = {0xFF, 0x7F, 0xFF, 0x7F}, ones[3] = {0x7F, 0xFF, 0x07};
    static const uint8_t many[12] = {0x01, 0x01, 0x00, 0x81, 0x01, 0x00, 0x7F, 0xFF, 0x07, 0x00, 0x01, 0x00};
    static const uint8_t all[16] = {0xC2, 0x01, 0x13, 0x00, 0xA5, 0xA5, 0xA5, 0xA5, 0xA5, 0xA5, 0xA5, 0xA5, 0x13, 0x00, 0x13, 0x00};
    static const uint8_t damaged[4] = {0xC2, 0x01, 0x33, 0x00}, cut[4] = {0xC0, 0x00, 0x00, 0x00};
    static const uint8_t zeros[4] = {0x00, 0x00, 0x00, 0x00};
    uint8_t out[4], list[8], few[4], pages[16], flips;

    printf("known pages of q 4, m 2, v 1, t 1, 2\n");
    must(gii_sheet_write(&a, 8, blocks, sizeof blocks, out, sizeof out) == GII_DONE, "blocks 01 / 01 00 written");
    must(memcmp(out, page, sizeof page) == 0, "page C2 01 13 00");
    memset(pages, 0xA5, sizeof pages);
    must(gii_sheet_write_many(&a, 8, 4, many, sizeof many, pages, sizeof pages, list, 4) == GII_DONE,
         "01 / 01 00, 81 / 01 00, 7F / FF 07, 00 / 01 00 in one call");
    must(list[0] == GII_DONE && list[1] == GII_STRAY && list[2] == GII_BLANK_BLOCKS && list[3] == GII_DONE, "listed 0, 8, 13, 0");
    must(memcmp(pages, all, sizeof all) == 0, "pages C2 01 13 00 and 13 00 13 00, and two as they were");
    memcpy(out, page, sizeof page);
    must(gii_sheet_alter(&a, out, sizeof out, 0, 0, 0) == GII_DONE && memcmp(out, altered, sizeof out) == 0,
         "bit 0 of block 0 of C2 01 13 00 made 0: 13 00 13 00");
    memcpy(out, damaged, sizeof damaged);
    must(gii_sheet_mend(&a, out, sizeof out, 1, list, GII_PLACES_BYTES(a.t[0]), &flips) == GII_DONE && memcmp(out, page, sizeof page) == 0,
         "sub-word 1 of C2 01 33 00 mended: C2 01 13 00");
    must(flips == 1 && gii_number(list, 0) == 5, "by one flip, of place 5");
    memcpy(out, damaged, sizeof damaged);
    must(gii_sheet_mend_page(&a, out, sizeof out) == GII_DONE && memcmp(out, page, sizeof page) == 0, "the page C2 01 33 00 mended: C2 01 13 00");
    memcpy(out, multiple, sizeof multiple);
    must(gii_sheet_mend_page(&a, out, sizeof out) == GII_UNMENDED_PAGE, "13 00 00 00: nested word 0 fails, and no sub-word is broken: refused");
    memcpy(out, clear, sizeof clear);
    must(gii_sheet_mend_page(&a, out, sizeof out) == GII_UNMENDED_PAGE, "FF 7F FF 7F: blank, and so refused");
    must(gii_sheet_judge(&a, erased, sizeof erased) == GII_BLANK, "FF FF FF FF is blank");
    must(gii_sheet_judge(&a, clear, sizeof clear) == GII_BLANK, "FF 7F FF 7F is blank");
    must(gii_sheet_read_out(&a, erased, sizeof erased, out, sizeof ones) == GII_BLANK, "FF FF FF FF read out");
    must(memcmp(out, ones, sizeof ones) == 0, "blocks 7F / FF 07");
    must(gii_sheet_judge(&a, one, sizeof one) == GII_SUB_WORD + 0, "01 00 00 00: sub-word 0 fails");
    must(gii_sheet_judge(&a, multiple, sizeof multiple) == GII_NESTED_WORD + 0, "13 00 00 00: nested word 0 fails");
    must(gii_sheet_nested_syndromes(&a, second, sizeof second, 0, few, sizeof few) == GII_DONE, "odd syndromes of 02 00");
    must(memcmp(few, odd, sizeof odd) == 0, "2, 8");
    must(gii_sheet_all_syndromes(&a, 1, few, sizeof few, list, sizeof list) == GII_DONE, "all from them");
    must(memcmp(list, syndromes, sizeof list) == 0, "2, 4, 8, 3");
    must(gii_sheet_all_syndromes(&a, 1, no_elements, sizeof no_elements, list, sizeof list) == GII_DONE, "all from 16 and 32768, no elements");
    must(memcmp(list, squares, sizeof list) == 0, "16, 5, 32768, 2: x^8 is x^2 + 1, its square x");

    printf("the same with s 5: ten coefficients on two bytes\n");
    memset(out, 0xA5, sizeof out);
    must(gii_sheet_write(&shorter, 8, blocks, 2, out, sizeof out) == GII_DONE, "blocks 01 / 01 written");
    must(memcmp(out, page, sizeof page) == 0, "page C2 01 13 00");
    must(gii_sheet_judge(&shorter, erased, sizeof erased) == GII_BLANK, "FF FF FF FF is blank");
    must(gii_sheet_judge(&shorter, mixed, sizeof mixed) == GII_BLANK, "FF 03 FF A7 is blank");
    must(gii_sheet_read_out(&shorter, mixed, sizeof mixed, out, 2) == GII_BLANK, "FF 03 FF A7 read out");
    must(out[0] == 0x03 && out[1] == 0x3F, "blocks 03 / 3F");
    must(gii_sheet_judge(&shorter, clear, sizeof clear) == GII_BLANK, "FF 7F FF 7F is blank");
    must(gii_sheet_nested_syndromes(&shorter, second, sizeof second, 0, few, sizeof few) == GII_DONE, "odd syndromes of 02 00");
    must(gii_sheet_all_syndromes(&shorter, 1, few, sizeof few, list, sizeof list) == GII_DONE, "all from them");
    must(memcmp(few, odd, sizeof odd) == 0 && memcmp(list, syndromes, sizeof list) == 0, "2, 8, and 2, 4, 8, 3");
    memcpy(out, cut, sizeof cut);
    must(gii_sheet_mend(&shorter, out, sizeof out, 0, list, GII_PLACES_BYTES(a.t[0]), &flips) == GII_UNMENDED,
         "C0 00 is near x^6 + x^7 + x^10 alone, and place 10 is not stored: not mended");
    must(memcmp(out, cut, sizeof cut) == 0 && memcmp(list, syndromes, sizeof list) == 0, "every byte stays");
    must(gii_sheet_mend_page(&shorter, out, sizeof out) == GII_DONE && memcmp(out, zeros, sizeof zeros) == 0,
         "but through nested word 0, by two flips: C0 00 00 00 comes to be 00 00 00 00");
}

/* One call of each function, with buffers of the given lengths and contents; a refusal must leave all of them. */
struct lent {
    uint8_t blocks[GII_COUNT_MAX * 8], page[GII_COUNT_MAX * 8], list[2 * GII_QUOTE_BYTES], flips;
};

/* The odd list of ALL_SYNDROMES is in the place of blocks. */
enum call { WRITE, READ_OUT, JUDGE, SYNDROMES, NESTED_SYNDROMES, QUOTE, WRITE_MANY, ALTER, MEND, ALL_SYNDROMES, MEND_PAGE };

/* The pages that WRITE_MANY is told, the bit and the value that ALTER is. */
static uint32_t count = 1, bit = 0, value = 1;

static void refused(enum call call, const struct gii_sheet *s, uint32_t number, size_t blocks_len, size_t page_len,
                    size_t list_len, const struct lent *holds, uint32_t expected, const char *what)
{
    static const char *const names[] = {"write", "read out", "judge", "syndromes", "nested syndromes", "quote", "write many", "alter", "mend",
                                        "all syndromes", "mend page"};
    struct lent lent = *holds;
    char line[240];
    uint32_t answer = 0;

    switch (call) {
    case WRITE:
        answer = gii_sheet_write(s, number, lent.blocks, blocks_len, lent.page, page_len);
        break;
    case READ_OUT:
        answer = gii_sheet_read_out(s, lent.page, page_len, lent.blocks, blocks_len);
        break;
    case JUDGE:
        answer = gii_sheet_judge(s, lent.page, page_len);
        break;
    case SYNDROMES:
        answer = gii_sheet_syndromes(s, lent.page, page_len, number, lent.list, list_len);
        break;
    case NESTED_SYNDROMES:
        answer = gii_sheet_nested_syndromes(s, lent.page, page_len, number, lent.list, list_len);
        break;
    case QUOTE:
        answer = gii_sheet_quote(s, lent.list, list_len);
        break;
    case WRITE_MANY:
        answer = gii_sheet_write_many(s, number, count, lent.blocks, blocks_len, lent.page, page_len, lent.list, list_len);
        break;
    case ALTER:
        answer = gii_sheet_alter(s, lent.page, page_len, number, bit, value);
        break;
    case MEND:
        answer = gii_sheet_mend(s, lent.page, page_len, number, lent.list, list_len, &lent.flips);
        break;
    case ALL_SYNDROMES:
        answer = gii_sheet_all_syndromes(s, number, lent.blocks, blocks_len, lent.list, list_len);
        break;
    case MEND_PAGE:
        answer = gii_sheet_mend_page(s, lent.page, page_len);
        break;
    }
    sprintf(line, "%s, %s: refused by %u (%s), every byte stays", names[call], what, (unsigned)expected,
            gii_answer_text(expected));
    must(answer == expected && GII_IS_REFUSAL(answer) && memcmp(&lent, holds, sizeof lent) == 0, line);
}

/* A refused sheet has no sizes. */
static void without_sizes(const struct gii_sheet *s, const char *what)
{
    char line[160];

    sprintf(line, "%s: no page, no data, no distance", what);
    must(gii_sheet_page_bytes(s) == 0 && gii_sheet_data_bytes(s) == 0 && gii_sheet_distance(s) == 0, line);
}

static void refusals(void)
{
    static const struct gii_sheet a = {4, 2, 1, {1, 2, 0, 0}, 0};
    static const struct gii_sheet field = {5, 2, 1, {1, 2, 0, 0}, 0}, shape = {4, 1, 1, {1, 2, 0, 0}, 0};
    static const struct gii_sheet strengths = {4, 2, 1, {2, 2, 0, 0}, 0}, clash = {4, 4, 2, {1, 2, 3, 0}, 0};
    static const struct gii_sheet short_clash = {4, 4, 2, {1, 2, 3, 0}, UINT32_MAX};
    static const struct gii_sheet shortening = {4, 2, 1, {1, 2, 0, 0}, 7}, shortest = {4, 2, 1, {1, 2, 0, 0}, UINT32_MAX};
    static const struct gii_sheet shorter = {4, 2, 1, {1, 2, 0, 0}, 5};
    static const struct gii_sheet greatest = {UINT32_MAX, UINT32_MAX, UINT32_MAX,
                                              {UINT32_MAX, UINT32_MAX, UINT32_MAX, UINT32_MAX}, UINT32_MAX};
    const size_t data = gii_sheet_data_bytes(&a), page = gii_sheet_page_bytes(&a);
    struct lent fits, stray, ones, ones_stray, erased, blank, cut;
    int call;

    memset(&fits, 0x35, sizeof fits);
    fits.blocks[data - 1] = 0x05;
    stray = fits;
    stray.blocks[data - 1] = 0x85;
    stray.page[page / a.m - 1] = 0x80;
    ones = fits;
    ones.blocks[0] = 0x7F;
    ones.blocks[1] = 0xFF;
    ones.blocks[2] = 0x07;
    ones_stray = ones;
    ones_stray.blocks[2] = 0x87;
    memset(&erased, 0xFF, sizeof erased);
    blank = erased;
    blank.page[page / a.m - 1] = blank.page[page - 1] = 0x7F;
    cut = fits;
    memset(cut.page, 0, page);
    cut.page[0] = 0xC0;

    printf("refusals\n");
    for (call = WRITE; call <= MEND_PAGE; call++) {
        enum call c = (enum call)call;
        uint32_t number = c == WRITE || c == WRITE_MANY ? 8 : 0;
        size_t list = c == WRITE_MANY ? 1 : c == QUOTE ? GII_QUOTE_BYTES : GII_LIST_BYTES(c == SYNDROMES ? a.t[0] : a.t[1]);

        if (c == MEND)
            list = GII_PLACES_BYTES(a.t[0]);

        refused(c, &field, number, data, page, list, &fits, GII_FIELD, "q 5");
        refused(c, &shape, number, data, page, list, &fits, GII_SHAPE, "m 1");
        refused(c, &strengths, number, data, page, list, &fits, GII_STRENGTHS, "t 2, 2");
        refused(c, &clash, number, data, page, list, &fits, GII_CLASH, "m 4, t 1, 2, 3");
        refused(c, &greatest, UINT32_MAX, 0, 0, 0, &stray, GII_FIELD, "everything wrong");
        refused(c, &shortening, number, data, page, list, &fits, GII_SHORTENING, "s 7");
        refused(c, &shortest, number, data, page, list, &erased, GII_SHORTENING, "s 4294967295");
        refused(c, &shortening, UINT32_MAX, 0, 0, 0, &stray, GII_SHORTENING, "s 7 and all but the sheet wrong");
        refused(c, &short_clash, number, data, page, list, &fits, GII_CLASH, "clash and s 4294967295");
        if (c == WRITE || c == WRITE_MANY) {
            refused(c, &a, 0, data, page, list, &fits, GII_WIDTH, "width 0");
            refused(c, &a, 65, data, page, list, &fits, GII_WIDTH, "width 65");
        }
        if (c == WRITE) {
            refused(c, &a, number, data, page, list, &ones, GII_BLANK_BLOCKS, "every data bit 1");
            refused(c, &a, number, data, page - 1, list, &ones, GII_PAGE, "page and every data bit 1");
            refused(c, &a, number, data, page, list, &ones_stray, GII_STRAY, "stray and every data bit 1");
        }
        if (c == WRITE || c == READ_OUT || c == WRITE_MANY) {
            refused(c, &a, number, data - 1, page, list, &fits, GII_BLOCKS, "a byte of blocks less");
            refused(c, &a, number, data + 1, page, list, &fits, GII_BLOCKS, "a byte of blocks more");
            refused(c, &a, number, 0, page, list, &fits, GII_BLOCKS, "no blocks");
            refused(c, &a, number, data - 1, page, list, &erased, GII_BLOCKS, "erased, a byte of blocks less");
            refused(c, &shorter, number, data, page, list, &fits, GII_BLOCKS, "s 5, blocks for s 0");
        }
        if (c != QUOTE && c != ALL_SYNDROMES) {
            refused(c, &a, number, data, page - 1, list, &fits, GII_PAGE, "a byte of page less");
            refused(c, &a, number, data, page + 1, list, &fits, GII_PAGE, "a byte of page more");
            refused(c, &a, number, data, 0, list, &fits, GII_PAGE, "no page");
            refused(c, &a, number, data, page - 1, list, &erased, GII_PAGE, "erased, a byte of page less");
            refused(c, &a, number, data, 0, 0, &stray, GII_PAGE, "page, stray and list");
        }
        if (c != QUOTE && c != WRITE_MANY && c != ALL_SYNDROMES)
            refused(c, &a, number, data, page, list, &stray, GII_STRAY, "a stray bit");
        if (c == SYNDROMES || c == NESTED_SYNDROMES || c == MEND) {
            refused(c, &a, c == NESTED_SYNDROMES ? a.v : a.m, data, page, list, &fits, GII_INDEX, "no such word");
            refused(c, &a, UINT32_MAX, data, page, 0, &stray, GII_STRAY, "stray, index and list");
            refused(c, &a, 0, data, page, list, &erased, GII_STRAY, "an erased page");
        }
        if (c == SYNDROMES || c == NESTED_SYNDROMES || c == QUOTE || c == MEND) {
            refused(c, &a, 0, data, page, list - 1, &fits, GII_LIST, "a byte of list less");
            refused(c, &a, 0, data, page, list + 1, &fits, GII_LIST, "a byte of list more");
            refused(c, &a, 0, data, page, list / 2, &fits, GII_LIST, "half a list");
            refused(c, &a, 0, data, page, 0, &fits, GII_LIST, "no list");
            refused(c, &clash, 0, data, page, list - 1, &fits, GII_CLASH, "clash and list");
        }
    }

    count = 0;
    refused(WRITE_MANY, &a, 8, 0, 0, 0, &fits, GII_INDEX, "no page");
    refused(WRITE_MANY, &a, 0, 0, 0, 0, &fits, GII_WIDTH, "no page and width 0");
    count = GII_COUNT_MAX + 1;
    refused(WRITE_MANY, &a, 8, count * data, count * page, count, &fits, GII_INDEX, "17 pages");
    refused(WRITE_MANY, &a, 8, 0, 0, 0, &stray, GII_INDEX, "17 pages and every length");
    count = UINT32_MAX;
    refused(WRITE_MANY, &a, 8, data, page, 1, &fits, GII_INDEX, "4294967295 pages");
    refused(WRITE_MANY, &shortening, 8, data, page, 1, &fits, GII_SHORTENING, "s 7 and 4294967295 pages");
    count = 3;
    refused(WRITE_MANY, &a, 8, 2 * data, 3 * page, 3, &fits, GII_BLOCKS, "3 pages, blocks for 2");
    refused(WRITE_MANY, &a, 8, 4 * data, 0, 0, &fits, GII_BLOCKS, "3 pages, blocks for 4, page and list");
    refused(WRITE_MANY, &a, 8, 3 * data, page, 1, &fits, GII_PAGE, "3 pages, room for 1");
    refused(WRITE_MANY, &a, 8, 3 * data, 4 * page, 3, &fits, GII_PAGE, "3 pages, room for 4");
    refused(WRITE_MANY, &a, 8, 3 * data, 3 * page, 2, &ones, GII_LIST, "3 pages, a list of 2");
    refused(WRITE_MANY, &a, 8, 3 * data, 3 * page, 4, &stray, GII_LIST, "3 pages, a list of 4");

    refused(ALTER, &a, 0, 0, page, 0, &blank, GII_BLANK_BLOCKS, "a blank page, value 1");
    refused(ALTER, &a, a.m, 0, page, 0, &blank, GII_INDEX, "no such block");
    refused(ALTER, &a, UINT32_MAX, 0, page, 0, &fits, GII_INDEX, "block 4294967295");
    refused(ALTER, &a, UINT32_MAX, 0, page, 0, &erased, GII_STRAY, "an erased page and block");
    refused(ALTER, &a, UINT32_MAX, 0, page + 1, 0, &fits, GII_PAGE, "page and block");
    bit = 7;
    refused(ALTER, &a, 0, 0, page, 0, &blank, GII_INDEX, "bit 7 of block 0, which has 7");
    bit = 11;
    refused(ALTER, &a, 1, 0, page, 0, &fits, GII_INDEX, "bit 11 of block 1, which has 11");
    bit = UINT32_MAX;
    refused(ALTER, &a, 1, 0, page, 0, &fits, GII_INDEX, "bit 4294967295");
    refused(ALTER, &shortening, 1, 0, page, 0, &fits, GII_SHORTENING, "s 7 and bit 4294967295");
    bit = 0;
    value = 2;
    refused(ALTER, &a, 0, 0, page, 0, &blank, GII_INDEX, "value 2");
    refused(ALTER, &a, 0, 0, page, 0, &stray, GII_STRAY, "stray and value 2");
    value = UINT32_MAX;
    refused(ALTER, &a, 1, 0, page, 0, &fits, GII_INDEX, "value 4294967295");

    refused(MEND_PAGE, &a, 0, 0, page, 0, &blank, GII_UNMENDED_PAGE, "a blank page");
    refused(MEND_PAGE, &a, 0, 0, page, 0, &erased, GII_STRAY, "an erased page");
    refused(MEND_PAGE, &a, 0, 0, page, 0, &cut, GII_UNMENDED_PAGE, "a multiple of g_0 near, and none of g_1");

    refused(MEND, &shorter, 0, 0, page, GII_PLACES_BYTES(a.t[0]), &cut, GII_UNMENDED, "s 5, a multiple cut short");
    refused(MEND, &shorter, 0, 0, page, GII_ALL_BYTES(a.t[0]), &cut, GII_LIST, "the same, and a list as long as all syndromes");
    refused(MEND, &shorter, UINT32_MAX, 0, page, 0, &cut, GII_INDEX, "the same, list and index 4294967295");

    for (call = 0; call < 2; call++) {
        size_t odd = GII_LIST_BYTES(a.t[call]), all = GII_ALL_BYTES(a.t[call]);
        uint32_t level = (uint32_t)call;

        refused(ALL_SYNDROMES, &a, level, odd - 1, 0, all, &fits, GII_LIST, "a byte of the odd ones less");
        refused(ALL_SYNDROMES, &a, level, odd + 1, 0, all, &fits, GII_LIST, "a byte of the odd ones more");
        refused(ALL_SYNDROMES, &a, level, all, 0, all, &fits, GII_LIST, "all in place of the odd ones");
        refused(ALL_SYNDROMES, &a, level, odd, 0, all - 1, &fits, GII_LIST, "a byte of list less");
        refused(ALL_SYNDROMES, &a, level, odd, 0, all + 1, &fits, GII_LIST, "a byte of list more");
        refused(ALL_SYNDROMES, &a, level, odd, 0, odd, &fits, GII_LIST, "room for the odd ones alone");
        refused(ALL_SYNDROMES, &a, level, 0, 0, 0, &fits, GII_LIST, "no lists");
        refused(ALL_SYNDROMES, &a, 1 - level, odd, 0, all, &fits, GII_LIST, "lists of the other level");
        refused(ALL_SYNDROMES, &a, a.v + 1, odd, 0, all, &fits, GII_INDEX, "level 2");
    }
    refused(ALL_SYNDROMES, &a, 2, 0, 0, 0, &fits, GII_INDEX, "level 2, whose strength is 0, and no lists");
    refused(ALL_SYNDROMES, &a, UINT32_MAX, 0, 0, 0, &fits, GII_INDEX, "level 4294967295 and no lists");

    without_sizes(&field, "q 5");
    without_sizes(&shape, "m 1");
    without_sizes(&strengths, "t 2, 2");
    without_sizes(&clash, "m 4, t 1, 2, 3");
    without_sizes(&greatest, "everything wrong");
    without_sizes(&shortening, "s 7");
    without_sizes(&shortest, "s 4294967295");
}

/* What the header gives beside the functions. */
static void header(void)
{
    static const struct gii_sheet most = {12, 8, 1, {1, 2, 0, 0}, 0};
    char version[16];

    printf("the header\n");
    sprintf(version, "%d.%d.%d", GII_BCH_VERSION_MAJOR, GII_BCH_VERSION_MINOR, GII_BCH_VERSION_PATCH);
    must(strcmp(version, GII_BCH_VERSION) == 0, "version " GII_BCH_VERSION);
    must(gii_sheet_page_bytes(&most) == GII_PAGE_MAX && gii_sheet_data_bytes(&most) == GII_BLOCKS_MAX, "the most bytes");
    must(GII_LIST_BYTES(64) == GII_LIST_MAX && GII_ALL_BYTES(64) == GII_ALL_MAX, "the longest lists of syndromes");
    must(GII_PLACES_BYTES(63) == GII_PLACES_MAX, "the most places");
    must(GII_COUNT_MAX == 16, "the most pages of one call");
    must(GII_IS_REFUSAL(GII_FIELD) && GII_IS_REFUSAL(GII_SHORTENING) && GII_IS_REFUSAL(GII_UNMENDED) &&
             GII_IS_REFUSAL(GII_UNMENDED_PAGE),
         "refusals");
    must(!GII_IS_REFUSAL(GII_DONE) && !GII_IS_REFUSAL(GII_SUB_WORD) && !GII_IS_REFUSAL(GII_BLANK) && !GII_IS_REFUSAL(UINT32_MAX),
         "no refusals");
}

int main(void)
{
    static const struct gii_sheet sheets[] = {
        {4, 2, 1, {1, 2, 0, 0}, 0},
        {8, 4, 2, {4, 8, 16, 0}, 0},
        {12, 8, 3, {28, 32, 39, 58}, 0},
        {4, 2, 1, {1, 2, 0, 0}, 6},
        {8, 4, 2, {4, 8, 16, 0}, 100},
        {12, 8, 3, {28, 32, 39, 58}, 1900},
        {12, 4, 1, {4, 12, 0, 0}, 3071},
    };
    size_t k;

    header();
    known_quote();
    known_pages();
    for (k = 0; k < sizeof sheets / sizeof *sheets; k++) {
        round_trip(&sheets[k]);
        erased_page(&sheets[k]);
        many_pages(&sheets[k]);
        altered_bit(&sheets[k]);
        mended_sub_words(&sheets[k]);
        mended_page(&sheets[k]);
    }
    refusals();
    printf("all as expected\n");
    return 0;
}
