/*
 * Any calls from C: any numbers, any lengths, any bytes, on buffers of their own from malloc. Each answer is one that the
 * call may give and has a text, what is only read stays, a refusal leaves every byte, a quote fits the sizes, which are in
 * range or 0, lengths by the sizes are never refused, stray bits are, s is where the quote of full sub-words says so, blank
 * pages are known, read out as ones and never written. Many pages in one call are listed and written as each is alone. A
 * page is altered by the page that is written of the bit alone, and never into a blank one. A sub-word is mended by the flips
 * that are listed, no more than t0 of stored places, into one whose syndromes are 0; where it had been such a one before so
 * few flips, into that. A page is mended into a member, by what mend gives of its sub-words and, of no more than v, others; one
 * with so few flips in each into the member that it was. Of all syndromes the odd ones are those that are given, the others
 * squares; those of a page are the sums that define them.
 * Usage: fuzz CALLS SEED. It is built with the sanitizers, and without them for valgrind, which sees every access of the
 * archive.
 */
#include "gii_bch.h"

#include <stdio.h>
#include <stdlib.h>
#include <string.h>

static uint64_t state;

static uint64_t any(void)
{
    state ^= state << 13;
    state ^= state >> 7;
    state ^= state << 17;
    return state;
}

static uint32_t below(uint32_t n)
{
    return (uint32_t)(any() >> 33) % n;
}

static int once_in(uint32_t n)
{
    return below(n) == 0;
}

/* The greatest s of a sheet, by the quote of its full sub-words: one less than the data bits of block 0; -1 where that is
 * refused. */
static int64_t most(const struct gii_sheet *s)
{
    struct gii_sheet full = *s;
    uint8_t quote[GII_QUOTE_BYTES];
    full.s = 0;
    return gii_sheet_quote(&full, quote, sizeof quote) == GII_DONE ? (int64_t)gii_number(quote, GII_QUOTE_DATA_BITS(0)) - 1 : -1;
}

/* An s that is 0, small, any, the greatest, one more, or any number. */
static uint32_t any_shortening(const struct gii_sheet *s)
{
    uint32_t end = (uint32_t)(most(s) + 1);
    switch (below(8)) {
    case 0: return below(10);
    case 1:
    case 2: return end ? below(end) : 0;
    case 3: return end ? end - 1 : 0;
    case 4: return once_in(3) ? end : 0;
    case 5: return once_in(3) ? (uint32_t)any() : 0;
    default: return 0;
    }
}

static struct gii_sheet any_sheet(void)
{
    struct gii_sheet s;
    s.q = 4 * (1 + below(3));
    s.v = 1 + below(3);
    s.m = s.v + 1 + below(8 - s.v);
    uint32_t most = s.q == 4 ? 2 : s.q == 8 ? 16 : 64, t = 1 + below(most / 2);
    for (uint32_t a = 0; a < 4; a++) {
        s.t[a] = a <= s.v ? t : 0;
        t += a == 0 ? 1 + below(most / 4 + 1) : below(most / 4 + 1);
    }
    s.s = any_shortening(&s);
    uint32_t *field[] = {&s.q, &s.m, &s.v, &s.t[0], &s.t[1], &s.t[2], &s.t[3], &s.s};
    if (once_in(6))
        *field[below(8)] = once_in(2) ? (uint32_t)any() : below(70);
    for (int k = 0, wild = once_in(50); wild && k < 8; k++)
        *field[k] = once_in(2) ? (uint32_t)any() : below(70);
    return s;
}

struct buffer {
    uint8_t *bytes, *before;
    size_t length;
};

static struct buffer lend(size_t length)
{
    struct buffer b;
    uint64_t kind = below(3);
    if (once_in(8))
        length = once_in(2) ? length + 1 : once_in(2) && length > 0 ? length - 1 : below(5000);
    b.length = length;
    b.bytes = malloc(length ? length : 1);
    b.before = malloc(length ? length : 1);
    if (!b.bytes || !b.before)
        exit(2);
    for (size_t i = 0; i < length; i++)
        b.bytes[i] = kind == 0 ? 0 : kind == 1 ? (uint8_t)any() & 1 : (uint8_t)any();
    return b;
}

/* Flips a bit, if there is one. */
static void flip_any(struct buffer b)
{
    if (b.length)
        b.bytes[below((uint32_t)b.length)] ^= (uint8_t)(1u << below(8));
}

/* What the buffer holds before the call, and whether it still does. */
static void note(struct buffer b)
{
    memcpy(b.before, b.bytes, b.length);
}

static int kept(struct buffer b)
{
    return memcmp(b.bytes, b.before, b.length) == 0;
}

static void give_back(struct buffer b)
{
    free(b.bytes);
    free(b.before);
}

/* A refusal that any call may give. */
static int refused(uint32_t r)
{
    return GII_IS_REFUSAL(r) && (r <= GII_LIST || r == GII_SHORTENING);
}

static int verdict(uint32_t r)
{
    return r == GII_MEMBER || (r >= GII_SUB_WORD && r < GII_SUB_WORD + 8) || (r >= GII_NESTED_WORD && r < GII_NESTED_WORD + 3) ||
           r == GII_BLANK;
}

/* The coefficients of a sub-word that a page of an accepted sheet stores. */
static uint32_t stored(const struct gii_sheet *s)
{
    return ((uint32_t)1 << s->q) - 1 - s->s;
}

/* The sizes of a sheet: all 0, or all in range. */
struct sizes {
    uint32_t page, data, distance;
};

static int in_range(const struct gii_sheet *s, struct sizes is)
{
    if ((is.page > 0) != ((int64_t)s->s <= most(s)))
        return 0;
    if (is.page == 0)
        return is.data == 0 && is.distance == 0;
    if (s->v < 1 || s->v > 3 || s->m <= s->v || s->m > 8)
        return 0;
    return is.page <= GII_PAGE_MAX && is.page == s->m * ((stored(s) + 7) / 8) && is.data > 0 && is.data <= GII_BLOCKS_MAX && is.data < is.page &&
           is.distance > 2 * s->t[0] + 1 && is.distance <= 2 * s->t[s->v] + 1 && is.distance <= (s->v + 1) * (2 * s->t[0] + 1);
}

/* Whether a quote fits the sizes, which are in range: check bits and data bits are all coefficients stored of a sub-word. */
static int fits(const struct gii_sheet *s, struct sizes is, const uint8_t *quote)
{
    uint32_t data = 0;
    for (uint32_t a = 0; a < 4; a++)
        if ((gii_number(quote, GII_QUOTE_DEGREE(a)) > 0) != (a <= s->v))
            return 0;
    for (uint32_t i = 0; i < 8; i++) {
        uint32_t bits = gii_number(quote, GII_QUOTE_DATA_BITS(i)), check = gii_number(quote, GII_QUOTE_DEGREE(i < s->v ? s->v - i : 0));
        if (i < s->m ? bits == 0 || bits + check != stored(s) : bits != 0)
            return 0;
        data += (bits + 7) / 8;
    }
    return data == is.data;
}

/* The spare bits of the last byte of a sub-word. */
static uint8_t spare_of(const struct gii_sheet *s)
{
    return (uint8_t)~((1u << ((stored(s) - 1) % 8 + 1)) - 1);
}

/* A page of an accepted sheet: its spare bits cleared; in one sub-word of `left` none of them, in one of `left` any. */
static void clear_spare(const struct gii_sheet *s, struct buffer page, uint32_t left)
{
    size_t word = (stored(s) + 7) / 8;
    for (size_t i = word; i <= page.length; i += word)
        if (!once_in(left))
            page.bytes[i - 1] &= (uint8_t)~(spare_of(s) & (once_in(left) ? any() : 255));
}

/* Whether every coefficient of a page of exact length is 1. */
static int blank(const struct gii_sheet *s, struct buffer page)
{
    size_t word = page.length / s->m;
    for (size_t i = 0; i < page.length; i++)
        if ((page.bytes[i] | ((i + 1) % word ? 0 : spare_of(s))) != 255)
            return 0;
    return 1;
}

/* Whether a spare bit of it is. */
static int stray(const struct gii_sheet *s, struct buffer page)
{
    size_t word = page.length / s->m;
    for (size_t i = word; i <= page.length; i += word)
        if (page.bytes[i - 1] & spare_of(s))
            return 1;
    return 0;
}

/* The blocks of a sheet in which every data bit is 1, by the quote; the sizes are in range. */
static void ones(const struct gii_sheet *s, struct sizes is, uint8_t *blocks)
{
    uint8_t quote[GII_QUOTE_BYTES];
    if (gii_sheet_quote(s, quote, sizeof quote) != GII_DONE || !fits(s, is, quote)) {
        printf("the quote does not fit the sizes\n");
        exit(1);
    }
    for (uint32_t i = 0; i < s->m; i++) {
        uint32_t bits = gii_number(quote, GII_QUOTE_DATA_BITS(i));
        for (; bits >= 8; bits -= 8)
            *blocks++ = 255;
        if (bits)
            *blocks++ = (uint8_t)((1u << bits) - 1);
    }
}

/* Whether a buffer holds the blocks of ones. */
static int is_ones(const struct gii_sheet *s, struct sizes is, struct buffer b)
{
    uint8_t expected[GII_BLOCKS_MAX];
    if (is.data == 0 || b.length != is.data || !in_range(s, is))
        return 0;
    ones(s, is, expected);
    return memcmp(b.bytes, expected, is.data) == 0;
}

/* A count of pages, and for how many of them there is room: mostly as many, and accepted. */
static uint32_t any_count(uint32_t *room)
{
    uint32_t kind = below(12);
    *room = kind == 0 ? below(20) : kind == 1 ? GII_COUNT_MAX : kind == 2 ? below(GII_COUNT_MAX + 1) : 1 + below(once_in(4) ? GII_COUNT_MAX : 4);
    return kind != 2 ? *room : once_in(2) ? (uint32_t)any() : *room + (1u << below(32));
}

/* Blocks for many pages: each set of ones, of any bytes, or of any data; some with a bit flipped. */
static void fill_many(const struct gii_sheet *s, struct sizes is, struct buffer blocks)
{
    uint8_t used[GII_BLOCKS_MAX];
    ones(s, is, used);
    for (size_t k = 0; k + is.data <= blocks.length; k += is.data) {
        uint32_t kind = below(5);
        for (size_t i = 0; i < is.data; i++)
            blocks.bytes[k + i] = kind == 0 ? used[i] : kind == 1 ? (uint8_t)any() : blocks.bytes[k + i] & used[i];
        if (once_in(8))
            blocks.bytes[k + below(is.data)] ^= (uint8_t)(1u << below(8));
    }
}

/* Whether a call that was done has listed, and written or left, every page as gii_write does; counts what is listed. */
static int as_alone(const struct gii_sheet *s, struct sizes is, uint32_t width, uint32_t count, struct buffer blocks, struct buffer pages, struct buffer list,
                    unsigned long *listed)
{
    for (uint32_t k = 0; k < count; k++) {
        uint8_t *page = malloc(is.page);
        if (!page)
            exit(2);
        memcpy(page, pages.before + k * is.page, is.page);
        uint32_t r = gii_sheet_write(s, width, blocks.bytes + k * is.data, is.data, page, is.page);
        int good = list.bytes[k] == r && memcmp(page, pages.bytes + k * is.page, is.page) == 0;
        good = good && (r == GII_DONE || ((r == GII_STRAY || r == GII_BLANK_BLOCKS) && memcmp(page, pages.before + k * is.page, is.page) == 0));
        free(page);
        if (!good)
            return 0;
        listed[r]++;
    }
    return 1;
}

/* A call of gii_write_many, on sizes that are in range or 0: its answer, and whether all is as it is to be. */
static uint32_t write_many(const struct gii_sheet *s, struct sizes is, unsigned long *listed, int *good)
{
    uint32_t room, count = any_count(&room), width = once_in(9) ? (uint32_t)any() : 1 + below(64), r, first;
    struct buffer blocks = lend(room * (is.data ? is.data : below(100))), pages = lend(room * (is.page ? is.page : below(100))), list = lend(room);
    if (is.data)
        fill_many(s, is, blocks);
    note(blocks);
    note(pages);
    note(list);
    r = gii_sheet_write_many(s, width, count, blocks.bytes, blocks.length, pages.bytes, pages.length, list.bytes, list.length);
    /* What is to come first, where the sheet is accepted. */
    if (width < 1 || width > 64)
        first = GII_WIDTH;
    else if (count < 1 || count > GII_COUNT_MAX)
        first = GII_INDEX;
    else if (blocks.length != (size_t)count * is.data)
        first = GII_BLOCKS;
    else if (pages.length != (size_t)count * is.page)
        first = GII_PAGE;
    else
        first = list.length != count ? GII_LIST : GII_DONE;
    *good = kept(blocks) && (is.page ? r == first : r >= GII_FIELD && (r <= GII_CLASH || r == GII_SHORTENING));
    *good = *good && (r == GII_DONE ? as_alone(s, is, width, count, blocks, pages, list, listed) : kept(pages) && kept(list));
    give_back(blocks);
    give_back(pages);
    give_back(list);
    return r;
}

/* The data bits of a block by the quote of an accepted sheet; 0 past the last block. */
static uint32_t data_bits(const uint8_t *quote, uint32_t block)
{
    return block < 8 ? gii_number(quote, GII_QUOTE_DATA_BITS(block)) : 0;
}

/* The page of blocks that are 0 but for one bit, which the quote says there is. */
static void page_of_bit(const struct gii_sheet *s, struct sizes is, const uint8_t *quote, uint32_t block, uint32_t bit, uint8_t *page)
{
    uint8_t blocks[GII_BLOCKS_MAX] = {0};
    size_t start = 0;
    for (uint32_t i = 0; i < block; i++)
        start += (data_bits(quote, i) + 7) / 8;
    blocks[start + bit / 8] = (uint8_t)(1u << bit % 8);
    if (gii_sheet_write(s, 1 + below(64), blocks, is.data, page, is.page) != GII_DONE) {
        printf("blocks with one bit are not written\n");
        exit(1);
    }
}

/* Adds a page to another. */
static void add(uint8_t *page, const uint8_t *other, size_t length)
{
    for (size_t i = 0; i < length; i++)
        page[i] ^= other[i];
}

/* A page of exact length to be altered: a blank one; one that the bit makes blank, where there is a `single`; a member, of
 * any data or, but for one bit, of ones; or as it is. Spare bits are mostly cleared. */
static void fill_page(const struct gii_sheet *s, struct sizes is, const uint8_t *single, struct buffer page)
{
    uint32_t kind = below(6);
    uint8_t blocks[GII_BLOCKS_MAX];
    if (kind < 2)
        memset(page.bytes, 255, page.length);
    if (kind == 2 || kind == 3) {
        uint32_t any_data = once_in(2);
        ones(s, is, blocks);
        for (size_t i = 0; any_data && i < is.data; i++)
            blocks[i] &= (uint8_t)any();
        if (!any_data)
            blocks[0] ^= 1;
        (void)gii_sheet_write(s, 64, blocks, is.data, page.bytes, page.length);
    }
    clear_spare(s, page, 20);
    if (kind == 1 && single)
        add(page.bytes, single, page.length);
}

/* A call of gii_alter, on sizes that are in range or 0: its answer, and whether all is as it is to be; counts the pages that
 * are changed, and those that stay. */
static uint32_t alter(const struct gii_sheet *s, struct sizes is, unsigned long *altered, int *good)
{
    struct buffer page = lend(is.page ? is.page : below(5000));
    uint8_t quote[GII_QUOTE_BYTES] = {0}, single[GII_PAGE_MAX], expected[GII_PAGE_MAX];
    uint32_t block = below(8), bit = below(5000), value = below(2), bits, r, first;
    int exact = is.page && page.length == is.page, there;
    if (is.page && (gii_sheet_quote(s, quote, sizeof quote) != GII_DONE || !fits(s, is, quote))) {
        printf("the quote does not fit the sizes\n");
        exit(1);
    }
    if (is.page && !once_in(9))
        block = below(s->m);
    if (once_in(30))
        block = (uint32_t)any();
    bits = data_bits(quote, block);
    if (bits && !once_in(9))
        bit = once_in(4) ? bits - 1 : below(bits);
    else if (once_in(2))
        bit = once_in(2) ? bits : (uint32_t)any();
    if (once_in(20))
        value = once_in(2) ? 2 : (uint32_t)any();
    there = bit < bits && value < 2;
    if (exact) {
        if (there)
            page_of_bit(s, is, quote, block, bit, single);
        fill_page(s, is, there ? single : NULL, page);
        memcpy(expected, page.bytes, page.length);
    }
    note(page);
    /* What is to come, where the sheet is accepted. */
    if (!exact)
        first = GII_PAGE;
    else if (stray(s, page))
        first = GII_STRAY;
    else if (!there)
        first = GII_INDEX;
    else {
        struct buffer made = {expected, expected, page.length};
        uint32_t at = stored(s) - bits + bit;
        if ((expected[block * (is.page / s->m) + at / 8] >> at % 8 & 1) != value)
            add(expected, single, page.length);
        first = blank(s, made) ? GII_BLANK_BLOCKS : GII_DONE;
    }
    r = gii_sheet_alter(s, page.bytes, page.length, block, bit, value);
    *good = is.page ? r == first : r >= GII_FIELD && (r <= GII_CLASH || r == GII_SHORTENING);
    *good = *good && (r == GII_DONE ? memcmp(page.bytes, expected, page.length) == 0 : kept(page));
    if (r == GII_DONE)
        altered[kept(page)]++;
    give_back(page);
    return r;
}

/* The field polynomials, by q. */
static uint32_t polynomial(uint32_t q)
{
    return q == 4 ? 0x13 : q == 8 ? 0x11D : 0x1053;
}

/* A polynomial of up to 32 coefficients modulo that of the field. */
static uint32_t reduced(uint32_t q, uint32_t number)
{
    for (uint32_t k = 31; k >= q; k--)
        if (number >> k & 1)
            number ^= polynomial(q) << (k - q);
    return number;
}

/* Whether all syndromes, which were made of t odd ones, are those and squares. */
static int as_squares(uint32_t q, uint32_t t, const uint8_t *odd, const uint8_t *all)
{
    for (uint32_t j = 0; j < 2 * t; j++) {
        uint32_t root = gii_number(all, j / 2), spread = 0;
        for (uint32_t k = 0; j % 2 && k < 16; k++)
            spread |= (root >> k & 1) << 2 * k;
        if (gii_number(all, j) != (j % 2 ? reduced(q, spread) : gii_number(odd, j / 2)))
            return 0;
    }
    return 1;
}

/* The value at alpha^j of the sum over the sub-words from `first` to `last` of x^(l i) c_i, place by place. */
static uint32_t value_at(const struct gii_sheet *s, struct buffer page, uint32_t first, uint32_t last, uint32_t l, uint32_t j)
{
    uint32_t n = ((uint32_t)1 << s->q) - 1, step = 1, sum = 0;
    for (uint32_t k = 0; k < j; k++)
        step = reduced(s->q, step << 1);
    for (uint32_t i = first; i <= last; i++) {
        const uint8_t *word = page.bytes + i * (page.length / s->m);
        uint32_t power = 1;
        for (uint32_t k = 0; k < j * l * i % n; k++)
            power = reduced(s->q, power << 1);
        for (uint32_t k = 0; k < stored(s); k++) {
            uint32_t product = 0;
            if (word[k / 8] >> k % 8 & 1)
                sum ^= power;
            for (uint32_t b = 0; b < s->q; b++)
                product ^= (power >> b & 1) * (step << b);
            power = reduced(s->q, product);
        }
    }
    return sum;
}

/* Whether all syndromes from a list of odd ones that a call has given of a page are squares, and one of them, drawn, is the
 * value of the word: sub-word `index`, or nested word `index`. */
static int as_summed(const struct gii_sheet *s, struct buffer page, int nested, uint32_t index, const uint8_t *odd)
{
    uint32_t level = nested ? s->v - index : 0, t = s->t[level], j = 1 + below(2 * t);
    uint8_t all[GII_ALL_MAX];
    if (gii_sheet_all_syndromes(s, level, odd, GII_LIST_BYTES(t), all, GII_ALL_BYTES(t)) != GII_DONE || !as_squares(s->q, t, odd, all))
        return 0;
    /* Those of q = 12 take longest. */
    if (s->q == 12 && !once_in(4))
        return 1;
    return gii_number(all, j - 1) == (nested ? value_at(s, page, 0, s->m - 1, index, j) : value_at(s, page, index, index, 0, j));
}

/* A call of gii_all_syndromes, on sizes that are in range or 0: its answer, and whether all is as it is to be. */
static uint32_t all_syndromes(const struct gii_sheet *s, struct sizes is, int *good)
{
    uint32_t level = is.page && !once_in(9) ? below(s->v + 1) : once_in(3) ? (uint32_t)any() : below(6), r, first;
    uint32_t t = level < 4 ? s->t[level] % 100 : below(70);
    struct buffer odd = lend(GII_LIST_BYTES(t)), list = lend(GII_ALL_BYTES(t));
    note(odd);
    note(list);
    /* What is to come, where the sheet is accepted. */
    if (level > s->v)
        first = GII_INDEX;
    else
        first = odd.length != GII_LIST_BYTES(t) || list.length != GII_ALL_BYTES(t) ? GII_LIST : GII_DONE;
    r = gii_sheet_all_syndromes(s, level, odd.bytes, odd.length, list.bytes, list.length);
    *good = kept(odd) && (is.page ? r == first : r >= GII_FIELD && (r <= GII_CLASH || r == GII_SHORTENING));
    *good = *good && (r == GII_DONE ? as_squares(s->q, t, odd.bytes, list.bytes) : kept(list));
    give_back(odd);
    give_back(list);
    return r;
}

/* Whether the syndromes of a sub-word of a page, of exact length and without stray bits, are 0. */
static int without_syndromes(const struct gii_sheet *s, const uint8_t *page, size_t length, uint32_t index)
{
    uint8_t list[GII_LIST_MAX];
    size_t bytes = GII_LIST_BYTES(s->t[0]);
    if (gii_sheet_syndromes(s, page, length, index, list, bytes) != GII_DONE) {
        printf("the syndromes of a page are refused\n");
        exit(1);
    }
    for (size_t i = 0; i < bytes; i++)
        if (list[i])
            return 0;
    return 1;
}

/* Flips some places of a sub-word, none, few or more than t; the number of those that are flipped in the end. */
static uint32_t damage(const struct gii_sheet *s, struct buffer page, uint32_t index, uint32_t t)
{
    uint8_t flipped[GII_PAGE_MAX] = {0}, *word = page.bytes + index * (page.length / s->m);
    uint32_t count = 0;
    for (uint32_t k = once_in(4) ? 0 : once_in(3) ? t : below(t + 3); k; k--) {
        uint32_t at = below(stored(s)), bit = 1u << at % 8;
        count += flipped[at / 8] & bit ? (uint32_t)-1 : 1;
        flipped[at / 8] ^= (uint8_t)bit;
        word[at / 8] ^= (uint8_t)bit;
    }
    return count;
}

/* Whether a call that was done has listed what it has flipped, rising, and nothing else, and has made the sub-word right. */
static int as_listed(const struct gii_sheet *s, struct buffer page, struct buffer places, uint32_t flips, uint32_t index)
{
    uint8_t *word = page.before + index * (page.length / s->m);
    if (flips > s->t[0])
        return 0;
    for (uint32_t k = 0; k < s->t[0]; k++) {
        uint32_t at = gii_number(places.bytes, k);
        if (k >= flips ? at != GII_NO_PLACE : at >= stored(s) || (k && at <= gii_number(places.bytes, k - 1)))
            return 0;
        if (k < flips)
            word[at / 8] ^= (uint8_t)(1u << at % 8);
    }
    return kept(page) && without_syndromes(s, page.bytes, page.length, index);
}

/* A call of gii_mend, on sizes that are in range or 0: its answer, and whether all is as it is to be; counts the sub-words
 * that are without a flip, and those with some. */
static uint32_t mend(const struct gii_sheet *s, struct sizes is, unsigned long *mended, int *good)
{
    struct buffer page = lend(is.page ? is.page : below(5000)), places = lend(GII_PLACES_BYTES(s->t[0] % 100));
    struct buffer flips = {malloc(1), malloc(1), 1};
    uint8_t undamaged[GII_PAGE_MAX];
    uint32_t index = is.page && !once_in(9) ? below(s->m) : once_in(3) ? (uint32_t)any() : below(10), r, first;
    int exact = is.page && page.length == is.page, known = 0;
    if (!flips.bytes || !flips.before)
        exit(2);
    *flips.bytes = (uint8_t)any();
    if (exact) {
        fill_page(s, is, NULL, page);
        if (index < s->m && !stray(s, page)) {
            known = without_syndromes(s, page.bytes, page.length, index);
            memcpy(undamaged, page.bytes, page.length);
            known = damage(s, page, index, s->t[0]) <= s->t[0] && known;
        }
    }
    note(page);
    note(places);
    note(flips);
    /* What is to come, where the sheet is accepted; done, or refused by 15, where none of these is. */
    if (!exact)
        first = GII_PAGE;
    else if (stray(s, page))
        first = GII_STRAY;
    else if (index >= s->m)
        first = GII_INDEX;
    else
        first = places.length != GII_PLACES_BYTES(s->t[0]) ? GII_LIST : GII_DONE;
    r = gii_sheet_mend(s, page.bytes, page.length, index, places.bytes, places.length, flips.bytes);
    if (!is.page)
        *good = r >= GII_FIELD && (r <= GII_CLASH || r == GII_SHORTENING);
    else
        *good = r == first || (first == GII_DONE && r == GII_UNMENDED && !known);
    if (*good && r == GII_DONE) {
        mended[*flips.bytes > 0]++;
        *good = (!known || memcmp(page.bytes, undamaged, page.length) == 0) && as_listed(s, page, places, *flips.bytes, index);
    } else
        *good = *good && kept(page) && kept(places) && kept(flips);
    give_back(page);
    give_back(places);
    give_back(flips);
    return r;
}

/* Whether a page that was mended, or refused by 17, is what mend gives of its sub-words, but for those that it refuses: none of
 * them, or no more than v, where it is mended. */
static int as_alone_mended(const struct gii_sheet *s, struct buffer page, uint32_t r)
{
    uint8_t alone[GII_PAGE_MAX], places[GII_PLACES_MAX], flips;
    size_t word = page.length / s->m;
    uint32_t broken = 0, i, number;
    int alike = 1;
    memcpy(alone, page.before, page.length);
    for (i = 0; i < s->m; i++) {
        number = gii_sheet_mend(s, alone, page.length, i, places, GII_PLACES_BYTES(s->t[0]), &flips);
        broken += number == GII_UNMENDED;
        alike = alike && (number == GII_DONE || number == GII_UNMENDED);
        alike = alike && (r != GII_DONE || (memcmp(page.bytes + i * word, alone + i * word, word) == 0) == (number == GII_DONE));
    }
    if (broken == 0)
        alike = alike && (r == GII_DONE) == (gii_sheet_judge(s, alone, page.length) == GII_MEMBER);
    return alike && (r != GII_DONE || (broken <= s->v && gii_sheet_judge(s, page.bytes, page.length) == GII_MEMBER));
}

/* A call of gii_mend_page, on sizes that are in range or 0: its answer, and whether all is as it is to be; counts the pages
 * that are without a flip, and those with some. */
static uint32_t mend_page(const struct gii_sheet *s, struct sizes is, unsigned long *mended, int *good)
{
    struct buffer page = lend(is.page ? is.page : below(5000));
    uint8_t undamaged[GII_PAGE_MAX];
    int exact = is.page && page.length == is.page, known = 0;
    uint32_t r, first, i, t;
    if (exact) {
        fill_page(s, is, NULL, page);
        if (!stray(s, page)) {
            known = gii_sheet_judge(s, page.bytes, page.length) == GII_MEMBER;
            memcpy(undamaged, page.bytes, page.length);
            /* In some sub-words as many as a higher level corrects. */
            for (i = 0; i < s->m; i++) {
                t = once_in(3) ? s->t[below(s->v + 1)] : s->t[0];
                known = damage(s, page, i, t) <= s->t[0] && known;
            }
        }
    }
    note(page);
    /* What is to come, where the sheet is accepted; done, or refused by 17, where none of these is. */
    first = !exact ? GII_PAGE : stray(s, page) ? GII_STRAY : GII_DONE;
    r = gii_sheet_mend_page(s, page.bytes, page.length);
    if (!is.page)
        *good = r >= GII_FIELD && (r <= GII_CLASH || r == GII_SHORTENING);
    else
        *good = r == first || (first == GII_DONE && r == GII_UNMENDED_PAGE && !known);
    *good = *good && (r == GII_DONE || kept(page)) && (first != GII_DONE || as_alone_mended(s, page, r));
    *good = *good && (!known || memcmp(page.bytes, undamaged, page.length) == 0);
    if (r == GII_DONE)
        mended[!kept(page)]++;
    give_back(page);
    return r;
}

static int has_text(uint32_t r)
{
    return strcmp(gii_answer_text(r), gii_answer_text(UINT32_MAX)) != 0;
}

int main(int argc, char **argv)
{
    unsigned long calls = argc > 1 ? strtoul(argv[1], NULL, 10) : 10000;
    uint64_t seed = argc > 2 ? strtoull(argv[2], NULL, 10) : 1;
    unsigned long answers[128] = {0}, listed[GII_BLANK_BLOCKS + 1] = {0}, altered[2] = {0}, mended[2] = {0}, pages[2] = {0};
    state = seed * 0x9E3779B97F4A7C15u + 1;
    for (unsigned long k = 0; k < calls; k++) {
        struct gii_sheet s = any_sheet();
        struct sizes is = {gii_sheet_page_bytes(&s), gii_sheet_data_bytes(&s), gii_sheet_distance(&s)};
        size_t exact = is.page ? is.page : below(5000);
        uint32_t index = below(10), level = s.t[index <= s.v && s.v < 4 ? s.v - index : 0] % 100;
        int call = (int)below(11), sized = in_range(&s, is), good;
        size_t list = call == 5 ? GII_QUOTE_BYTES : GII_LIST_BYTES(call == 3 ? s.t[0] % 100 : level);
        struct buffer page = lend(exact), other = lend(call < 2 ? is.data : list);
        uint32_t r;
        if (call && sized && is.page) {
            int ones = once_in(6);
            if (ones)
                memset(page.bytes, 255, page.length);
            clear_spare(&s, page, ones ? 2 : 20);
            if (ones && once_in(3))
                flip_any(page);
        } else if (sized && is.data && other.length == is.data && once_in(4)) {
            ones(&s, is, other.bytes);
            if (once_in(3))
                flip_any(other);
        }
        note(page);
        note(other);
        int paged = sized && is.page && page.length == is.page;
        int erased = paged && blank(&s, page), spare = paged && stray(&s, page);
        switch (call) {
        case 0:
            r = gii_sheet_write(&s, once_in(9) ? (uint32_t)any() : below(66), other.bytes, other.length, page.bytes, page.length);
            good = kept(other) && (r == 0 || kept(page));
            good = good && (refused(r) || (paged && r == (s.s == 0 && is_ones(&s, is, other) ? GII_BLANK_BLOCKS : GII_DONE)));
            break;
        case 1:
            r = gii_sheet_read_out(&s, page.bytes, page.length, other.bytes, other.length);
            good = kept(page) && (refused(r) ? kept(other) : verdict(r) && (erased || !spare));
            good = good && (r == GII_BLANK ? erased && is_ones(&s, is, other) : !erased || r == GII_BLOCKS);
            break;
        case 2:
            r = gii_sheet_judge(&s, page.bytes, page.length);
            good = kept(page) && (refused(r) || (verdict(r) && (erased || !spare))) && (r == GII_BLANK) == erased;
            break;
        case 3:
            r = gii_sheet_syndromes(&s, page.bytes, page.length, index, other.bytes, other.length);
            good = kept(page) && (r == 0 ? paged && !spare && other.length == list && as_summed(&s, page, 0, index, other.bytes) : refused(r) && kept(other));
            break;
        case 4:
            r = gii_sheet_nested_syndromes(&s, page.bytes, page.length, index, other.bytes, other.length);
            good = kept(page) && (r == 0 ? paged && !spare && other.length == list && as_summed(&s, page, 1, index, other.bytes) : refused(r) && kept(other));
            break;
        case 5:
            r = gii_sheet_quote(&s, other.bytes, other.length);
            good = r == 0 ? sized && is.page && other.length == GII_QUOTE_BYTES && fits(&s, is, other.bytes)
                          : kept(other) && (is.page ? r == GII_LIST && other.length != GII_QUOTE_BYTES : r <= GII_CLASH || r == GII_SHORTENING);
            break;
        case 6:
            r = write_many(&s, is, listed, &good);
            break;
        case 7:
            r = alter(&s, is, altered, &good);
            break;
        case 8:
            r = mend(&s, is, mended, &good);
            break;
        case 9:
            r = mend_page(&s, is, pages, &good);
            break;
        default:
            r = all_syndromes(&s, is, &good);
            break;
        }
        /* 14 comes before all but 1 to 4, which the quote of full sub-words has too. */
        good = good && (r == GII_SHORTENING) == (most(&s) >= 0 && is.page == 0);
        good = good && sized && has_text(r);
        good = good && (call >= 6 || (!(r == GII_PAGE && page.length == is.page) && !(r == GII_BLOCKS && other.length == is.data)));
        if (!good) {
            printf("call %lu of seed %llu: %d answers %u (%s) for q %u m %u v %u t %u %u %u %u s %u, sizes %u %u %u\n", k, (unsigned long long)seed, call, r,
                   gii_answer_text(r), s.q, s.m, s.v, s.t[0], s.t[1], s.t[2], s.t[3], s.s, is.page, is.data, is.distance);
            give_back(page);
            give_back(other);
            return 1;
        }
        answers[r & 127]++;
        give_back(page);
        give_back(other);
    }
    printf("%lu calls from C, seed %llu, answers", calls, (unsigned long long)seed);
    for (int i = 0; i < 128; i++)
        if (answers[i])
            printf(" %d: %lu", i, answers[i]);
    printf("; of many pages listed");
    for (int i = 0; i <= GII_BLANK_BLOCKS; i++)
        if (listed[i])
            printf(" %d: %lu", i, listed[i]);
    printf("; altered pages %lu, left as they were %lu", altered[0], altered[1]);
    printf("; mended sub-words %lu, without a flip %lu", mended[1], mended[0]);
    printf("; mended pages %lu, without a flip %lu\n", pages[1], pages[0]);
    return 0;
}
