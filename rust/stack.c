/*
 * How much stack each call takes, on the largest sheet and on shortened ones: a thread on a painted stack. Prints the most of
 * all sheets. Fails above 128 KiB for write of many pages, above 64 KiB for mend, above 96 KiB for mend page, and above 32 KiB for every
 * other call.
 */
#define _GNU_SOURCE
#include "gii_bch.h"

#include <pthread.h>
#include <stdio.h>
#include <stdlib.h>
#include <string.h>
#include <sys/mman.h>

#define STACK ((size_t)1 << 20)
#define LIMIT ((size_t)32 * 1024)
#define MANY_LIMIT ((size_t)128 * 1024)
#define MEND_LIMIT ((size_t)64 * 1024)
#define MEND_PAGE_LIMIT ((size_t)96 * 1024)
#define PAINT 0xA5

/* Full sub-words; half of them; a whole number of bytes; the least that is accepted; the most that are flipped. */
static const struct gii_sheet sheets[] = {
    {12, 8, 3, {28, 32, 39, 58}, 0},
    {12, 8, 3, {28, 32, 39, 58}, 1900},
    {12, 4, 1, {4, 12, 0, 0}, 3071},
    {12, 8, 3, {61, 62, 63, 64}, 3332},
    {12, 2, 1, {63, 64, 0, 0}, 0},
    {8, 4, 2, {4, 8, 16, 0}, 100},
    {4, 2, 1, {1, 2, 0, 0}, 6},
};
static struct gii_sheet sheet;
static uint8_t blocks[GII_BLOCKS_MAX], page[GII_PAGE_MAX], erased[GII_PAGE_MAX], back[GII_BLOCKS_MAX], list[GII_LIST_MAX];
static uint8_t all[GII_ALL_MAX];
static uint8_t quote[GII_QUOTE_BYTES], clear[GII_PAGE_MAX], damaged[GII_PAGE_MAX], places[GII_PLACES_MAX], flips;
static uint8_t many_blocks[GII_COUNT_MAX * GII_BLOCKS_MAX], pages[GII_COUNT_MAX * GII_PAGE_MAX], listed[GII_COUNT_MAX];
static size_t blocks_len, page_len;
/* Each call, the answer that is expected of it, the stack that it may take, and the most that it took. */
static struct {
    const char *name;
    uint32_t expected;
    size_t limit, most;
} calls[] = {
    {"nothing", 0, LIMIT, 0},
    {"write, L = 64", GII_DONE, LIMIT, 0},
    {"write, L = 1", GII_DONE, LIMIT, 0},
    {"judge", GII_MEMBER, LIMIT, 0},
    {"read out", GII_MEMBER, LIMIT, 0},
    {"syndromes", GII_DONE, LIMIT, 0},
    {"nested syndromes", GII_DONE, LIMIT, 0},
    {"quote", GII_DONE, LIMIT, 0},
    {"page bytes", 0, LIMIT, 0},
    {"data bytes", 0, LIMIT, 0},
    {"distance", 0, LIMIT, 0},
    {"judge, a blank page", GII_BLANK, LIMIT, 0},
    {"read out, a blank page", GII_BLANK, LIMIT, 0},
    /* Written where s is above 0. */
    {"write, its blocks", GII_BLANK_BLOCKS, LIMIT, 0},
    {"write of 16 pages, L = 64", GII_DONE, MANY_LIMIT, 0},
    {"write of 16 pages, L = 1", GII_DONE, MANY_LIMIT, 0},
    {"alter, the last bit of the last block", GII_DONE, LIMIT, 0},
    {"alter, the first bit of block v", GII_DONE, LIMIT, 0},
    {"alter, the last bit of block 0", GII_DONE, LIMIT, 0},
    {"alter, a blank page", GII_BLANK_BLOCKS, LIMIT, 0},
    {"mend, no flip", GII_DONE, MEND_LIMIT, 0},
    {"mend, t0 / 2 flips", GII_DONE, MEND_LIMIT, 0},
    {"mend, t0 flips", GII_DONE, MEND_LIMIT, 0},
    /* Mended where another multiple of g_0 is near. */
    {"mend, t0 + 5 flips", GII_UNMENDED, MEND_LIMIT, 0},
    {"syndromes, a damaged page", GII_DONE, LIMIT, 0},
    {"nested syndromes, a damaged page", GII_DONE, LIMIT, 0},
    {"all syndromes from the odd ones", GII_DONE, LIMIT, 0},
    {"all syndromes, no elements", GII_DONE, LIMIT, 0},
    {"mend page, no flip", GII_DONE, MEND_PAGE_LIMIT, 0},
    {"mend page, t0 flips in each sub-word", GII_DONE, MEND_PAGE_LIMIT, 0},
    /* Where t0 is small, refused or mended where another multiple of g_0 is near. */
    {"mend page, t_v to t_1 flips in v sub-words", GII_DONE, MEND_PAGE_LIMIT, 0},
    {"mend page, t_v flips in v + 1 sub-words", GII_UNMENDED_PAGE, MEND_PAGE_LIMIT, 0},
};
static size_t call;
static uint32_t answer;

/* A bit of the page, which the quote says there is, altered to its other value. */
static uint32_t alter(uint32_t block, uint32_t bit)
{
    uint32_t at = ((uint32_t)1 << sheet.q) - 1 - sheet.s - gii_number(quote, GII_QUOTE_DATA_BITS(block)) + bit;
    return gii_sheet_alter(&sheet, page, page_len, block, bit, !(page[block * (page_len / sheet.m) + at / 8] >> at % 8 & 1));
}

/* Flips so many places of a sub-word of the damaged page, evenly apart. */
static void flip(uint32_t index, uint32_t count)
{
    uint32_t stored = ((uint32_t)1 << sheet.q) - 1 - sheet.s, k, at;
    for (k = 0; k < count; k++) {
        at = k * stored / count;
        damaged[index * (page_len / sheet.m) + at / 8] ^= (uint8_t)(1u << at % 8);
    }
}

/* The last sub-word of the page mended, with so many flips. */
static uint32_t mend(uint32_t count)
{
    memcpy(damaged, page, page_len);
    flip(sheet.m - 1, count);
    return gii_sheet_mend(&sheet, damaged, page_len, sheet.m - 1, places, GII_PLACES_BYTES(sheet.t[0]), &flips);
}

/* The page mended, with t_v flips in its first sub-word, t_(v-1) in the next and so on, where they fall, and with `few` in those
 * behind the first `beyond`. */
static uint32_t mend_page(uint32_t beyond, int fall, uint32_t few)
{
    memcpy(damaged, page, page_len);
    for (uint32_t i = 0; i < sheet.m; i++)
        flip(i, i < beyond ? sheet.t[fall ? sheet.v - i : sheet.v] : few);
    return gii_sheet_mend_page(&sheet, damaged, page_len);
}

static void *run(void *unused)
{
    (void)unused;
    switch (call) {
    case 0: answer = 0; break;
    case 1: answer = gii_sheet_write(&sheet, 64, blocks, blocks_len, page, page_len); break;
    case 2: answer = gii_sheet_write(&sheet, 1, blocks, blocks_len, page, page_len); break;
    case 3: answer = gii_sheet_judge(&sheet, page, page_len); break;
    case 4: answer = gii_sheet_read_out(&sheet, page, page_len, back, blocks_len); break;
    case 5: answer = gii_sheet_syndromes(&sheet, page, page_len, 0, list, GII_LIST_BYTES(sheet.t[0])); break;
    case 6: answer = gii_sheet_nested_syndromes(&sheet, page, page_len, 0, list, GII_LIST_BYTES(sheet.t[sheet.v])); break;
    case 7: answer = gii_sheet_quote(&sheet, quote, sizeof quote); break;
    /* A size of 0 is a refusal. */
    case 8: answer = gii_sheet_page_bytes(&sheet) == 0; break;
    case 9: answer = gii_sheet_data_bytes(&sheet) == 0; break;
    case 10: answer = gii_sheet_distance(&sheet) == 0; break;
    case 11: answer = gii_sheet_judge(&sheet, erased, page_len); break;
    case 12: answer = gii_sheet_read_out(&sheet, erased, page_len, back, blocks_len); break;
    case 13: answer = gii_sheet_write(&sheet, 64, back, blocks_len, page, page_len); break;
    case 14:
    case 15:
        answer = gii_sheet_write_many(&sheet, call == 14 ? 64 : 1, GII_COUNT_MAX, many_blocks, GII_COUNT_MAX * blocks_len, pages,
                                      GII_COUNT_MAX * page_len, listed, GII_COUNT_MAX);
        break;
    case 16: answer = alter(sheet.m - 1, gii_number(quote, GII_QUOTE_DATA_BITS(sheet.m - 1)) - 1); break;
    case 17: answer = alter(sheet.v, 0); break;
    case 18: answer = alter(0, gii_number(quote, GII_QUOTE_DATA_BITS(0)) - 1); break;
    case 19: answer = gii_sheet_alter(&sheet, clear, page_len, sheet.m - 1, 0, 1); break;
    case 20: answer = mend(0); break;
    case 21: answer = mend(sheet.t[0] / 2); break;
    case 22: answer = mend(sheet.t[0]); break;
    case 23: answer = mend(sheet.t[0] + 5); break;
    case 24: answer = gii_sheet_syndromes(&sheet, damaged, page_len, sheet.m - 1, list, GII_LIST_BYTES(sheet.t[0])); break;
    case 25: answer = gii_sheet_nested_syndromes(&sheet, damaged, page_len, 0, list, GII_LIST_BYTES(sheet.t[sheet.v])); break;
    case 26:
    case 27:
        answer = gii_sheet_all_syndromes(&sheet, sheet.v, call == 26 ? list : erased, GII_LIST_BYTES(sheet.t[sheet.v]), all,
                                         GII_ALL_BYTES(sheet.t[sheet.v]));
        break;
    case 28: answer = mend_page(0, 0, 0); break;
    case 29: answer = mend_page(0, 0, sheet.t[0]); break;
    case 30: answer = mend_page(sheet.v, 1, sheet.t[0]); break;
    case 31: answer = mend_page(sheet.v + 1, 0, sheet.t[0]); break;
    }
    return NULL;
}

/* The bytes of the stack that a thread leaves without their paint. */
static size_t used(void)
{
    uint8_t *stack = mmap(NULL, STACK, PROT_READ | PROT_WRITE, MAP_PRIVATE | MAP_ANONYMOUS, -1, 0);
    pthread_attr_t attr;
    pthread_t thread;
    size_t clean = 0;
    if (stack == MAP_FAILED)
        exit(2);
    memset(stack, PAINT, STACK);
    if (pthread_attr_init(&attr) || pthread_attr_setstack(&attr, stack, STACK) || pthread_create(&thread, &attr, run, NULL) || pthread_join(thread, NULL))
        exit(2);
    while (clean < STACK && stack[clean] == PAINT)
        clean++;
    munmap(stack, STACK);
    return STACK - clean;
}

int main(void)
{
    size_t own = 0;
    int over = 0;
    memset(erased, 0xFF, sizeof erased);
    for (size_t k = 0; k < sizeof sheets / sizeof *sheets; k++) {
        sheet = sheets[k];
        blocks_len = gii_sheet_data_bytes(&sheet);
        page_len = gii_sheet_page_bytes(&sheet);
        /* A blank page without its spare bits. */
        memset(clear, 0xFF, page_len);
        for (size_t end = page_len / sheet.m; end <= page_len; end += page_len / sheet.m)
            clear[end - 1] = (uint8_t)((1u << ((((uint32_t)1 << sheet.q) - 2 - sheet.s) % 8 + 1)) - 1);
        for (call = 0; call < sizeof calls / sizeof *calls; call++) {
            size_t bytes = used();
            if (call == 0)
                own = bytes;
            else if (bytes - own > calls[call].most)
                calls[call].most = bytes - own;
            int other = answer == GII_DONE && ((call == 13 && sheet.s > 0) || call == 23);
            other = other || (call >= 30 && sheet.t[0] < 10 && (answer == GII_DONE || answer == GII_UNMENDED_PAGE));
            if (answer != calls[call].expected && !other) {
                printf("%s answers %u, sheet %zu\n", calls[call].name, (unsigned)answer, k);
                return 1;
            }
        }
    }
    for (call = 1; call < sizeof calls / sizeof *calls; call++) {
        int above = calls[call].most > calls[call].limit;
        printf("stack of %s: %zu bytes%s\n", calls[call].name, calls[call].most, above ? ", above the limit" : "");
        over = over || above;
    }
    return over;
}
