/* Bytes that lead far into some call: lengths of 2^64 - 1, the most records, sets in sets, long runs of items. Each buffer is made
 * and handed to a function. Nothing here calls libc. */
#ifndef BRINE_HOSTILE_H
#define BRINE_HOSTILE_H

#include "calls.h"

#define KEY 0x06, 0x0e, 0x2b, 0x34
#define MINI KEY, 0x02, 0x43, 0x01, 0x01, 0x0d, 0x01, 0x03, 0x01, 0x04, 0x01, 0x03, 0x01
#define ALEXA KEY, 0x01, 0x02, 0x01, 0x01, 0x0d, 0x01, 0x03, 0x01, 0x17, 0x01, 0x0f, 0x00
#define SONY KEY, 0x01, 0x02, 0x01, 0x01, 0x0d, 0x01, 0x03, 0x01, 0x17, 0x01, 0x02, 0x01
#define PRIVATE KEY, 0x01, 0x01, 0x01, 0x0d, 0x0e, 0x15, 0x00, 0x01, 0x00, 0x01, 0x00, 0x00
#define LENS KEY, 0x02, 0x53, 0x01, 0x01, 0x0c, 0x02, 0x01, 0x01, 0x01, 0x01, 0x00, 0x00
#define ITEM KEY, 0x01, 0x01, 0x01, 0x0e, 0x0e, 0x17, 0x01, 0x02, 0x0d
#define LARGEST 0x88, 0xff, 0xff, 0xff, 0xff, 0xff, 0xff, 0xff, 0xff

/* Beginnings, each copied up to the last byte. */
static const struct {
    size_t length;
    uint8_t beginning[64];
} hostile[] = {
    {1, {0x00}},
    {1, {0xff}},
    {3, {0x06, 0x0e, 0x2b}},
    {4, {0x06, 0x0e, 0x2c, 0x34}},
    {24, {KEY, 0x80, 0x80, 0x80, 0x80, 0x80, 0x80, 0x80, 0x80, 0x80, 0x80, 0x80, 0x80, 0xff}},
    {50, {KEY, 0, 0, 0, 0, 0, 0, 0, 0, 0, 0, 0, 0, 0x89}},
    {25, {SONY, LARGEST}},
    {17, {SONY, 0x00}},
    {17, {MINI, 0x00}},
    {62, {MINI, 0x2d}},
    {62, {KEY, 0x02, 0x13, 0x01, 0x01, 0x0d, 0x01, 0x01, 0x01, 0x01, 0x01, 0x2f, 0x00, 0x2d}},
    {40, {MINI, 0x17, 0x88, 0x00, 0x14, LENS, 0x03, 0x82, 0x00}},
    {38, {ALEXA, 0x84, 0xff, 0xff, 0xff, 0xff, ITEM, 0x05, 0x00, 0x00}},
    {21, {ITEM, 0x03, 0x00, 0x00, 0x04, 0x00, 0x00, 0x10, 0x00}},
    {25, {ITEM, 0x01, 0x00, 0x00, 0x08, 0x00, 0x00, 0x00, 0x01, 0x00, 0x00, 0x00, 0x03}},
    {20, {0x88, 0x00, 0x11, PRIVATE, 0x00}},
    {20, {0x88, 0xff, 0xff, PRIVATE, 0x00}},
    {20, {0x88, 0x00, 0x11, LENS, 0x00}},
    {12, {0x30, 0x01, 0x00, 0x08, 0x00, 0x00, 0x00, 0x32, 0x00, 0x00, 0x00, 0x03}},
    {12, {0x15, 0x01, 0x00, 0x08, 0xff, 0xff, 0xff, 0xff, 0xff, 0xff, 0xff, 0xfe}},
    {4, {0x30, 0x01, 0x00, 0x00}},
    {20, {0xff, 0xff, 0x00, 0x09, 0x00, 0x00, 0x00, 0x06, 0x00, 0x00, 0x00, 0x06, 0x00, 0x00, 0x00, 0x01, 0x43, 0x05, 0x00, 0x00}},
    {14, {0xff, 0xff, 0x00, 0x09, 0x02, 0x04}},
    {18, {0x00, 0x00, 0x00, 0x01, 0x00, 0x00, 0x00, 0x12, KEY, 0x01, 0x01, 0x01, 0x0d, 0x0e, 0x15}},
    {41, {KEY, 0x02, 0x05, 0x01, 0x01, 0x0d, 0x01, 0x02, 0x01, 0x01, 0x02, 0x04, 0x00, 0x28, 0xff, 0xff, 0xff, 0xff, 0xff}},
    {6, {0xff, 0x05, 0x00, 0x1c, 0x00, 0x0a}},
    {6, {0xff, 0x12, 0x80, 0x00, 0x80, 0x05}},
};

/* Fills the bytes with copies of a beginning. */
static void fill(const uint8_t *beginning, size_t length)
{
    for (size_t i = 0; i < size; i++)
        bytes[i] = beginning[i % length];
}

/* Sets with a run that has a set with a run again, each up to the last byte of its block. */
static void nested(void)
{
    static const uint8_t set[16] = {MINI};
    const size_t block = size < 60000 ? size : 60000;
    fill((const uint8_t[1]){0}, 1);
    for (size_t at = 0; at + 22 <= size; at += 22) {
        const size_t left = block - at % block;
        if (left < 22)
            continue;
        const uint8_t lengths[] = {0x82, (left - 19) >> 8, left - 19, 0x88, (left - 22) >> 8, left - 22};
        for (size_t i = 0; i < 22; i++)
            bytes[at + i] = i < 16 ? set[i] : lengths[i - 16];
    }
}

/* A set of all the bytes, of items that have values. */
static void one_set(void)
{
    static const uint8_t item[21] = {ITEM, 0x03, 0x00, 0x00, 0x04, 0x00, 0x00, 0x10, 0x00};
    fill(item, 21);
    bytes[16] = 0x84;
    bytes[17] = 0;
    bytes[18] = (size - 21) >> 16;
    bytes[19] = (size - 21) >> 8;
    bytes[20] = size - 21;
}

/* Records of ever other labels. */
static void labels(void)
{
    static const uint8_t record[17] = {KEY};
    fill(record, 17);
    for (size_t i = 0; i + 17 <= size; i += 17) {
        bytes[i + 8] = i >> 16;
        bytes[i + 9] = i >> 8;
        bytes[i + 10] = i;
    }
}

/* Bytes drawn from a seed: any, or in 7 of 8 blocks of 64 the pair that the search looks for. */
static void drawn(int pairs)
{
    uint32_t seed = 1;
    for (size_t i = 0; i < size; i++) {
        seed ^= seed << 13;
        seed ^= seed >> 17;
        seed ^= seed << 5;
        bytes[i] = pairs ? 0 : seed;
        if (pairs && i % 64 == 2 && seed % 8 != 0) {
            bytes[i - 2] = 0x0e;
            bytes[i] = 0x34;
        }
    }
}

/* How many buffers each_buffer hands over: so many kinds, each with every shape. */
enum { KINDS = sizeof hostile / sizeof *hostile + 5, BUFFERS = 3 * KINDS };

/* The shapes of a frame that brine_arri_values is asked for, and the one that it is asked for now. */
static const uint64_t shapes[3][4] = {{0, 17, 8192, 0}, {0, 17, UINT64_MAX, 0}, {UINT64_MAX, UINT64_MAX, UINT64_MAX, 0}};
static int shape;

/* Hands a buffer over, with each shape of a frame. */
static void shaped(void (*measured)(void))
{
    for (size_t i = 0; i < size; i++)
        other[i] = bytes[i];
    for (shape = 0; shape < 3; shape++) {
        for (int i = 0; i < 4; i++)
            frame[i] = shapes[shape][i];
        measured();
    }
}

/* Every buffer of so many bytes. */
static void each_buffer(void (*measured)(void))
{
    for (size_t i = 0; i < sizeof hostile / sizeof *hostile; i++) {
        fill(hostile[i].beginning, hostile[i].length);
        shaped(measured);
    }
    nested();
    shaped(measured);
    one_set();
    shaped(measured);
    labels();
    shaped(measured);
    for (int pairs = 0; pairs < 2; pairs++) {
        drawn(pairs);
        shaped(measured);
    }
}

#endif
