/* Makes bitmaps of raw grayscale images as a plain C program would: the measure for `gray`.
 *
 *     plain_gray SCANS > FILE
 *
 * SCANS has raw PGM images one after another, without comments, of at most 4096 pixels each way and a greatest value
 * of at most 255, and at most 64 MB in all. A pixel is dark where twice its value is less than the greatest value of its tile of
 * 64 by 64 pixels and the tiles round it. The greatest value of each tile is found first, then that of each tile with
 * its neighbours, and then rows are packed, eight pixels at a time. Ends with 1 where the input isn't as it says.
 */
#include <stdint.h>
#include <stdio.h>
#include <stdlib.h>
#include <string.h>

enum { SIDE = 4096, TILE = 64, TILES = SIDE / TILE };

static uint8_t tops[TILES][TILES];
static uint8_t halves[TILES][TILES];
static uint8_t bits[SIDE * SIDE / 8];

static int least(int a, int b)
{
    return a < b ? a : b;
}

/* The greatest of some values. */
static uint8_t greatest(const uint8_t *values, int size)
{
    uint8_t top = 0;
    for (int x = 0; x < size; x++)
        top = values[x] > top ? values[x] : top;
    return top;
}

/* The greatest value of each tile. */
static void find_tops(const uint8_t *values, int width, int height)
{
    memset(tops, 0, sizeof tops);
    for (int v = 0; v < height; v++) {
        const uint8_t *row = values + (size_t)v * width;
        uint8_t *band = tops[v / TILE];
        for (int u = 0; u < width; u += TILE) {
            uint8_t top = u + TILE <= width ? greatest(row + u, TILE) : greatest(row + u, width - u);
            if (top > band[u / TILE])
                band[u / TILE] = top;
        }
    }
}

/* Half of the greatest value of each tile and its neighbours, rounded up. */
static void find_halves(int across, int down)
{
    for (int y = 0; y < down; y++)
        for (int x = 0; x < across; x++) {
            int top = 0;
            for (int j = y > 0 ? y - 1 : 0; j <= least(y + 1, down - 1); j++)
                for (int i = x > 0 ? x - 1 : 0; i <= least(x + 1, across - 1); i++)
                    top = tops[j][i] > top ? tops[j][i] : top;
            halves[y][x] = (uint8_t)((top + 1) / 2);
        }
}

/* Eight pixels as a byte. */
static uint8_t byte(const uint8_t *row, int half)
{
    return (uint8_t)((row[0] < half) << 7 | (row[1] < half) << 6 | (row[2] < half) << 5 | (row[3] < half) << 4
        | (row[4] < half) << 3 | (row[5] < half) << 2 | (row[6] < half) << 1 | (row[7] < half));
}

/* The rows of the bitmap. */
static size_t pack(const uint8_t *values, int width, int height)
{
    uint8_t *at = bits;
    for (int v = 0; v < height; v++) {
        const uint8_t *row = values + (size_t)v * width;
        int u = 0;
        for (; u + 8 <= width; u += 8)
            *at++ = byte(row + u, halves[v / TILE][u / TILE]);
        if (u < width) {
            uint8_t rest[8];
            memset(rest, 255, sizeof rest);
            memcpy(rest, row + u, (size_t)(width - u));
            *at++ = byte(rest, halves[v / TILE][u / TILE]);
        }
    }
    return (size_t)(at - bits);
}

/* The bits of a page: how many bytes they are. The name is what the measurement counts within. */
__attribute__((noinline)) size_t plain_bits(const uint8_t *values, int width, int height)
{
    find_tops(values, width, height);
    find_halves((width + TILE - 1) / TILE, (height + TILE - 1) / TILE);
    return pack(values, width, height);
}

/* All bytes of a file, and a 0 behind them. */
static uint8_t *all(const char *name, size_t *size)
{
    FILE *file = fopen(name, "rb");
    if (!file)
        return NULL;
    fseek(file, 0, SEEK_END);
    *size = (size_t)ftell(file);
    rewind(file);
    uint8_t *text = calloc(*size + 1, 1);
    if (text && fread(text, 1, *size, file) != *size)
        *size = 0;
    fclose(file);
    return text;
}

int main(int argc, char **argv)
{
    size_t size = 0, at = 0;
    uint8_t *text = argc == 2 ? all(argv[1], &size) : NULL;
    while (text && at < size) {
        int width, height, maxval, header;
        if (sscanf((const char *)text + at, "P5 %d %d %d%n", &width, &height, &maxval, &header) != 3)
            return 1;
        if (width < 1 || height < 1 || width > SIDE || height > SIDE || maxval < 1 || maxval > 255)
            return 1;
        at += (size_t)header + 1;
        if (at > size || size - at < (size_t)width * height)
            return 1;
        size_t made = plain_bits(text + at, width, height);
        printf("P4\n%d %d\n", width, height);
        fwrite(bits, 1, made, stdout);
        at += (size_t)width * height;
    }
    return text ? 0 : 1;
}
