/* Prints the bench election's card as a plain C program would: the measure for `print`.
 *
 *     plain_print TAG PAGES > FILE
 *
 * TAG is the 20-bit election tag in decimal, PAGES an even number of pages up to 62. The pages are
 * those of card 0, kind precinct, of the election that bench/print_ratio writes: each has twelve
 * contests of five options, so 60 bubbles in three columns. Names and titles follow the rules of
 * that script. A page is painted into one buffer, span by span, and written by one fwrite.
 */
#include <stdint.h>
#include <stdio.h>
#include <stdlib.h>
#include <string.h>

enum { WIDTH = 1700, HEIGHT = 2200, STRIDE = (WIDTH + 7) / 8 };
enum { BLOCKS = 12, OPTIONS = 5, BLOCK_ROWS = 7, LINE = 29 };

static const char HEADER[] = "P4\n1700 2200\n";
enum { HEADER_SIZE = sizeof HEADER - 1 };

static const char *const OFFICES[8] = {
    "County Commissioner, District",   "Circuit Judge, Department",
    "Member of the School Board, Area", "Supervisor of Roads and Bridges, Seat",
    "Water District Director, Seat",   "Township Trustee, Ward",
    "Harbor Commissioner, Post",       "Member of the Library Board, Place",
};
static const char *const GIVEN[16] = {
    "Abigail", "Benedict", "Carolina", "Dominic", "Eleanor", "Frederick", "Gwendolyn", "Harrison",
    "Isabella", "Jonathan", "Katherine", "Leonard", "Margaret", "Nathaniel", "Olivia", "Percival",
};
static const char *const FAMILY[16] = {
    "Ashworth", "Blackwood", "Castellano", "Delacroix", "Eastman", "Fitzgerald", "Goldberg", "Hawthorne",
    "Ivanovich", "Jefferson", "Kowalski", "Lindstrom", "Montgomery", "Nakamura", "Okafor", "Pemberton",
};
static const char *const PARTIES[3] = { "Harbor", "Prairie", "Lantern" };

/* Five columns of dots for each of the codes 32 to 126; bit 0 is the top dot. */
static const uint8_t GLYPHS[95][5] = {
    { 0x00, 0x00, 0x00, 0x00, 0x00 }, { 0x00, 0x00, 0x5f, 0x00, 0x00 }, { 0x00, 0x07, 0x00, 0x07, 0x00 },
    { 0x14, 0x7f, 0x14, 0x7f, 0x14 }, { 0x24, 0x2a, 0x7f, 0x2a, 0x12 }, { 0x23, 0x13, 0x08, 0x64, 0x62 },
    { 0x36, 0x49, 0x55, 0x22, 0x50 }, { 0x00, 0x05, 0x03, 0x00, 0x00 }, { 0x00, 0x1c, 0x22, 0x41, 0x00 },
    { 0x00, 0x41, 0x22, 0x1c, 0x00 }, { 0x14, 0x08, 0x3e, 0x08, 0x14 }, { 0x08, 0x08, 0x3e, 0x08, 0x08 },
    { 0x00, 0x50, 0x30, 0x00, 0x00 }, { 0x08, 0x08, 0x08, 0x08, 0x08 }, { 0x00, 0x60, 0x60, 0x00, 0x00 },
    { 0x20, 0x10, 0x08, 0x04, 0x02 }, { 0x3e, 0x51, 0x49, 0x45, 0x3e }, { 0x00, 0x42, 0x7f, 0x40, 0x00 },
    { 0x42, 0x61, 0x51, 0x49, 0x46 }, { 0x21, 0x41, 0x45, 0x4b, 0x31 }, { 0x18, 0x14, 0x12, 0x7f, 0x10 },
    { 0x27, 0x45, 0x45, 0x45, 0x39 }, { 0x3c, 0x4a, 0x49, 0x49, 0x30 }, { 0x01, 0x71, 0x09, 0x05, 0x03 },
    { 0x36, 0x49, 0x49, 0x49, 0x36 }, { 0x06, 0x49, 0x49, 0x29, 0x1e }, { 0x00, 0x36, 0x36, 0x00, 0x00 },
    { 0x00, 0x56, 0x36, 0x00, 0x00 }, { 0x08, 0x14, 0x22, 0x41, 0x00 }, { 0x14, 0x14, 0x14, 0x14, 0x14 },
    { 0x00, 0x41, 0x22, 0x14, 0x08 }, { 0x02, 0x01, 0x51, 0x09, 0x06 }, { 0x32, 0x49, 0x79, 0x41, 0x3e },
    { 0x7e, 0x11, 0x11, 0x11, 0x7e }, { 0x7f, 0x49, 0x49, 0x49, 0x36 }, { 0x3e, 0x41, 0x41, 0x41, 0x22 },
    { 0x7f, 0x41, 0x41, 0x22, 0x1c }, { 0x7f, 0x49, 0x49, 0x49, 0x41 }, { 0x7f, 0x09, 0x09, 0x09, 0x01 },
    { 0x3e, 0x41, 0x49, 0x49, 0x7a }, { 0x7f, 0x08, 0x08, 0x08, 0x7f }, { 0x00, 0x41, 0x7f, 0x41, 0x00 },
    { 0x20, 0x40, 0x41, 0x3f, 0x01 }, { 0x7f, 0x08, 0x14, 0x22, 0x41 }, { 0x7f, 0x40, 0x40, 0x40, 0x40 },
    { 0x7f, 0x02, 0x0c, 0x02, 0x7f }, { 0x7f, 0x04, 0x08, 0x10, 0x7f }, { 0x3e, 0x41, 0x41, 0x41, 0x3e },
    { 0x7f, 0x09, 0x09, 0x09, 0x06 }, { 0x3e, 0x41, 0x51, 0x21, 0x5e }, { 0x7f, 0x09, 0x19, 0x29, 0x46 },
    { 0x46, 0x49, 0x49, 0x49, 0x31 }, { 0x01, 0x01, 0x7f, 0x01, 0x01 }, { 0x3f, 0x40, 0x40, 0x40, 0x3f },
    { 0x1f, 0x20, 0x40, 0x20, 0x1f }, { 0x3f, 0x40, 0x38, 0x40, 0x3f }, { 0x63, 0x14, 0x08, 0x14, 0x63 },
    { 0x07, 0x08, 0x70, 0x08, 0x07 }, { 0x61, 0x51, 0x49, 0x45, 0x43 }, { 0x00, 0x7f, 0x41, 0x41, 0x00 },
    { 0x02, 0x04, 0x08, 0x10, 0x20 }, { 0x00, 0x41, 0x41, 0x7f, 0x00 }, { 0x04, 0x02, 0x01, 0x02, 0x04 },
    { 0x40, 0x40, 0x40, 0x40, 0x40 }, { 0x00, 0x01, 0x02, 0x04, 0x00 }, { 0x20, 0x54, 0x54, 0x54, 0x78 },
    { 0x7f, 0x48, 0x44, 0x44, 0x38 }, { 0x38, 0x44, 0x44, 0x44, 0x20 }, { 0x38, 0x44, 0x44, 0x48, 0x7f },
    { 0x38, 0x54, 0x54, 0x54, 0x18 }, { 0x08, 0x7e, 0x09, 0x01, 0x02 }, { 0x0c, 0x52, 0x52, 0x52, 0x3e },
    { 0x7f, 0x08, 0x04, 0x04, 0x78 }, { 0x00, 0x44, 0x7d, 0x40, 0x00 }, { 0x20, 0x40, 0x44, 0x3d, 0x00 },
    { 0x7f, 0x10, 0x28, 0x44, 0x00 }, { 0x00, 0x41, 0x7f, 0x40, 0x00 }, { 0x7c, 0x04, 0x18, 0x04, 0x78 },
    { 0x7c, 0x08, 0x04, 0x04, 0x78 }, { 0x38, 0x44, 0x44, 0x44, 0x38 }, { 0x7c, 0x14, 0x14, 0x14, 0x08 },
    { 0x08, 0x14, 0x14, 0x18, 0x7c }, { 0x7c, 0x08, 0x04, 0x04, 0x08 }, { 0x48, 0x54, 0x54, 0x54, 0x20 },
    { 0x04, 0x3f, 0x44, 0x40, 0x20 }, { 0x3c, 0x40, 0x40, 0x20, 0x7c }, { 0x1c, 0x20, 0x40, 0x20, 0x1c },
    { 0x3c, 0x40, 0x30, 0x40, 0x3c }, { 0x44, 0x28, 0x10, 0x28, 0x44 }, { 0x0c, 0x50, 0x50, 0x50, 0x3c },
    { 0x44, 0x64, 0x54, 0x4c, 0x44 }, { 0x00, 0x08, 0x36, 0x41, 0x00 }, { 0x00, 0x00, 0x7f, 0x00, 0x00 },
    { 0x00, 0x41, 0x36, 0x08, 0x00 }, { 0x08, 0x04, 0x08, 0x10, 0x08 },
};

/* The part of one pixel row from `from` up to, but not with, `to`. */
struct span {
    int from, to;
};

static uint8_t image[HEADER_SIZE + STRIDE * HEIGHT];
static uint8_t *const page = image + HEADER_SIZE;
static uint16_t doubled[95][7]; /* ten pixels for each dot row of a glyph */
static struct span outline[26][2];
static int outlines[26]; /* spans in each row of a bubble's box */

static int x_of(int column) { return 58 + 48 * column; }
static int y_of(int row) { return 60 + 52 * row; }

static void fill(int y, int from, int to) {
    uint8_t *row = page + (size_t)y * STRIDE;
    int first = from >> 3, last = (to - 1) >> 3;
    uint8_t head = 0xff >> (from & 7), tail = 0xff << (7 - ((to - 1) & 7));
    if (first == last) {
        row[first] |= head & tail;
        return;
    }
    row[first] |= head;
    memset(row + first + 1, 0xff, last - first - 1);
    row[last] |= tail;
}

static void fill_box(int x, int y, int width, int height) {
    for (int v = y; v < y + height; v++)
        fill(v, x, x + width);
}

static void put_marks(void) {
    for (int column = 0; column <= 33; column++) {
        fill_box(x_of(column) - 18, y_of(0) - 6, 36, 12);
        fill_box(x_of(column) - 18, y_of(40) - 6, 36, 12);
    }
    for (int row = 1; row <= 39; row++) {
        fill_box(x_of(0) - 18, y_of(row) - 6, 36, 12);
        fill_box(x_of(33) - 18, y_of(row) - 6, 36, 12);
    }
}

/* Version 1, no test, kind precinct, card 0, the page, the tag: a left or a right box for each bit. */
static void put_code(int number, uint32_t tag) {
    uint64_t code = (uint64_t)1 << 39 | (uint64_t)number << 20 | tag;
    for (int n = 0; n < 42; n++) {
        int bit = code >> (41 - n) & 1;
        fill_box(x_of(3 + 2 * (n % 14) + bit) - 14, y_of(35 + n / 14) - 10, 28, 20);
    }
}

static void put_bubble(int column, int row) {
    int x = x_of(column), y = y_of(row) - 13;
    for (int j = 0; j < 26; j++)
        for (int k = 0; k < outlines[j]; k++)
            fill(y + j, x + outline[j][k].from, x + outline[j][k].to);
}

/* One line of text; a byte without a glyph is a blank. */
static void put_line(int x, int y, const char *text, int length) {
    for (int i = 0; i < length; i++, x += 12) {
        unsigned code = (uint8_t)text[i] - 32u;
        if (code == 0 || code >= 95)
            continue;
        uint8_t *at = page + (size_t)y * STRIDE + (x >> 3);
        for (int b = 0; b < 7; b++, at += 2 * STRIDE) {
            uint32_t bits = (uint32_t)doubled[code][b] << (14 - (x & 7));
            if (bits == 0)
                continue;
            at[0] |= bits >> 16;
            at[1] |= bits >> 8;
            at[2] |= bits;
            at[STRIDE] |= bits >> 16;
            at[STRIDE + 1] |= bits >> 8;
            at[STRIDE + 2] |= bits;
        }
    }
}

/* A text of at most two lines beside the bubbles of a grid column. */
static void put_row(int column, int row, const char *text) {
    int length = strlen(text), x = x_of(column) + 40, y = y_of(row) - 18;
    put_line(x, y, text, length < LINE ? length : LINE);
    if (length > LINE)
        put_line(x, y + 20, text + LINE, length - LINE);
}

/* Every fourth contest has one seat, four candidates and a write-in slot. */
static int has_write_in(int contest) { return contest % 4 == 0; }

static void put_block(int contest, int column, int row) {
    char text[64];
    snprintf(text, sizeof text, "%s %d", OFFICES[contest % 8], contest);
    put_row(column, row, text);
    snprintf(text, sizeof text, "Vote for %d", has_write_in(contest) ? 1 : 1 + contest % 3);
    put_row(column, row + 1, text);
    for (int option = 0; option < OPTIONS; option++) {
        put_bubble(column, row + 2 + option);
        if (option == 4 && has_write_in(contest)) {
            put_row(column, row + 2 + option, "Write-in");
            continue;
        }
        snprintf(text, sizeof text, "%s %s, %s", GIVEN[(contest + 5 * option) % 16],
                 FAMILY[(3 * contest + 7 * option) % 16], PARTIES[(contest + option) % 3]);
        put_row(column, row + 2 + option, text);
    }
}

static void put_page(int number, int pages, uint32_t tag) {
    char foot[128];
    memset(page, 0, STRIDE * HEIGHT);
    put_marks();
    put_code(number, tag);
    for (int block = 0; block < BLOCKS; block++)
        put_block(BLOCKS * (number - 1) + block, 4 + 9 * (block / 4), 6 + BLOCK_ROWS * (block % 4));
    int length = snprintf(foot, sizeof foot, "Bench - 2024-11-05 - North - page %d of %d", number, pages);
    put_line(290, 1810, foot, length);
}

static int in_outline(int i, int j) {
    int p = 2 * i + 1, q = 2 * j + 1;
    return 676 * p * p + 1600 * q * q <= 1081600 && 484 * p * p + 1296 * q * q > 627264;
}

static void make_tables(void) {
    for (int j = 0; j < 26; j++)
        for (int i = -20; i < 20; i++)
            if (in_outline(i, j - 13)) {
                if (i == -20 || !in_outline(i - 1, j - 13))
                    outline[j][outlines[j]++].from = i;
                outline[j][outlines[j] - 1].to = i + 1;
            }
    for (int code = 0; code < 95; code++)
        for (int b = 0; b < 7; b++)
            for (int a = 0; a < 5; a++)
                if (GLYPHS[code][a] >> b & 1)
                    doubled[code][b] |= 3 << (8 - 2 * a);
}

int main(int count, char **words) {
    if (count != 3) {
        fputs("usage: plain_print TAG PAGES\n", stderr);
        return 1;
    }
    uint32_t tag = strtoul(words[1], NULL, 10);
    int pages = atoi(words[2]);
    make_tables();
    memcpy(image, HEADER, HEADER_SIZE);
    for (int number = 1; number <= pages; number++) {
        put_page(number, pages, tag);
        if (fwrite(image, 1, sizeof image, stdout) != sizeof image)
            return 1;
    }
    return fflush(stdout) != 0;
}
