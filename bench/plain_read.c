/* Reads scanned pages as a plain C program would: the measure for `read`.
 *
 *     plain_read PLAN SCANS
 *
 * SCANS is a file of raw bitmaps (P4). PLAN says in words what an election has:
 *
 *     TAG MARGINAL DEFINITE CARDS      the tag and the thresholds in pixels, in decimal
 *     CARD PAGE BUBBLES                for each page, then for each of its bubbles:
 *     CONTEST OPTION COLUMN ROW
 *
 * The text is that of `read`: for each image its reading, or its first fault. Dark pixels are counted
 * by words of 64: no shape that is looked for is wider than 56 pixels, so each of its rows stands in
 * one word, wherever it begins.
 */
#include <stdint.h>
#include <stdio.h>
#include <stdlib.h>
#include <string.h>

enum { MARKS = 146, CARDS = 1024, PAGES = 64, WORST = 20 };

struct point {
    int u, v;
};
struct bubble {
    int contest, option, column, row;
};
struct page {
    int bubbles;
    struct bubble *bubble;
};
struct plan {
    unsigned tag, cards;
    int marginal, definite;
    struct page *pages[CARDS][PAGES];
};
struct code {
    unsigned version, test, kind, card, page, tag;
};
/* Packed rows with at least 8 bytes behind the last one. */
struct scan {
    int width, height;
    size_t stride;
    const uint8_t *rows;
};

static struct plan plan;

/* The text that is written, kept until it is a page's. */
static char text[1 << 20];
static char *end = text;

static void put(const char *word) {
    size_t length = strlen(word);
    memcpy(end, word, length);
    end += length;
}

static void put_number(int number) {
    char digits[12], *at = digits + sizeof digits;
    unsigned rest = number < 0 ? -(unsigned)number : (unsigned)number;
    do
        *--at = '0' + rest % 10;
    while (rest /= 10);
    if (number < 0)
        *--at = '-';
    memcpy(end, at, digits + sizeof digits - at);
    end += digits + sizeof digits - at;
}

/* A word and a number behind it, with a blank before each. */
static void put_field(const char *word, int number) {
    put(word);
    *end++ = ' ';
    put_number(number);
}

/* At least 57 pixels of a row from u on, the first one as the highest bit. */
static uint64_t pixels(const struct scan *scan, int u, int v) {
    uint64_t word;
    memcpy(&word, scan->rows + v * scan->stride + (u >> 3), sizeof word);
    return __builtin_bswap64(word) << (u & 7);
}

/* So many bits from the highest on, after some that aren't among them. */
#define BITS(after, many) (~(uint64_t)0 << (64 - (many)) >> (after))

static int dark_in(const struct scan *scan, int left, int top, int width, int height) {
    int dark = 0;
    for (int v = top; v < top + height; v++)
        dark += __builtin_popcountll(pixels(scan, left, v) & BITS(0, width));
    return dark;
}

/* How many pixels are wrong for a mark's centre, or more than `most`. */
static int deficit(const struct scan *scan, int u, int v, int most) {
    const uint64_t core = BITS(6, 34), flanks = BITS(0, 4) | BITS(42, 4);
    int wrong = 0;
    for (int row = v - 5; row <= v + 4 && wrong <= most; row++)
        wrong += __builtin_popcountll((pixels(scan, u - 23, row) ^ core) & (core | flanks));
    for (int row = v - 11; row <= v - 8 && wrong <= most; row++)
        wrong += __builtin_popcountll(pixels(scan, u - 23, row) & core);
    for (int row = v + 7; row <= v + 10 && wrong <= most; row++)
        wrong += __builtin_popcountll(pixels(scan, u - 23, row) & core);
    return wrong;
}

static int max(int a, int b) { return a > b ? a : b; }
static int min(int a, int b) { return a < b ? a : b; }

/* The accepted place of the corner's region with the least u + v, then the least v. */
static int find_corner(const struct scan *scan, struct point *corner) {
    for (int sum = 26 + 14; sum <= 116 + 104; sum++)
        for (int v = max(14, sum - 116); v <= min(104, sum - 26); v++)
            if (deficit(scan, sum - v, v, WORST) <= WORST) {
                *corner = (struct point){ sum - v, v };
                return 1;
            }
    return 0;
}

/* The accepted place near another one that has the least deficit, then v, then u. */
static int find_best(const struct scan *scan, struct point near, struct point *best) {
    int most = WORST, found = 0;
    for (int v = max(near.v - 6, 11); v <= min(near.v + 6, scan->height - 11); v++)
        for (int u = max(near.u - 10, 23); u <= min(near.u + 10, scan->width - 23); u++) {
            int wrong = deficit(scan, u, v, most);
            if (wrong > most)
                continue;
            *best = (struct point){ u, v };
            found = 1;
            most = wrong - 1;
            if (wrong == 0)
                return 1;
        }
    return found;
}

static void mark_fault(int k, struct point near) {
    static const char *const sides[4] = { "top", "right", "left", "bottom" };
    int side = (k > 33) + (k > 73) + (k > 113);
    int index[4] = { k, k - 33, k - 73, k - 113 };
    put("2.2 NoMark ");
    put_field(sides[side], index[side]);
    put_field("", near.u);
    put_field("", near.v);
}

/* Follows the border; where it can't, the fault is written. */
static int trace(const struct scan *scan, struct point *border) {
    if (!find_corner(scan, &border[0])) {
        put("2.1 NoCorner");
        return 0;
    }
    for (int k = 1; k < MARKS; k++) {
        struct point near = border[k == 74 ? 0 : k - 1];
        if (k <= 33 || k >= 114)
            near.u += 48;
        else
            near.v += 52;
        if (!find_best(scan, near, &border[k])) {
            mark_fault(k, near);
            return 0;
        }
    }
    struct point near = { border[145].u + 48, border[145].v }, found = border[73];
    if (abs(near.u - found.u) > 10 || abs(near.v - found.v) > 6) {
        put_field("2.3 OpenBorder", near.u);
        put_field("", near.v);
        put_field("", found.u);
        put_field("", found.v);
        return 0;
    }
    return 1;
}

static int floor_of(int number, int by) {
    return number >= 0 ? number / by : -((-number + by - 1) / by);
}

static struct point place_of(const struct point *border, int column, int row) {
    struct point left = border[row == 0 ? 0 : 73 + row];
    struct point right = border[33 + row];
    return (struct point){ left.u + floor_of((right.u - left.u) * column, 33),
                           left.v + floor_of((right.v - left.v) * column, 33) };
}

static int code_count(const struct scan *scan, const struct point *border, int column, int row) {
    struct point place = place_of(border, column, row);
    return dark_in(scan, place.u - 22, place.v - 16, 44, 32);
}

/* Reads the page code; where it can't, the fault is written. */
static int read_code(const struct scan *scan, const struct point *border, struct code *code) {
    uint64_t number = 0;
    for (int n = 0; n < 42; n++) {
        int left = code_count(scan, border, 3 + 2 * (n % 14), 35 + n / 14);
        int right = code_count(scan, border, 4 + 2 * (n % 14), 35 + n / 14);
        if (!((left >= 400 && right <= 160) || (right >= 400 && left <= 160))) {
            put_field("3.1 BadPair", n);
            put_field("", left);
            put_field("", right);
            return 0;
        }
        number = number << 1 | (right >= 400);
    }
    *code = (struct code){ number >> 39 & 7,     number >> 38 & 1,  number >> 36 & 3,
                           number >> 26 & 1023, number >> 20 & 63, number & 0xfffff };
    if (code->version != 1) {
        put_field("3.2 BadVersion", code->version);
        return 0;
    }
    return 1;
}

/* The planned page that a code names; where there is none, the fault is written. */
static const struct page *find_page(const struct code *code) {
    if (code->tag != plan.tag)
        put_field("4 OtherElection", code->tag);
    else if (code->card >= plan.cards)
        put_field("5 NoCard", code->card);
    else if (!plan.pages[code->card][code->page])
        put_field("6 NoPage", code->page);
    else
        return plan.pages[code->card][code->page];
    return NULL;
}

static void put_bubble(const struct scan *scan, const struct point *border, int number, const struct bubble *bubble) {
    struct point place = place_of(border, bubble->column, bubble->row);
    int score = max(dark_in(scan, place.u - 28, place.v - 19, 56, 38) - 192, 0);
    put_field("bubble", number);
    put_field("", bubble->contest);
    put_field("", bubble->option);
    put_field("", score);
    put(score >= plan.definite ? " marked\n" : score < plan.marginal ? " clear\n" : " marginal\n");
}

static void put_reading(const struct scan *scan, const struct point *border, const struct code *code,
                        const struct page *page) {
    static const char *const kinds[4] = { "precinct", "absentee", "provisional", "other" };
    put_field(" card", code->card);
    put_field(" side", code->page);
    put(code->test ? " kind test-" : " kind ");
    put(kinds[code->kind]);
    put("\nborder");
    for (int k = 0; k < MARKS; k++) {
        put_field("", border[k].u);
        *end++ = ',';
        put_number(border[k].v);
    }
    *end++ = '\n';
    for (int number = 0; number < page->bubbles; number++)
        put_bubble(scan, border, number, &page->bubble[number]);
    put("end\n");
}

static void read_page(const struct scan *scan, int number) {
    struct point border[MARKS];
    struct code code;
    const struct page *page;
    put_field("page", number);
    char *reading = end;
    put(" fault ");
    if (scan->width < 1600 || scan->width > 2000 || scan->height < 2100 || scan->height > 2400) {
        put_field("1 FrameSize", scan->width);
        put_field("", scan->height);
    } else if (trace(scan, border) && read_code(scan, border, &code) && (page = find_page(&code))) {
        end = reading;
        put_reading(scan, border, &code, page);
        return;
    }
    *end++ = '\n';
}

static void fail(const char *why, const char *name) {
    fprintf(stderr, "plain_read: %s %s\n", why, name);
    exit(1);
}

/* All bytes of a file, a line's end that stops every comment, and 8 more. */
static uint8_t *taken(const char *name, size_t *size) {
    FILE *file = fopen(name, "rb");
    if (!file || fseek(file, 0, SEEK_END))
        fail("can't open", name);
    *size = ftell(file);
    rewind(file);
    uint8_t *bytes = calloc(*size + 9, 1);
    if (!bytes || fread(bytes, 1, *size, file) != *size)
        fail("can't read", name);
    bytes[*size] = '\n';
    fclose(file);
    return bytes;
}

static void read_plan(const char *name) {
    unsigned card, number;
    int many;
    FILE *file = fopen(name, "r");
    if (!file || fscanf(file, "%u %d %d %u", &plan.tag, &plan.marginal, &plan.definite, &plan.cards) != 4)
        fail("no plan in", name);
    while (fscanf(file, "%u %u %d", &card, &number, &many) == 3) {
        struct page *page = malloc(sizeof *page);
        if (card >= CARDS || number >= PAGES || !page)
            fail("a wrong page in", name);
        *page = (struct page){ many, calloc(many + 1, sizeof(struct bubble)) };
        for (int k = 0; k < many; k++) {
            struct bubble *bubble = &page->bubble[k];
            if (fscanf(file, "%d %d %d %d", &bubble->contest, &bubble->option, &bubble->column, &bubble->row) != 4)
                fail("a wrong bubble in", name);
        }
        plan.pages[card][number] = page;
    }
    fclose(file);
}

/* Where the next number of a header begins: behind whitespace and comments. */
static const uint8_t *past_gap(const uint8_t *at) {
    while (*at == ' ' || (*at >= '\t' && *at <= '\r') || *at == '#')
        if (*at++ == '#')
            while (*at != '\n' && *at != '\r')
                at++;
    return at;
}

/* A number of a header; `at` is moved behind it. */
static int header_number(const uint8_t **at) {
    char *behind;
    long number = strtol((const char *)past_gap(*at), &behind, 10);
    *at = (const uint8_t *)behind;
    return number > 0 && number <= 4096 ? number : 0;
}

/* The next bitmap of some bytes; where it ends, or nothing where it isn't whole. */
static const uint8_t *next_scan(const uint8_t *at, const uint8_t *all, struct scan *scan) {
    if (all - at < 3 || memcmp(at, "P4", 2))
        return NULL;
    at += 2;
    scan->width = header_number(&at);
    scan->height = header_number(&at);
    scan->stride = (scan->width + 7) / 8;
    scan->rows = at + 1;
    if (!scan->width || !scan->height || all - at < 1 + (long)scan->stride * scan->height)
        return NULL;
    return scan->rows + scan->stride * scan->height;
}

int main(int count, char **words) {
    size_t size;
    if (count != 3)
        fail("usage: plain_read PLAN", "SCANS");
    read_plan(words[1]);
    const uint8_t *at = taken(words[2], &size), *all = at + size;
    for (int number = 1; at != all; number++) {
        struct scan scan;
        at = next_scan(at, all, &scan);
        if (!at)
            fail("no whole raw bitmap in", words[2]);
        read_page(&scan, number);
        fwrite(text, 1, end - text, stdout);
        end = text;
    }
    return fflush(stdout) != 0;
}
