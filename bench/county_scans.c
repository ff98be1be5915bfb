/* Marks and scans the sheets of a county: the paper for tools/county.
 *
 *     county_scans PLAN SEED FIRST COUNT SHARE SCANS TRUTH
 *
 * PLAN says in words which sheets there are; all numbers are decimal, and words stand apart by blanks or line ends:
 *
 *     MARGINAL DEFINITE FORMS        the thresholds in pixels, and how many forms of a sheet there are; then for each form
 *     FILE CARD KIND CONTESTS        its printed front and back in one file of raw letter bitmaps, how the truth names it,
 *                                    and how many contests it has; then for each contest
 *     NUMBER SEATS CANDIDATES SLOTS  and for each of its candidates and then its write-in slots
 *     PAGE X Y                       the page, 0 or 1, and the middle of its bubble, in pixels
 *
 * The sheets FIRST to FIRST + COUNT - 1 of the county are written as raw bitmaps of 1700 by 2200 pixels, SHARE sheets to a
 * file, into SCANS-1.pbm, SCANS-2.pbm and so on; a line for each is put at the end of the file TRUTH:
 *
 *     SHEET CARD KIND LAY C:STATES C:STATES ..
 *
 * LAY has a letter for each of the two images, f for the front and b for the back, as a capital where it lies upside down.
 * STATES has a letter for each option of contest C: m marked, g marginal, c clear. So what stands behind LAY is what the
 * journal has to keep of the sheet.
 *
 * What is drawn. The generator is splitmix64. That of a sheet begins at the first word of one that begins at SEED, with the
 * sheet's number added; so each sheet is drawn by itself, whatever FIRST and COUNT are. draw(n) is the upper half of the
 * next word, times n, divided by 2^32 and rounded down. In this order:
 *
 * 1. The form is draw(FORMS). The sheet is blank if draw(1000) is 0: then step 2 is left out, and all options are clear.
 * 2. For each contest a fate, draw(1000). Below 3, and where there are more options than seats, it is overvoted: seats + 1
 *    options are marked. Below 60 none is; below 100 draw(seats) are; else as many as there are seats. For each of these
 *    the option is slot draw(SLOTS) where there is a slot and draw(200) is 0, or else the lesser of two draw(CANDIDATES), so
 *    that those at the top have more votes; if it is marked already, the next one behind it that isn't, in a circle. Last,
 *    if draw(400) is 0, option draw(options) becomes marginal, unless it is marked.
 * 3. For each option the pixels of ink: marked DEFINITE + 12 + draw(624 - DEFINITE - 11), marginal
 *    MARGINAL + 12 + draw(DEFINITE - MARGINAL - 24), clear 1 + draw(MARGINAL - 13), a slip of the pen, if draw(50) is 0, and
 *    else none. They are the first ones inside the bubble's outline, row by row from its upper left.
 * 4. The back comes first if draw(40) is 0. For each image: it lies upside down if draw(20) is 0; then it is shifted by
 *    draw(49) - 24 rows and by 8 * (draw(7) - 3) columns; then draw(200) + 200 pixels, each draw(1700), draw(2200), are
 *    turned from light to dark or back.
 *
 * All of it is within the bounds of docs/MARGIN.md, as long as no bubble's zone gets more than 12 of the last pixels and no
 * rectangle round a timing mark more than 20, of which each page has fewer than one in 10^12 in expectation.
 */
#include <stdint.h>
#include <stdio.h>
#include <stdlib.h>
#include <string.h>

enum { WIDTH = 1700, HEIGHT = 2200, STRIDE = (WIDTH + 7) / 8, RASTER = STRIDE * HEIGHT };
enum { INSIDE = 624, FORMS = 64, CONTESTS = 100, OPTIONS = 100 };

static const char HEADER[] = "P4\n1700 2200\n";
enum { HEADER_SIZE = sizeof HEADER - 1 };

struct bubble {
    int page, x, y;
};
struct contest {
    int number, seats, candidates, slots;
    struct bubble bubbles[OPTIONS];
    char states[OPTIONS + 1];
    int ink[OPTIONS];
};
/* A sheet's pages as they were printed, and turned by 180 degrees. */
struct form {
    char card[16], kind[32];
    uint8_t *pages[2][2];
    int contests;
    struct contest *contest;
};

static int marginal, definite, forms;
static struct form form[FORMS];
static struct {
    int x, y;
} inside[INSIDE];
static uint8_t image[HEADER_SIZE + RASTER];
static uint8_t *const page = image + HEADER_SIZE;

static uint64_t state;

static uint64_t next_word(void) {
    uint64_t z = state += 0x9e3779b97f4a7c15;
    z = (z ^ z >> 30) * 0xbf58476d1ce4e5b9;
    z = (z ^ z >> 27) * 0x94d049bb133111eb;
    return z ^ z >> 31;
}

static int draw(int n) { return (next_word() >> 32) * n >> 32; }

static void begin_sheet(uint64_t seed, uint64_t sheet) {
    state = seed;
    state = next_word() + sheet;
}

static void stop(const char *what) {
    fprintf(stderr, "county_scans: %s\n", what);
    exit(1);
}

static void make_inside(void) {
    int found = 0;
    for (int y = -13; y < 13; y++)
        for (int x = -20; x < 20; x++) {
            int p = 2 * x + 1, q = 2 * y + 1;
            if (484 * p * p + 1296 * q * q <= 627264) {
                inside[found].x = x;
                inside[found++].y = y;
            }
        }
    if (found != INSIDE)
        stop("a bubble has another size");
}

static uint8_t backwards(uint8_t byte) {
    byte = byte >> 4 | byte << 4;
    byte = (byte & 0xcc) >> 2 | (byte & 0x33) << 2;
    return (byte & 0xaa) >> 1 | (byte & 0x55) << 1;
}

/* A raster turned by 180 degrees. Its rows have four bits of padding, which are light. */
static uint8_t *turned(const uint8_t *upright) {
    uint8_t *over = malloc(RASTER);
    for (int v = 0; v < HEIGHT; v++) {
        const uint8_t *from = upright + (HEIGHT - 1 - v) * STRIDE;
        uint8_t *to = over + v * STRIDE;
        for (int i = 0; i < STRIDE; i++)
            to[i] = backwards(from[STRIDE - 1 - i]) << 4 | (i + 1 < STRIDE ? backwards(from[STRIDE - 2 - i]) >> 4 : 0);
    }
    return over;
}

static void read_pages(const char *name, uint8_t *pages[2][2]) {
    FILE *file = fopen(name, "rb");
    if (!file)
        stop("no printed pages");
    for (int side = 0; side < 2; side++) {
        if (fread(image, 1, sizeof image, file) != sizeof image || memcmp(image, HEADER, HEADER_SIZE))
            stop("no letter page");
        pages[side][0] = malloc(RASTER);
        memcpy(pages[side][0], page, RASTER);
        pages[side][1] = turned(page);
    }
    if (fgetc(file) != EOF)
        stop("more than a front and a back");
    fclose(file);
}

static int number(FILE *plan) {
    int value;
    if (fscanf(plan, "%d", &value) != 1)
        stop("a number is missing in the plan");
    return value;
}

static void read_contest(FILE *plan, struct contest *to) {
    to->number = number(plan);
    to->seats = number(plan);
    to->candidates = number(plan);
    to->slots = number(plan);
    if (to->candidates < 1 || to->candidates + to->slots > OPTIONS || to->candidates + to->slots < to->seats)
        stop("a contest of that size isn't drawn");
    for (int option = 0; option < to->candidates + to->slots; option++) {
        to->bubbles[option].page = number(plan);
        to->bubbles[option].x = number(plan);
        to->bubbles[option].y = number(plan);
    }
}

static void read_plan(const char *name) {
    char file[4096];
    FILE *plan = fopen(name, "r");
    if (!plan)
        stop("no plan");
    marginal = number(plan);
    definite = number(plan);
    forms = number(plan);
    if (forms < 1 || forms > FORMS || marginal < 14 || marginal + 25 > definite || definite > INSIDE - 12)
        stop("no such thresholds or forms");
    for (int at = 0; at < forms; at++) {
        if (fscanf(plan, "%4095s %15s %31s", file, form[at].card, form[at].kind) != 3)
            stop("a form is missing in the plan");
        read_pages(file, form[at].pages);
        form[at].contests = number(plan);
        if (form[at].contests < 1 || form[at].contests > CONTESTS)
            stop("a form has too many contests");
        form[at].contest = calloc(form[at].contests, sizeof *form[at].contest);
        for (int contest = 0; contest < form[at].contests; contest++)
            read_contest(plan, &form[at].contest[contest]);
    }
    fclose(plan);
}

static int least(int one, int other) { return one < other ? one : other; }

static void mark_one(struct contest *to) {
    int options = to->candidates + to->slots, option;
    if (to->slots > 0 && draw(200) == 0) {
        option = to->candidates + draw(to->slots);
    } else {
        int one = draw(to->candidates);
        option = least(one, draw(to->candidates));
    }
    while (to->states[option] == 'm')
        option = (option + 1) % options;
    to->states[option] = 'm';
}

static void mark_contest(struct contest *to) {
    int options = to->candidates + to->slots, fate = draw(1000), marks = to->seats;
    if (fate < 3 && options > to->seats)
        marks = to->seats + 1;
    else if (fate < 60)
        marks = 0;
    else if (fate < 100)
        marks = draw(to->seats);
    while (marks-- > 0)
        mark_one(to);
    if (draw(400) == 0) {
        int option = draw(options);
        if (to->states[option] == 'c')
            to->states[option] = 'g';
    }
}

static int ink_of(char letter) {
    if (letter == 'm')
        return definite + 12 + draw(INSIDE - definite - 11);
    if (letter == 'g')
        return marginal + 12 + draw(definite - marginal - 24);
    return draw(50) == 0 ? 1 + draw(marginal - 13) : 0;
}

static void mark_sheet(struct form *sheet) {
    int blank = draw(1000) == 0;
    for (int at = 0; at < sheet->contests; at++) {
        struct contest *contest = &sheet->contest[at];
        memset(contest->states, 'c', contest->candidates + contest->slots);
        contest->states[contest->candidates + contest->slots] = 0;
        if (!blank)
            mark_contest(contest);
    }
    for (int at = 0; at < sheet->contests; at++)
        for (int option = 0; sheet->contest[at].states[option]; option++)
            sheet->contest[at].ink[option] = ink_of(sheet->contest[at].states[option]);
}

/* The page in the place of the image, shifted by so many bytes of a row and so many rows; what comes in is light. */
static void lay(const uint8_t *from, int bytes, int rows) {
    int left = bytes > 0 ? bytes : 0, width = STRIDE - abs(bytes);
    memset(page, 0, RASTER);
    for (int v = rows > 0 ? rows : 0; v < HEIGHT + (rows < 0 ? rows : 0); v++)
        memcpy(page + v * STRIDE + left, from + (v - rows) * STRIDE + left - bytes, width);
}

static void fill(const struct bubble *bubble, int ink, int over, int right, int down) {
    for (int at = 0; at < ink; at++) {
        int x = bubble->x + inside[at].x, y = bubble->y + inside[at].y;
        int u = (over ? WIDTH - 1 - x : x) + right, v = (over ? HEIGHT - 1 - y : y) + down;
        page[v * STRIDE + u / 8] |= 0x80 >> u % 8;
    }
}

/* Draws how a page lies, and makes its image. Whether it lies upside down. */
static int scan_page(const struct form *sheet, int side) {
    int over = draw(20) == 0, down = draw(49) - 24, bytes = draw(7) - 3;
    lay(sheet->pages[side][over], bytes, down);
    for (int at = 0; at < sheet->contests; at++)
        for (int option = 0; sheet->contest[at].states[option]; option++)
            if (sheet->contest[at].bubbles[option].page == side)
                fill(&sheet->contest[at].bubbles[option], sheet->contest[at].ink[option], over, 8 * bytes, down);
    for (int specks = draw(200) + 200; specks > 0; specks--) {
        int u = draw(WIDTH), v = draw(HEIGHT);
        page[v * STRIDE + u / 8] ^= 0x80 >> u % 8;
    }
    return over;
}

static void put_sheet(uint64_t seed, long sheet, FILE *scans, FILE *truth) {
    begin_sheet(seed, sheet);
    struct form *drawn = &form[draw(forms)];
    char laid[3] = "";
    mark_sheet(drawn);
    int first = draw(40) == 0;
    for (int at = 0; at < 2; at++) {
        int side = at ^ first;
        laid[at] = (scan_page(drawn, side) ? "FB" : "fb")[side];
        if (fwrite(image, 1, sizeof image, scans) != sizeof image)
            stop("the scans can't be written");
    }
    fprintf(truth, "%ld %s %s %s", sheet, drawn->card, drawn->kind, laid);
    for (int at = 0; at < drawn->contests; at++)
        fprintf(truth, " %d:%s", drawn->contest[at].number, drawn->contest[at].states);
    fputc('\n', truth);
}

int main(int words, char **word) {
    if (words != 8)
        stop("usage: county_scans PLAN SEED FIRST COUNT SHARE SCANS TRUTH");
    uint64_t seed = strtoull(word[2], NULL, 10);
    long first = atol(word[3]), count = atol(word[4]), share = atol(word[5]);
    make_inside();
    read_plan(word[1]);
    memcpy(image, HEADER, HEADER_SIZE);
    FILE *truth = fopen(word[7], "a"), *scans = NULL;
    if (!truth || share < 1)
        stop("no place for the truth, or no share");
    for (long at = 0; at < count; at++) {
        char name[4096];
        snprintf(name, sizeof name, "%s-%ld.pbm", word[6], at / share + 1);
        if (at % share == 0 && ((scans && fclose(scans)) || !(scans = fopen(name, "wb"))))
            stop("the scans can't be written");
        put_sheet(seed, first + at, scans, truth);
    }
    if ((scans && fclose(scans)) || fclose(truth))
        stop("the scans or the truth can't be written");
    return 0;
}
