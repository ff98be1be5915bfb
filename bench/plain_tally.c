// Sums the rows of records as a C programmer would: plain arrays, and no record is kept.
//
//     plain_tally ROWS COUNT
//
// ROWS is a text of whole numbers: how many records there are, and for each its unit, how many
// contests it has, and for each of these its place, its overvotes and undervotes, how many rows it
// has, and the selection and votes of each. COUNT records are summed, the first ones again where
// there are fewer. It writes the votes of the first selection of each contest.

#include <stdio.h>
#include <stdlib.h>

enum { UNITS = 64, CONTESTS = 64, SELECTIONS = 16 };

static unsigned long long total[CONTESTS][SELECTIONS];
static unsigned long long total_in[UNITS][CONTESTS][SELECTIONS];
static unsigned long long over[CONTESTS], under[CONTESTS];

static unsigned *numbers;
static size_t *starts;

static unsigned next_number(FILE *file) {
    unsigned number;
    if (fscanf(file, "%u", &number) != 1) exit(2);
    return number;
}

// Puts a number behind the others.
static unsigned taken(FILE *file, size_t *at, size_t *room) {
    if (*at == *room) {
        *room = *room ? 2 * *room : 1024;
        numbers = realloc(numbers, *room * sizeof *numbers);
        if (!numbers) exit(2);
    }
    return numbers[(*at)++] = next_number(file);
}

static size_t read_rows(const char *name) {
    FILE *file = fopen(name, "r");
    if (!file) exit(2);
    size_t records = next_number(file), at = 0, room = 0;
    starts = malloc((records + 1) * sizeof *starts);
    if (!starts) exit(2);
    for (size_t record = 0; record < records; record++) {
        starts[record] = at;
        taken(file, &at, &room);
        for (unsigned contests = taken(file, &at, &room); contests > 0; contests--) {
            for (int number = 0; number < 3; number++) taken(file, &at, &room);
            for (unsigned rows = taken(file, &at, &room); rows > 0; rows--) {
                taken(file, &at, &room);
                taken(file, &at, &room);
            }
        }
    }
    fclose(file);
    return records;
}

static void add(const unsigned *record) {
    unsigned unit = *record++;
    for (unsigned contests = *record++; contests > 0; contests--) {
        unsigned contest = *record++;
        over[contest] += *record++;
        under[contest] += *record++;
        for (unsigned rows = *record++; rows > 0; rows--) {
            unsigned selection = *record++, votes = *record++;
            total[contest][selection] += votes;
            total_in[unit][contest][selection] += votes;
        }
    }
}

int main(int count, char **words) {
    if (count != 3) return 2;
    size_t records = read_rows(words[1]);
    size_t wanted = strtoull(words[2], NULL, 10);
    for (size_t step = 0; step < wanted; step++) add(numbers + starts[step % records]);
    for (int contest = 0; contest < CONTESTS; contest++) printf("%llu\n", total[contest][0]);
    return 0;
}
