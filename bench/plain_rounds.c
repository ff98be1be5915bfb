/* Counts drawn ranked ballots in rounds, as a C programmer would: a pile of ballots for each candidate; in each
 * round the least pile is laid onto the others.
 *
 *     plain_rounds BALLOTS
 *
 * It writes a line for each round, the piles' heights and who goes out or wins. The ballots are those that
 * bench/rounds_ratio draws: up to 10 ranks over 10 candidates. */
#include <stdint.h>
#include <stdio.h>
#include <stdlib.h>

#define CANDIDATES 10

struct ballot {
    uint32_t length;
    uint32_t ranks[CANDIDATES];
};

struct piled {
    uint32_t ballot;
    uint32_t place;
};

struct pile {
    struct piled *ballots;
    size_t count, room;
};

static uint64_t state = 46;

static uint32_t drawn(uint32_t below) {
    state = state * 6364136223846793005u + 1442695040888963407u;
    return (uint32_t)(state >> 33) % below;
}

static void draw(struct ballot *ballot) {
    uint32_t left[CANDIDATES];
    for (uint32_t i = 0; i < CANDIDATES; i++) left[i] = i;
    ballot->length = drawn(CANDIDATES + 1);
    for (uint32_t place = 0; place < ballot->length; place++) {
        uint32_t other = place + drawn(CANDIDATES - place);
        uint32_t candidate = left[other];
        left[other] = left[place];
        left[place] = candidate;
        ballot->ranks[place] = candidate;
    }
}

static void lay(struct pile *pile, uint32_t ballot, uint32_t place) {
    if (pile->count == pile->room) {
        pile->room = pile->room ? 2 * pile->room : 16;
        pile->ballots = realloc(pile->ballots, pile->room * sizeof *pile->ballots);
        if (!pile->ballots) exit(1);
    }
    pile->ballots[pile->count++] = (struct piled){ballot, place};
}

static void lay_from(const struct ballot *ballots, struct pile *piles, const int *standing, uint32_t ballot, uint32_t place,
                     uint64_t *exhausted) {
    const struct ballot *one = &ballots[ballot];
    for (; place < one->length; place++) {
        if (standing[one->ranks[place]]) {
            lay(&piles[one->ranks[place]], ballot, place);
            return;
        }
    }
    ++*exhausted;
}

__attribute__((noinline)) static void count_rounds(const struct ballot *ballots, uint32_t count) {
    struct pile piles[CANDIDATES] = {{0}};
    int standing[CANDIDATES];
    uint64_t exhausted = 0;
    for (int i = 0; i < CANDIDATES; i++) standing[i] = 1;
    for (uint32_t i = 0; i < count; i++) lay_from(ballots, piles, standing, i, 0, &exhausted);
    for (;;) {
        uint64_t total = 0;
        int last = -1;
        for (int i = 0; i < CANDIDATES; i++) {
            if (!standing[i]) continue;
            printf("%d %zu ", i, piles[i].count);
            total += piles[i].count;
            if (last < 0 || piles[i].count <= piles[last].count) last = i;
        }
        printf("exhausted %llu\n", (unsigned long long)exhausted);
        for (int i = 0; i < CANDIDATES; i++) {
            if (standing[i] && 2 * piles[i].count > total) {
                printf("winner %d\n", i);
                return;
            }
        }
        if (total == 0) {
            printf("no winner\n");
            return;
        }
        printf("out %d\n", last);
        standing[last] = 0;
        struct pile gone = piles[last];
        for (size_t i = 0; i < gone.count; i++) {
            lay_from(ballots, piles, standing, gone.ballots[i].ballot, gone.ballots[i].place + 1, &exhausted);
        }
    }
}

int main(int argc, char **argv) {
    uint32_t count = argc > 1 ? (uint32_t)strtoul(argv[1], NULL, 10) : 1000000;
    struct ballot *ballots = malloc(count * sizeof *ballots);
    if (!ballots) return 1;
    for (uint32_t i = 0; i < count; i++) draw(&ballots[i]);
    count_rounds(ballots, count);
    return 0;
}
