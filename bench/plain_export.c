/* Writes the report of a journal as a plain C program would: the measure for `export`.
 *
 *     plain_export JOURNAL MOMENT DEVICE > FILE
 *
 * The election is that of bench/page_election with two pages, and the journal one of bench/counting.py: every sheet has a
 * record `add`, and nothing was decided. Names and titles follow the rules of bench/page_election. Each record is read from
 * SQLite and parsed once into a row; the rows are sorted by batch and number; the report is put together in one buffer and
 * written by one fwrite. A contest stands in it as in any report: without a marginal mark and without one of the reasons
 * Overvote, BlankBallot and WriteIn. A record that isn't such a one ends the program.
 */
#include <sqlite3.h>
#include <stdint.h>
#include <stdio.h>
#include <stdlib.h>
#include <string.h>

enum { CONTESTS = 240, MOST = 64, OPTIONS = 5 };

static const char *const OFFICES[8] = {
    "County Commissioner, District",   "Circuit Judge, Department",
    "Member of the School Board, Area", "Supervisor of Roads and Bridges, Seat",
    "Water District Director, Seat",   "Township Trustee, Ward",
    "Harbor Commissioner, Post",       "Member of the Library Board, Place",
};
static const char *const GIVEN[16] = {
    "Abigail", "Benedict", "Carolina", "Dominic", "Eleanor", "Frederick", "Gwendolyn", "Harrison",
    "Isabella", "Jonathan", "Katherine", "Leonard", "Margaret", "Nathaniel", "Olivia", "Percival",
};
static const char *const FAMILY[16] = {
    "Ashworth", "Blackwood", "Castellano", "Delacroix", "Eastman", "Fitzgerald", "Goldberg", "Hawthorne",
    "Ivanovich", "Jefferson", "Kowalski", "Lindstrom", "Montgomery", "Nakamura", "Okafor", "Pemberton",
};

/* A sheet: the marks of each contest are bits, option 0 the lowest. */
struct row {
    char batch[33];
    uint8_t contests, number_of[MOST], marks[MOST], marginal[MOST];
    uint32_t number;
    uint16_t front;
};

static struct row *rows;
static size_t row_count, row_room;
static char *text;
static size_t length, room;

static void fail(const char *why) {
    fprintf(stderr, "plain_export: %s\n", why);
    exit(1);
}

static void put_bytes(const char *bytes, size_t size) {
    if (length + size > room) {
        room = 2 * (room + size) + 4096;
        text = realloc(text, room);
        if (!text)
            fail("no memory");
    }
    memcpy(text + length, bytes, size);
    length += size;
}

/* (the length of a literal is known to the compiler) */
#define put(literal) put_bytes(literal, sizeof(literal) - 1)

static void put_text(const char *words) { put_bytes(words, strlen(words)); }

static void put_number(uint32_t number) {
    char digits[10];
    int at = sizeof digits;
    do {
        digits[--at] = '0' + number % 10;
        number /= 10;
    } while (number);
    put_bytes(digits + at, sizeof digits - at);
}

static int has_slot(int contest) { return contest % 4 == 0; }
static int seats_of(int contest) { return has_slot(contest) ? 1 : 1 + contest % 3; }

static const char *word(const char **at, size_t *size) {
    const char *begin = *at;
    while (**at != ' ' && **at)
        ++*at;
    *size = *at - begin;
    if (**at)
        ++*at;
    return begin;
}

static uint32_t number_at(const char **at) {
    uint32_t number = 0;
    if (**at < '0' || **at > '9')
        fail("no number");
    while (**at >= '0' && **at <= '9')
        number = 10 * number + (*(*at)++ - '0');
    return number;
}

static void take(const char *record) {
    struct row *row;
    size_t size;
    const char *at = record, *batch;
    if (strncmp(at, "1 add ", 6) != 0)
        fail("a record that adds no sheet");
    at += 6;
    if (row_count == row_room) {
        row_room = row_room ? 2 * row_room : 1024;
        rows = realloc(rows, row_room * sizeof *rows);
        if (!rows)
            fail("no memory");
    }
    row = &rows[row_count++];
    batch = word(&at, &size);
    if (size > 32)
        fail("a long batch");
    memcpy(row->batch, batch, size);
    row->batch[size] = 0;
    row->number = number_at(&at);
    ++at;
    number_at(&at); /* the card */
    ++at;
    row->front = number_at(&at);
    ++at;
    word(&at, &size); /* the kind */
    for (row->contests = 0; *at; row->contests++) {
        int option, place = row->contests;
        if (place == MOST)
            fail("too many contests");
        row->number_of[place] = number_at(&at);
        row->marks[place] = row->marginal[place] = 0;
        ++at;
        for (option = 0; *at && *at != ' '; option++, at++) {
            row->marks[place] |= (*at == 'm') << option;
            row->marginal[place] |= (*at == 'g') << option;
        }
        if (*at)
            ++at;
    }
}

static int by_key(const void *one, const void *other) {
    const struct row *a = one, *b = other;
    int batches = strcmp(a->batch, b->batch);
    return batches ? batches : (a->number > b->number) - (a->number < b->number);
}

static int is_blank(const struct row *row) {
    for (int place = 0; place < row->contests; place++)
        if (row->marks[place] || row->marginal[place])
            return 0;
    return 1;
}

static int waits(const struct row *row, int place, int blank) {
    int contest = row->number_of[place], marks = row->marks[place];
    return row->marginal[place] || blank || __builtin_popcount(marks) > seats_of(contest) || (has_slot(contest) && marks >> 4 & 1);
}

static void put_contest(int contest, int marks) {
    int under = seats_of(contest) - __builtin_popcount(marks), first = 1;
    put("{\"@type\":\"CVR.CVRContest\",\"CVRContestSelection\":[");
    for (int option = 0; option < OPTIONS; option++) {
        if (!(marks >> option & 1))
            continue;
        if (!first)
            put(",");
        first = 0;
        put("{\"@type\":\"CVR.CVRContestSelection\",\"ContestSelectionId\":\"selection-k");
        put_number(contest);
        put("-");
        put_number(option);
        put("\",\"SelectionPosition\":[{\"@type\":\"CVR.SelectionPosition\",\"HasIndication\":\"yes\",\"IsAllocable\":\"yes\",\"NumberVotes\":1}]}");
    }
    put("],\"ContestId\":\"contest-k");
    put_number(contest);
    put("\",\"Overvotes\":0,\"Status\":[");
    if (marks == 0)
        put("\"not-indicated\"");
    else if (under)
        put("\"undervoted\"");
    put("],\"Undervotes\":");
    put_number(under);
    put(",\"WriteIns\":0}");
}

static void put_key(const struct row *row) {
    put_text(row->batch);
    put("-");
    put_number(row->number);
}

static void put_row(const struct row *row) {
    int blank = is_blank(row), first = 1;
    put("{\"@type\":\"CVR.CVR\",\"BallotSheetId\":\"");
    put_number((row->front + 1) / 2);
    put("\",\"BallotStyleId\":\"s\",\"BallotStyleUnitId\":\"precinct-north\",\"BatchId\":\"");
    put_text(row->batch);
    put("\",\"CVRSnapshot\":[{\"@id\":\"snapshot-");
    put_key(row);
    put("\",\"@type\":\"CVR.CVRSnapshot\",\"CVRContest\":[");
    for (int place = 0; place < row->contests; place++) {
        if (waits(row, place, blank))
            continue;
        if (!first)
            put(",");
        first = 0;
        put_contest(row->number_of[place], row->marks[place]);
    }
    put("],\"Type\":\"interpreted\"}],\"CurrentSnapshotId\":\"snapshot-");
    put_key(row);
    put("\",\"ElectionId\":\"election\",\"UniqueId\":\"");
    put_key(row);
    put("\"}");
}

static void put_id(const char *kind, int contest, int option) {
    put_text(kind);
    put_number(contest);
    put("-");
    put_number(option);
    put("\"");
}

static void put_candidates(void) {
    for (int contest = 0; contest < CONTESTS; contest++)
        for (int option = 0; option < OPTIONS - has_slot(contest); option++) {
            if (contest || option)
                put(",");
            put("{\"@id\":\"");
            put_id("candidate-k", contest, option);
            put(",\"@type\":\"CVR.Candidate\",\"Name\":\"");
            put_text(GIVEN[(contest + 5 * option) % 16]);
            put(" ");
            put_text(FAMILY[(3 * contest + 7 * option) % 16]);
            put("\"}");
        }
}

static void put_contests(void) {
    for (int contest = 0; contest < CONTESTS; contest++) {
        put_text(contest ? ",{\"@id\":\"contest-k" : "{\"@id\":\"contest-k");
        put_number(contest);
        put("\",\"@type\":\"CVR.CandidateContest\",\"ContestSelection\":[");
        for (int option = 0; option < OPTIONS; option++) {
            put_text(option ? ",{\"@id\":\"" : "{\"@id\":\"");
            put_id("selection-k", contest, option);
            put(",\"@type\":\"CVR.CandidateSelection\",");
            if (has_slot(contest) && option == 4) {
                put("\"IsWriteIn\":true}");
                continue;
            }
            put("\"CandidateIds\":[\"");
            put_id("candidate-k", contest, option);
            put("]}");
        }
        put("],\"Name\":\"");
        put_text(OFFICES[contest % 8]);
        put(" ");
        put_number(contest);
        put("\",\"VotesAllowed\":");
        put_number(seats_of(contest));
        put("}");
    }
}

static void put_report(const char *moment, const char *device) {
    put("{\"@type\":\"CVR.CastVoteRecordReport\",\"CVR\":[");
    for (size_t at = 0; at < row_count; at++) {
        if (at)
            put(",");
        put_row(&rows[at]);
    }
    put("],\"Election\":[{\"@id\":\"election\",\"@type\":\"CVR.Election\",\"Candidate\":[");
    put_candidates();
    put("],\"Contest\":[");
    put_contests();
    put("],\"ElectionScopeId\":\"scope\",\"Name\":\"Bench\"}],\"GeneratedDate\":\"");
    put_text(moment);
    put("\",\"GpUnit\":[{\"@id\":\"scope\",\"@type\":\"CVR.GpUnit\",\"Name\":\"Bench\",\"Type\":\"other\"},"
        "{\"@id\":\"precinct-north\",\"@type\":\"CVR.GpUnit\",\"Name\":\"North\",\"Type\":\"precinct\"}],\"ReportGeneratingDeviceIds\":[\"device-");
    put_text(device);
    put("\"],\"ReportingDevice\":[{\"@id\":\"device-");
    put_text(device);
    put("\",\"@type\":\"CVR.ReportingDevice\"}],\"Version\":\"1.0.0\"}\n");
}

static void read_journal(const char *path) {
    sqlite3 *journal;
    sqlite3_stmt *records;
    char record[16385];
    if (sqlite3_open_v2(path, &journal, SQLITE_OPEN_READWRITE, NULL) != SQLITE_OK)
        fail("no journal");
    if (sqlite3_prepare_v2(journal, "SELECT body FROM journal WHERE place > 0 ORDER BY place", -1, &records, NULL) != SQLITE_OK)
        fail("no table");
    while (sqlite3_step(records) == SQLITE_ROW) {
        int size = sqlite3_column_bytes(records, 0);
        if (size >= (int)sizeof record)
            fail("a long record");
        memcpy(record, sqlite3_column_blob(records, 0), size);
        record[size] = 0;
        take(record);
    }
    sqlite3_finalize(records);
    sqlite3_close(journal);
}

int main(int count, char **words) {
    if (count != 4)
        fail("usage: plain_export JOURNAL MOMENT DEVICE");
    read_journal(words[1]);
    qsort(rows, row_count, sizeof *rows, by_key);
    put_report(words[2], words[3]);
    return fwrite(text, 1, length, stdout) != length || fflush(stdout) != 0;
}
