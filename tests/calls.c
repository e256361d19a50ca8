// The calls of crates/calls where memory is wanting: calls DAY CHANGES. Each request for memory that a call makes fails in turn,
// alone and with those after it. The call must refuse by 11 at 0, with the lent slices as they were, until so late a request
// fails that none does; then it must answer and leave what it does with all memory. For tests/memory.py, which links it with
// failing.c. Ends with the status 1 where a call does something else.
#include <stdint.h>
#include <stdio.h>
#include <stdlib.h>
#include <string.h>

#define MOST_MEETINGS 4000
#define MOST_ENTRIES (120 * MOST_MEETINGS)

struct plan_answer {
    uint8_t refusal;
    size_t place;
    uint16_t rounds;
    uint64_t looks;
};

struct row_answer {
    uint8_t refusal;
    size_t place;
    size_t changes;
    uint16_t rounds;
    uint64_t looks;
    uint16_t moved;
};

struct plan_answer cirdumash_plan(const uint8_t *, size_t, uint16_t *, size_t, uint16_t *, size_t, uint16_t *, size_t);
struct row_answer cirdumash_change(
    const uint8_t *, size_t, const uint8_t *, size_t, uint16_t *, size_t, uint16_t *, size_t, uint16_t *, size_t);
long fail_at(long number, int all);

struct bytes {
    uint8_t *at;
    size_t length;
};

struct lent {
    uint16_t rounds[MOST_MEETINGS], groups[MOST_ENTRIES], stations[MOST_ENTRIES];
};

// What a call answers, in numbers: the refusal first.
struct answer {
    uint64_t numbers[6];
};

static struct lent before, whole, now;
static struct bytes day, changes;

static struct bytes read_file(const char *path) {
    static uint8_t room[2][1 << 20];
    static int used;
    FILE *file = fopen(path, "rb");
    if (!file) exit(2);
    struct bytes bytes = {room[used], fread(room[used], 1, sizeof room[used], file)};
    used++;
    fclose(file);
    return bytes;
}

static struct answer plan(void) {
    struct plan_answer a = cirdumash_plan(
        day.at, day.length, now.rounds, MOST_MEETINGS, now.groups, MOST_ENTRIES, now.stations, MOST_ENTRIES);
    return (struct answer){{a.refusal, a.place, a.rounds, a.looks}};
}

static struct answer change(void) {
    struct row_answer a = cirdumash_change(
        day.at, day.length, changes.at, changes.length, now.rounds, MOST_MEETINGS, now.groups, MOST_ENTRIES, now.stations,
        MOST_ENTRIES);
    return (struct answer){{a.refusal, a.place, a.changes, a.rounds, a.looks, a.moved}};
}

static struct answer call_failing(struct answer (*call)(void), long number, int all, long *requests) {
    now = before;
    fail_at(number, all);
    struct answer answer = call();
    *requests = fail_at(0, 0);
    return answer;
}

static int as_it_should(struct answer got, struct answer answer, int failed) {
    static const struct answer refused = {{11}};
    return failed ? !memcmp(&got, &refused, sizeof got) && !memcmp(&now, &before, sizeof now)
                  : !memcmp(&got, &answer, sizeof got) && !memcmp(&now, &whole, sizeof now);
}

// Fails each request of a call in turn, and answers how many times it did something else.
static int fail_each(const char *name, struct answer (*call)(void)) {
    long made, many;
    struct answer answer = call_failing(call, 0, 0, &many);
    whole = now;
    int wrong = answer.numbers[0] != 0;
    for (long number = 1; number <= many + 1; number++)
        for (int all = 0; all < 2; all++)
            if (!as_it_should(call_failing(call, number, all, &made), answer, number <= many)) {
                fprintf(stderr, "DIFFERENT: %s, request %ld%s\n", name, number, all ? " and those after it" : "");
                wrong++;
            }
    printf("%s: %ld requests, each failed in turn, %d different\n", name, many, wrong);
    return wrong;
}

int main(int argc, char **argv) {
    if (argc != 3) return 2;
    day = read_file(argv[1]);
    changes = read_file(argv[2]);
    memset(&before, 7, sizeof before);
    return fail_each("cirdumash_plan", plan) + fail_each("cirdumash_change", change) > 0;
}
