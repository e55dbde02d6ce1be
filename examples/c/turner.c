/* Records the lines of a log turner through a trigger, searches and draws what was recorded, replays its encoder to see that
 * the log came home, writes its file and reads that again, damages it, salvages what is good and searches that, and checks
 * each answer by a plain scan. Prints the answers; exits with 1 at the first that is wrong. */
#include "logic_core.h"

#include <inttypes.h>
#include <stdio.h>
#include <stdlib.h>
#include <string.h>

enum {
    CHANNELS = 8,       /* up to 8: one byte a sample */
    CAPACITY = 100000,  /* samples */
    LIMIT = 40000,      /* samples wanted */
    PUSH = 300,         /* samples in a push */
    WIDTH = 60,         /* pixels */
    START = 15000,      /* the sample at which the turner's drive starts */
    STEP = 90,          /* samples a step of the encoder */
    TURN = 4,           /* its steps in a turn */
    TURNS = 40,         /* trial turns, and as many back */
    REST = 10 * STEP,   /* samples between them */
    DRIVE = 3,          /* the line of the turner's drive */
    A = 0, B = 1        /* the encoder's lines */
};
static const uint16_t ENCODER = 1 << A | 1 << B;
static const uint8_t RISING = 0;

static void *lend(size_t bytes) {
    void *memory = malloc(bytes > 0 ? bytes : 1);
    if (memory == NULL) {
        fprintf(stderr, "no memory\n");
        exit(2);
    }
    return memory;
}

/* Stops where something is not as it must be. */
static void must(int holds, const char *what) {
    if (!holds) {
        printf("wrong: %s\n", what);
        exit(1);
    }
}

/* Lends as much as lc_needs says. */
static lc_memory lend_memory(size_t channels, size_t capacity) {
    lc_memory m;
    must(lc_needs(channels, capacity, m.sizes) == 0, "needs");
    m.samples = lend(m.sizes[LC_SIZE_SAMPLES]);
    for (int level = 0; level < 4; level++)
        m.level[level] = lend(m.sizes[LC_SIZE_LEVEL_1 + level] * sizeof *m.level[level]);
    return m;
}

static void give_back(lc_memory m) {
    free(m.samples);
    for (int level = 0; level < 4; level++)
        free(m.level[level]);
}

/* The steps that the turner makes one way, so many samples after it begins. */
static size_t turned(size_t samples) {
    const size_t steps = samples / STEP;
    return steps < TURNS * TURN ? steps : TURNS * TURN;
}

/* The machine: the drive starts, and the turner makes its turns, rests, and makes as many back. */
static uint8_t machine(size_t k) {
    static const uint8_t step[4] = {0, 1, 3, 2};
    const size_t back = START + TURNS * TURN * STEP + REST;
    const size_t position = k < START ? 0 : k < back ? turned(k - START) : TURNS * TURN - turned(k - back);
    return (uint8_t)(step[position % 4] | (k < START ? 0 : 1 << DRIVE));
}

/* The first change above from, by looking at every sample. */
static size_t scan(const uint8_t *s, size_t len, uint16_t mask, size_t from) {
    for (size_t i = from + 1; i < len; i++)
        if ((s[i] ^ s[i - 1]) & mask)
            return i;
    return len;
}

/* Whether a sample is known: it lies in none of the stretches. */
static bool known(const size_t *list, size_t numbers, size_t i) {
    for (size_t s = 0; s < numbers; s += 2)
        if (i >= list[s] && i - list[s] < list[s + 1])
            return false;
    return true;
}

/* Where a sample stands in the order in which an encoder goes forward, (A,B) = 00, 10, 11, 01. */
static int stands(uint8_t sample) {
    const int a = sample >> A & 1, b = sample >> B & 1;
    return b ? 3 - a : a;
}

int main(void) {
    /* The memory that is lent stays ours, and goes to each call on the record. The ring holds what is kept before the
     * trigger, less than the limit. */
    lc_memory m = lend_memory(CHANNELS, CAPACITY);
    uint8_t *ring = lend(LIMIT);
    size_t record[17], cut;

    /* A quarter of the limit from before the drive rises. */
    const uint8_t terms[] = {DRIVE, RISING};
    must(lc_feeder_start(CHANNELS, CAPACITY, LIMIT, terms, sizeof terms, false, 0.25, 0, LC_LEND(m), ring, LIMIT, record,
                         &cut) == 0, "start");

    /* Between pushes questions may be asked: here, how far the log has turned. */
    int64_t position, furthest = 0;
    size_t counts[3], pushed = 0;
    for (uint32_t code = 0; code != LC_NONE;) {
        uint8_t bytes[PUSH];
        for (size_t i = 0; i < PUSH; i++)
            bytes[i] = machine(pushed + i);
        pushed += PUSH;
        code = lc_push(record, LC_LEND(m), ring, LIMIT, bytes, sizeof bytes);
        must(code == 0 || code == LC_NONE, "push");
        must(lc_encoder(record, LC_LEND(m), A, B, &position, counts) == 0, "encoder");
        if (position > furthest)
            furthest = position;
    }
    const size_t len = record[LC_LEN], mark = record[LC_MARK];
    printf("pushed %zu, stored %zu, mark %zu\n", pushed, len, mark);
    must(len == LIMIT && record[LC_MARKED] != 0 && mark == LIMIT / 4, "the run's length and mark");
    for (size_t i = 0; i < len; i++)
        must(m.samples[i] == machine(START - mark + i), "the run's samples");
    size_t level, number;
    must(lc_whole(record, LC_LEND(m), &level, &number) == 0, "whole");

    /* All changes of the encoder, one after another; the last search finds none. */
    size_t steps = 0, first = 0, last = 0, nodes = 0, place, read;
    while (lc_next_change(record, LC_LEND(m), ENCODER, last, &place, &read) == 0) {
        must(place == scan(m.samples, len, ENCODER, last), "next change");
        must(read <= 384, "no more than 384 nodes are read in a chunk");
        if (steps++ == 0)
            first = place;
        last = place;
        nodes += read;
    }
    nodes += read;
    must(scan(m.samples, len, ENCODER, last) == len, "no change after the last");
    printf("encoder: first step at %zu, last at %zu, %zu steps, %zu nodes read for %zu samples\n", first, last, steps, nodes,
           len);
    must(lc_prev_change(record, LC_LEND(m), ENCODER, len, &place, &read) == 0 && place == last, "previous change");

    /* Which way those steps went. The log made its trial turns forward and back, and is home: no step is lost. */
    printf("turned: %zu steps forward, %zu backward, %zu skipped\n", counts[LC_ENCODER_FORWARD],
           counts[LC_ENCODER_BACKWARD], counts[LC_ENCODER_SKIPPED]);
    printf("the log: %" PRId64 " turns at the furthest, %" PRId64 " at the end\n", furthest / TURN, position / TURN);
    size_t went[4] = {0};
    for (size_t i = 1; i < len; i++)
        went[(stands(m.samples[i]) - stands(m.samples[i - 1]) + 4) % 4]++;
    must(counts[LC_ENCODER_FORWARD] == went[1] && counts[LC_ENCODER_BACKWARD] == went[3], "the steps forward and backward");
    must(counts[LC_ENCODER_SKIPPED] == went[2] && went[1] + went[2] + went[3] == steps, "all steps");
    must(furthest == TURNS * TURN && position == 0, "the log came home");

    size_t ends[4];
    must(lc_burst_at(record, LC_LEND(m), ENCODER, 2 * mark, REST + 100, 0, 1000, ends, &read) == 0, "burst");
    printf("burst: %zu to %zu, %zu jumps at its end, %zu at its start\n", ends[LC_BURST_FIRST], ends[LC_BURST_LAST],
           ends[LC_BURST_JUMPS_END], ends[LC_BURST_JUMPS_START]);
    must(ends[LC_BURST_FIRST] == first && ends[LC_BURST_LAST] == last, "the burst's ends");

    /* With the rest as gap there is a burst each way. No jump reaches this budget, so bursts share no change, and the next
     * one is searched for behind the last. */
    size_t bursts = 0, samples = 0;
    printf("a burst each way");
    place = 0;
    while (lc_next_change(record, LC_LEND(m), ENCODER, place, &place, &read) == 0) {
        if (lc_burst_at(record, LC_LEND(m), ENCODER, place, REST, 0, SIZE_MAX, ends, &read) == 0) {
            printf(", %zu to %zu", ends[LC_BURST_FIRST], ends[LC_BURST_LAST]);
            samples += ends[LC_BURST_LAST] - ends[LC_BURST_FIRST];
            place = ends[LC_BURST_LAST];
            bursts++;
        }
    }
    printf("\n");
    must(bursts == 2 && samples == 2 * (TURNS * TURN - 1) * STEP && place == last, "a burst each way");

    uint16_t node[3];
    uint32_t count;
    must(lc_summary(record, LC_LEND(m), 0, mark, node, &count) == 0, "summary");
    printf("before the mark: first %u, last %u, changing %u, %u changes\n", node[LC_NODE_FIRST], node[LC_NODE_LAST],
           node[LC_NODE_TOGGLES], (unsigned)count);
    must(node[LC_NODE_FIRST] == 0 && node[LC_NODE_LAST] == 0 && node[LC_NODE_TOGGLES] == 0 && count == 0,
         "the summary before the mark");

    /* Where it is busy: the changes of any line in quarters. Each but the first is asked for from one sample earlier, so that
     * a change at its border is counted in it, and all add up to the whole. */
    uint32_t whole, sum = 0;
    must(lc_density(record, LC_LEND(m), 0, len, &whole) == 0, "density");
    printf("changes: %u, in quarters", (unsigned)whole);
    for (size_t part = 0; part < 4; part++) {
        const size_t from = len * part / 4, to = len * (part + 1) / 4;
        must(lc_density(record, LC_LEND(m), from - (part > 0), to, &count) == 0, "density of a part");
        uint32_t scanned = 0;
        for (size_t i = from > 0 ? from : 1; i < to; i++)
            scanned += m.samples[i] != m.samples[i - 1];
        must(count == scanned, "the changes of a part");
        sum += count;
        printf(" %u", (unsigned)count);
    }
    printf("\n");
    must(sum == whole, "the parts add up to the whole");

    /* A picture of the drive and the encoder: high -, low _, and | where a line changes within the pixel. */
    uint16_t pixels[2 * WIDTH];
    must(lc_render(record, LC_LEND(m), (double)mark - 200, 20, WIDTH, pixels, 2 * WIDTH) == 0, "render");
    static const int lines[] = {DRIVE, 0, 1};
    for (size_t l = 0; l < sizeof lines / sizeof *lines; l++) {
        char row[WIDTH + 1];
        for (size_t px = 0; px < WIDTH; px++) {
            const int high = pixels[2 * px] >> lines[l] & 1, changes = pixels[2 * px + 1] >> lines[l] & 1;
            must(high == (m.samples[mark - 200 + 20 * px] >> lines[l] & 1), "a pixel's first sample");
            row[px] = changes ? '|' : high ? '-' : '_';
        }
        row[WIDTH] = '\0';
        printf("line %d %s\n", lines[l], row);
    }

    /* A mill that is granted the encoder's lines: its places count from the mark, and it sees no other line. */
    int64_t run_first, run_end, step;
    size_t marked;
    must(lc_mill_extent(record, LC_LEND(m), &run_first, &run_end, &marked) == 0, "extent");
    must(marked == 1 && run_first == -(int64_t)mark && run_end == (int64_t)(len - mark), "the mill's places");
    must(lc_mill_next_change(record, LC_LEND(m), ENCODER, ENCODER, run_first, &step, &read) == 0, "a mill's next change");
    must(step == (int64_t)first - (int64_t)mark, "the step from the mark");
    uint16_t after[4];
    size_t copied;
    must(lc_mill_samples(record, LC_LEND(m), ENCODER, step - 2, 4, after, 4, &copied) == 0 && copied == 4, "samples");
    printf("a mill: %" PRId64 " to %" PRId64 ", first step at %" PRId64 ", samples there %u %u %u %u\n", run_first, run_end,
           step, after[0], after[1], after[2], after[3]);
    for (size_t i = 0; i < 4; i++)
        must(after[i] == (m.samples[first - 2 + i] & ENCODER), "a mill's samples");
    read = 77;
    const uint32_t beyond = lc_mill_next_change(record, LC_LEND(m), ENCODER, 1 << DRIVE, run_first - 1, &step, &read);
    const uint32_t before = lc_mill_next_change(record, LC_LEND(m), ENCODER, ENCODER, run_first - 1, &step, &read);
    printf("the drive's line and a place before the run: refused with %u and %u\n", (unsigned)beyond, (unsigned)before);
    must(beyond == 12 && before == 13 && step == (int64_t)first - (int64_t)mark && read == 77, "a mill's refusals");

    /* It replays the encoder too. Equal lines are refused ahead of one beyond the grant. */
    int64_t seen = 77;
    size_t steps_seen[3] = {77, 77, 77};
    const uint32_t equal = lc_mill_encoder(record, LC_LEND(m), ENCODER, DRIVE, DRIVE, &seen, steps_seen);
    const uint32_t drive = lc_mill_encoder(record, LC_LEND(m), ENCODER, A, DRIVE, &seen, steps_seen);
    printf("an encoder of equal lines, and one with the drive's: refused with %u and %u\n", (unsigned)equal, (unsigned)drive);
    must(equal == 14 && drive == 12 && seen == 77 && steps_seen[LC_ENCODER_FORWARD] == 77, "an encoder's refusals");
    must(lc_mill_encoder(record, LC_LEND(m), ENCODER, A, B, &seen, steps_seen) == 0 && seen == position, "a mill's encoder");
    for (int c = 0; c < 3; c++)
        must(steps_seen[c] == counts[c], "a mill's steps");

    /* Its file, as it would lie on a shelf: the mark and the samples come back, and the levels are made anew. */
    size_t file_len, written, said[4], again[5];
    must(lc_file_len(record, &file_len) == 0, "the file's length");
    uint8_t *file = lend(file_len);
    must(lc_write(record, LC_LEND(m), file, file_len, &written) == 0 && written == file_len, "write");
    must(lc_file_says(file, file_len, said) == 0, "what block 0 says");
    printf("file: %zu bytes, unit %zu, len %zu, mark %zu\n", file_len, said[LC_SAID_UNIT], said[LC_SAID_LEN],
           said[LC_SAID_MARK]);
    const size_t room = said[LC_SAID_LEN];
    lc_memory r = lend_memory(8 * said[LC_SAID_UNIT], room);
    must(lc_read(room, file, file_len, LC_LEND(r), again) == 0, "read");
    must(again[LC_LEN] == len && again[LC_MARKED] == 1 && again[LC_MARK] == mark, "the read length and mark");
    must(memcmp(r.samples, m.samples, len) == 0, "the read samples");
    must(lc_whole(again, LC_LEND(r), &level, &number) == 0, "the levels are made anew");
    const uint32_t small = lc_read(room - 1, file, file_len, LC_LEND(r), again);
    file[file_len / 2] ^= 1;
    const uint32_t damaged = lc_read(room, file, file_len, LC_LEND(r), again);
    printf("a capacity below len, and a changed byte: refused with %u and %u\n", (unsigned)small, (unsigned)damaged);
    must(small == 15 && damaged == 16 && again[LC_LEN] == len, "a file's refusals");

    /* That file off a bad disk, which lost its end too: samples in good blocks are read, the others are 0, and the list says
     * where these are. As many numbers as there are blocks are enough for it. */
    const size_t torn = file_len - 100, blocks = file_len / 512;
    size_t *list = lend(blocks * sizeof *list), found[2];
    must(lc_salvage(room, file, torn, LC_LEND(r), list, blocks, again, found) == 0, "salvage");
    printf("salvaged: %zu samples unknown, in %zu stretches", found[LC_SALVAGED_REPLACED], found[LC_SALVAGED_STRETCHES]);
    for (size_t s = 0; s < found[LC_SALVAGED_STRETCHES]; s++)
        printf(", %zu from %zu on", list[2 * s + 1], list[2 * s]);
    printf("\n");
    must(again[LC_LEN] == len && again[LC_MARK] == mark, "the salvaged length and mark");
    const size_t numbers = 2 * found[LC_SALVAGED_STRETCHES];
    size_t unknown = 0;
    for (size_t i = 0; i < len; i++) {
        const bool good = known(list, numbers, i);
        must(r.samples[i] == (good ? m.samples[i] : 0), "the salvaged samples");
        unknown += !good;
    }
    must(unknown == found[LC_SALVAGED_REPLACED], "the samples replaced");
    must(lc_whole(again, LC_LEND(r), &level, &number) == 0, "the levels of what was salvaged");

    /* The encoder's steps across what is unknown. A certain one is there whatever stood in the bad blocks, and each one that
     * the machine made is possible. */
    size_t certain = 0, possible = 0, at = 0;
    while (lc_next_certain(again, LC_LEND(r), list, numbers, ENCODER, at, &at) == 0) {
        must((m.samples[at] ^ m.samples[at - 1]) & ENCODER, "a certain step");
        certain++;
    }
    for (at = 0; lc_next_possible(again, LC_LEND(r), list, numbers, ENCODER, at, &at) == 0;)
        possible++;
    printf("across them: %zu of %zu steps are certain, and steps possible at %zu places\n", certain, steps, possible);
    for (size_t i = 1; i < len; i++) {
        const bool step = (m.samples[i] ^ m.samples[i - 1]) & ENCODER;
        const bool both = known(list, numbers, i - 1) && known(list, numbers, i);
        certain -= step && both;
        possible -= step || !both;
    }
    must(certain == 0 && possible == 0, "all certain and all possible steps");
    at = 77;
    const uint32_t odd = lc_next_certain(again, LC_LEND(r), list, numbers - 1, ENCODER, 0, &at);
    const size_t touching[] = {100, 10, 110, 10};
    const uint32_t touch = lc_prev_possible(again, LC_LEND(r), touching, 4, ENCODER, len, &at);
    printf("an odd count of numbers, and stretches that touch: refused with %u and %u\n", (unsigned)odd, (unsigned)touch);
    must(odd == 18 && touch == 18 && at == 77, "a list's refusals");
    const uint32_t no_list = lc_salvage(room, file, torn, LC_LEND(r), list, 3, again, found);
    file[0] ^= 1;
    const uint32_t no_block_0 = lc_salvage(room, file, torn, LC_LEND(r), list, blocks, again, found);
    printf("a list too short, and a damaged block 0: refused with %u and %u\n", (unsigned)no_list, (unsigned)no_block_0);
    must(no_list == 15 && no_block_0 == 17 && found[LC_SALVAGED_REPLACED] == unknown, "a salvage's refusals");

    /* A refusal has a number, and changes nothing. */
    uint16_t value = 77;
    const uint32_t refused = lc_get(record, LC_LEND(m), len, &value);
    printf("get past the end: refused with %u\n", (unsigned)refused);
    must(refused == 9 && value == 77, "the refusal");

    give_back(m);
    give_back(r);
    free(ring);
    free(file);
    free(list);
    return 0;
}
