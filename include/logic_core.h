/* The capture of sixteen digital lines: its calls from C. liblogic_core.a holds them (tools/staticlib).
 *
 * Each call checks what it is given, ends, and touches nothing but the memory that it is lent. All that a caller owes:
 * pointers are valid for their lengths, aligned and not null; what a call writes overlaps nothing else that it gets; and
 * the calls that take a double are made in the default floating-point mode (below).
 *
 * Codes. Each call but lc_raw gives one:
 *     0            it is done, and the out pointers hold the answer
 *     1 .. 20      refused: the number that document 01 or 02 gives for the reason; nothing was written anywhere
 *     100          LC_NONE: there is none; of lc_whole: a node is wrong; of lc_push: the recording is complete
 * A call that gives 1 to 20 has stored nothing, neither in the record nor in the lent memory nor behind the out pointers, so
 * that all of them may be read-only then; of the codes 0 and 100, each call says which of them writes.
 *
 * Refusals of every call on a record:
 *     1            a number of the record is out of its range
 *     2            lent memory is shorter than lc_needs says
 * and of a mill's reader (lc_mill_*, below) besides, in this order:
 *     12           a line of a search's or burst's mask, or of an encoder, is beyond the grant
 *     13           a place is before the first sample
 *
 * The record is five numbers: unit (bytes a sample, 1 or 2), capacity (samples, 1 to 67108864), len (stored samples),
 * marked (0: there is no mark), mark (the place of the firing sample; of no meaning where marked is 0).
 *
 * Lent memory belongs to the record: sample bytes, and the levels 1 to 4 of the summary tree, uint16_t numbers, five to a
 * node: first sample, last sample, the lines that change inside, and the count of changes inside, its low half and its high
 * half. Lend the same memory, whole, at every call on the record; nobody else may write in it meanwhile. Lengths count
 * elements. More than lc_needs says may be lent; what is beyond stays untouched. A slice of length 0 needs any pointer that
 * is not null.
 *
 * Floating point. lc_render, lc_mill_render and lc_feeder_start compute in the mode of the thread that calls them. What they
 * promise holds in the mode that a program starts in, FE_DFL_ENV of fenv.h: numbers are rounded to nearest, subnormal ones
 * are neither flushed to zero nor read as zero, and nothing traps. In another mode, as where the program was linked with
 * -ffast-math or rounds upward, they may draw other pixels and keep another count of samples. A thread in such a mode calls
 * fegetenv(&mode) and fesetenv(FE_DFL_ENV) before them, and fesetenv(&mode) after.
 */
#ifndef LOGIC_CORE_H
#define LOGIC_CORE_H

#include <stdbool.h>
#include <stddef.h>
#include <stdint.h>

#ifdef __cplusplus
extern "C" {
#endif

#define LC_NONE 100

/* Which number of a record is which. */
enum lc_record { LC_UNIT = 0, LC_CAPACITY = 1, LC_LEN = 2, LC_MARKED = 3, LC_MARK = 4 };

/* And of a recorder's, which begins with those of its capture; lc_feeder_start says what each is. */
enum lc_recorder {
    LC_LIMIT = 5, LC_PRE = 6, LC_WAITS = 7, LC_HIGH_LINES = 8, LC_LOW_LINES = 9, LC_RISING_LINES = 10,
    LC_FALLING_LINES = 11, LC_EDGE_LINES = 12, LC_KNOWN = 13, LC_PREVIOUS = 14, LC_RING_PLACE = 15, LC_KEPT = 16
};

/* Which is which behind an out pointer that takes several: the sizes of lc_needs, a node, the ends of lc_burst_at, the
 * counts of lc_encoder, the jumps of lc_mill_burst_at, what lc_file_says says, and the counts of lc_salvage. The numbers of a
 * node begin so in level memory too. */
enum lc_out {
    LC_SIZE_SAMPLES = 0, LC_SIZE_LEVEL_1 = 1, LC_SIZE_LEVEL_2 = 2, LC_SIZE_LEVEL_3 = 3, LC_SIZE_LEVEL_4 = 4,
    LC_NODE_FIRST = 0, LC_NODE_LAST = 1, LC_NODE_TOGGLES = 2, LC_BURST_FIRST = 0, LC_BURST_LAST = 1, LC_BURST_JUMPS_END = 2,
    LC_BURST_JUMPS_START = 3, LC_ENCODER_FORWARD = 0, LC_ENCODER_BACKWARD = 1, LC_ENCODER_SKIPPED = 2,
    LC_MILL_JUMPS_END = 0, LC_MILL_JUMPS_START = 1, LC_SAID_UNIT = 0, LC_SAID_LEN = 1, LC_SAID_MARKED = 2, LC_SAID_MARK = 3,
    LC_SALVAGED_STRETCHES = 0, LC_SALVAGED_REPLACED = 1
};

/* Lent memory in one value: the samples, the levels 1 to 4, and how many elements of each are lent, in lc_needs' order. */
typedef struct lc_memory {
    uint8_t *samples;
    uint16_t *level[4];
    size_t sizes[5];
} lc_memory;

/* Lends it to a call: lc_get(record, LC_LEND(memory), 7, &value). */
#define LC_LEND(m) \
    (m).samples, (m).sizes[0], (m).level[0], (m).sizes[1], (m).level[1], (m).sizes[2], (m).level[2], (m).sizes[3], \
    (m).level[3], (m).sizes[4]

/* The ten parameters that take it, a pointer and a length for the samples and for each level. LC_MEMORY is written in,
 * LC_CONST_MEMORY only read. */
#define LC_MEMORY \
    uint8_t *samples, size_t samples_len, uint16_t *l1, size_t l1_len, uint16_t *l2, size_t l2_len, \
    uint16_t *l3, size_t l3_len, uint16_t *l4, size_t l4_len

#define LC_CONST_MEMORY \
    const uint8_t *samples, size_t samples_len, const uint16_t *l1, size_t l1_len, const uint16_t *l2, size_t l2_len, \
    const uint16_t *l3, size_t l3_len, const uint16_t *l4, size_t l4_len

/* How much memory a capture takes: sizes becomes bytes of samples, then numbers of the levels 1, 2, 3, 4.
 * More than 8 channels take 2 bytes a sample, else 1. Refuses with 1 a capacity that is 0 or above 67108864. */
uint32_t lc_needs(size_t channels, size_t capacity, size_t sizes[5]);

/* Starts a capture with nothing in it: record becomes its numbers. The lent memory is measured, and not written.
 * Refuses with 1 (the capacity) and 2. */
uint32_t lc_start(size_t channels, size_t capacity, LC_CONST_MEMORY, size_t record[5]);

/* Appends the whole samples of bytes, low byte first; a leftover byte is dropped. The record's len is the new count, and
 * no other number of it changes. Refuses with 1, 2, and 8 where the samples do not all fit. */
uint32_t lc_append(size_t record[5], LC_MEMORY, const uint8_t *bytes, size_t bytes_len);

/* The sample at place i. Refuses with 1, 2, and 9 where i is not below len. */
uint32_t lc_get(const size_t record[5], LC_CONST_MEMORY, size_t i, uint16_t *value);

/* Copies the samples from start on, count of them or as many as there are, to output, and says how many in copied.
 * Output past them is unchanged. Refuses with 1, 2, and 11 where output is shorter than what is to be copied. */
uint32_t lc_samples(const size_t record[5], LC_CONST_MEMORY, size_t start, size_t count,
                    uint16_t *output, size_t output_len, size_t *copied);

/* The stored bytes of a chunk, 1048576 samples to each: samples[from] up to samples[to], that one not among them.
 * It has no code: past the end, and where 1 or 2 would apply, the part is empty (from and to are 0). */
void lc_raw(const size_t record[5], LC_CONST_MEMORY, size_t chunk, size_t *from, size_t *to);

/* Whether the levels are right: 0 where each node that covers stored samples is the node of its range, in all five numbers
 * (nothing is written); LC_NONE, with the level and the number of the first that is not, lowest level first. Refuses with 1
 * and 2. */
uint32_t lc_whole(const size_t record[5], LC_CONST_MEMORY, size_t *level, size_t *number);

/* The node of the places from a up to b, or up to len: first sample, last sample, and the lines that change inside; count
 * becomes lc_density's. LC_NONE where there is no such place (nothing is written). Refuses with 1 and 2. */
uint32_t lc_summary(const size_t record[5], LC_CONST_MEMORY, size_t a, size_t b, uint16_t node[3], uint32_t *count);

/* How many changes there are inside the places from a up to b, or up to len: count becomes the number of places above a, and
 * below that end, at which any line differs from the sample before. A change at a itself is not among them, so that two
 * stretches side by side have together the changes of the whole, less one where there is a change at their border. Where
 * there is no such place, count becomes 0. Refuses with 1 and 2.
 *
 * No capture has more than 2^32 - 1 changes; over levels that no call made, a larger sum of their counts is cut there. */
uint32_t lc_density(const size_t record[5], LC_CONST_MEMORY, size_t a, size_t b, uint32_t *count);

/* The smallest place above from at which a line of the mask differs from the sample before; LC_NONE where there is none
 * (place is not written). Any from is allowed. Refuses with 1 and 2.
 *
 * read becomes the count of nodes read, with 0 and with LC_NONE: each node of a level and each sample that the search takes
 * on its way, the sample that it starts from not among them. Where lc_whole gives 0 it is at most 384 for each chunk of
 * 1048576 samples that the search enters. */
uint32_t lc_next_change(const size_t record[5], LC_CONST_MEMORY, uint16_t mask, size_t from, size_t *place, size_t *read);

/* The same backward: the largest such place, 1 or above, that is not above from. */
uint32_t lc_prev_change(const size_t record[5], LC_CONST_MEMORY, uint16_t mask, size_t from, size_t *place, size_t *read);

/* The burst of changes at a place, gaps below max_gap: ends becomes first, last, the jumps made at the end and those made
 * at the start. A change counts as near up to tolerance; each end jumps at most budget times. LC_NONE where there is no
 * burst (ends is not written). Refuses with 1 and 2.
 *
 * Two bursts of one capture, mask and max_gap, each with the jumps at both its ends below its own budget, have the same first
 * and last or share no change. A larger budget, all else equal, never gives a smaller burst.
 *
 * read becomes, with 0 and with LC_NONE, the sum of the nodes read by the searches that it makes, each as in
 * lc_next_change. */
uint32_t lc_burst_at(const size_t record[5], LC_CONST_MEMORY, uint16_t mask, size_t sample, size_t max_gap,
                     size_t tolerance, size_t budget, size_t ends[4], size_t *read);

/* Replays an encoder from its lines a and b, over the whole capture. (a, b) = 00, 10, 11, 01, 00 is the way forward, its
 * reverse the way backward. counts becomes the steps forward, the steps backward and the skips: places at which both lines
 * differ from the sample before, so that nobody can tell which way it went, and it does not move. position becomes where it
 * is at the end, from 0 at the first sample: the steps forward less those backward. The three counts add up to the places at
 * which a line of the two changes. Below two samples all four numbers become 0.
 *
 * A line that the unit lacks, 8 to 15 where a sample is one byte, is 0 throughout. Refuses with 1, 2, and 14 where a and b
 * are equal or one of them is above 15. */
uint32_t lc_encoder(const size_t record[5], LC_CONST_MEMORY, size_t a, size_t b, int64_t *position, size_t counts[3]);

/* Draws width pixels of a view that begins at place start, spp samples to a pixel: output becomes two numbers for each,
 * first sample and the lines that change, 0 and 0 where there is no sample. Output past 2 * width is unchanged. Refuses with
 * 1, 2, 10 where start or spp is infinite or not a number, and 11 where width is above 65536 or output below 2 * width. */
uint32_t lc_render(const size_t record[5], LC_CONST_MEMORY, double start, double spp, size_t width,
                   uint16_t *output, size_t output_len);

/* Shelf files. A capture has one file: its unit, mark and samples in blocks of 512 bytes; capacity and levels are not in
 * it. All numbers are low byte first. A block is its check (bytes 0 and 1), the count of its payload (2 and 3), its number
 * from 0 (4 to 7), zeros (8 to 11), and its payload, filled up with zeros (12 to 511). The check is the sum of place * byte
 * over the places 2 to 511, modulo 65521. The payload of block 0 is 18 bytes: unit, 1 where there is a mark and else 0, len
 * in 8 bytes, mark in 8, 0 where there is none. The other blocks have the sample bytes, 500 each, the last one 1 to 500;
 * without samples there are none.
 *
 * No capture has a file with one byte changed. Mills have no call for files, which show every line. */

/* How long a capture's file is, in bytes: 512 for block 0, and 512 for each 500 sample bytes, begun ones too. Refuses with
 * 1. */
uint32_t lc_file_len(const size_t record[5], size_t *len);

/* What a file's first 512 bytes say of its capture, to learn how much memory lc_read needs: said becomes unit, len, 1 where
 * there is a mark and else 0, and the mark, 0 where there is none. Nothing behind those bytes is looked at. Refuses with 16
 * where no capture's file begins with them, or file_len is below 512. */
uint32_t lc_file_says(const uint8_t *file, size_t file_len, size_t said[4]);

/* Writes the capture's file to the start of output: len becomes its bytes. Output past them is unchanged. Equal units, marks
 * and samples make equal files, whatever else the record and the memory hold. Refuses with 1, 2, and 15 where output is
 * shorter than lc_file_len says. */
uint32_t lc_write(const size_t record[5], LC_CONST_MEMORY, uint8_t *output, size_t output_len, size_t *len);

/* Reads the capture that has a file, file_len bytes in all, into a new store of a capacity: record becomes its numbers,
 * with the file's unit, len and mark, and the lent memory what lc_append of all its samples to a store with nothing in it
 * leaves. Refuses with 1 (the capacity); 16 where no capture has the file; and 15 where its len is above the capacity, or
 * lent memory is shorter than lc_needs says of the capacity and the file's unit. */
uint32_t lc_read(size_t capacity, const uint8_t *file, size_t file_len, LC_MEMORY, size_t record[5]);

/* Reads a file with bad blocks, as off a bad disk, into a new store of a capacity. A block is good where it is wholly there,
 * its check holds, its number is its place in the file, and its count, the zeros at 8 to 11 and those behind its payload are
 * as block 0 calls for. Samples in good blocks land at their own places; all others are unknown, and stored as 0. Blocks
 * missing at the end are bad, a torn one too, and bytes after the last block that block 0 calls for are passed over.
 *
 * record becomes the new store's numbers, with the file's unit, len and mark, and the lent memory what lc_append of these
 * samples to a store with nothing in it leaves. stretches becomes the list of unknown stretches, two numbers for each, its
 * first place and its count of samples: they rise, and none touches the next; what the list holds behind them stays. counts
 * becomes the number of stretches and that of samples replaced. A file that lc_read takes has no stretch, and both leave the
 * same.
 *
 * Refuses with 1 (the capacity); 17 where no capture's file begins with the first 512 bytes, or file_len is below 512; and
 * 15 as lc_read does, and where the list has fewer than two numbers for each stretch. One number for each block that block 0
 * calls for, block 0 among them, is always enough. */
uint32_t lc_salvage(size_t capacity, const uint8_t *file, size_t file_len, LC_MEMORY,
                    size_t *stretches, size_t stretches_len, size_t record[5], size_t counts[2]);

/* Searches across unknown stretches, as lc_salvage leaves them: lc_next_certain, lc_prev_certain, lc_next_possible and
 * lc_prev_possible. Samples in a stretch may have had any value that the unit holds; what is stored there does not matter. A
 * change at a place, 1 or above and below len, is certain where a line of the mask differs there from the sample before
 * whatever these values were, and possible where one does for some of them. So none is certain at a place of a stretch or at
 * the one right behind it, and one is possible at each of these where the mask has a line that the unit has: lines 8 to 15
 * are 0 throughout where a sample is one byte. Elsewhere the changes are those that are stored, certain and possible.
 *
 * stretches has two numbers for each stretch, its first place and its count of samples, and stretches_len counts numbers:
 * of lc_salvage's list, two for each stretch that it found, and not what the list holds behind them. Where it is 0, the
 * answers are those of lc_next_change and lc_prev_change. Nodes are not counted here. Each call writes place alone, and that
 * with 0 alone.
 *
 * Refuses with 1, 2, and 18 where stretches_len is odd, a stretch has no samples or reaches past len, or one begins at or
 * before the place right behind the one before it: they rise, and none overlaps or touches the next. Any from is allowed. */

/* The smallest place above from with a certain change; LC_NONE where there is none. */
uint32_t lc_next_certain(const size_t record[5], LC_CONST_MEMORY, const size_t *stretches, size_t stretches_len,
                         uint16_t mask, size_t from, size_t *place);

/* The same backward: the largest such place that is not above from. */
uint32_t lc_prev_certain(const size_t record[5], LC_CONST_MEMORY, const size_t *stretches, size_t stretches_len,
                         uint16_t mask, size_t from, size_t *place);

/* The smallest place above from with a possible change, which may be a certain one; LC_NONE where there is none. */
uint32_t lc_next_possible(const size_t record[5], LC_CONST_MEMORY, const size_t *stretches, size_t stretches_len,
                          uint16_t mask, size_t from, size_t *place);

/* The same backward: the largest such place that is not above from. */
uint32_t lc_prev_possible(const size_t record[5], LC_CONST_MEMORY, const size_t *stretches, size_t stretches_len,
                          uint16_t mask, size_t from, size_t *place);

/* A mill's reader: the calls lc_mill_*, for whoever may see some lines only. Each takes a grant, a mask of lines, and tells
 * nothing of the others: to it, two captures of equal length, mark and granted lines look alike, refusals too, each with its
 * memory lent whole; unit, capacity and the other lines may differ. Who holds the memory can read all lines in it, so the
 * caller keeps the memory and hands on the answers. lc_density, lc_raw, lc_whole and a capture's file are not for mills: the
 * count of changes, the bytes and the nodes tell of every line. The searches across unknown stretches are the service's alone.
 *
 * Samples, nodes and pixels show granted lines only: each number is ANDed with the grant. Places are int64_t numbers that
 * count from the mark, negative before it, or from the first sample where there is no mark: the first sample is at -mark, or
 * 0, and the end at len - mark, or len. Counts, gaps, tolerance, budget, jumps and the nodes read are those of the calls
 * above.
 *
 * Refusals come in the order 1, 2, 12, 13, and then the call's own; that of lc_mill_encoder, 14, comes ahead of 12. A place
 * at or past the end is refused by lc_mill_get alone; any place may be given, up to both ends of int64_t. */

/* Which places there are: first becomes that of the first sample, end the one behind the last, and marked 1 where there is a
 * mark, which is at 0 then, else 0. Without samples both places are 0. It takes no grant. Refuses with 1 and 2. */
uint32_t lc_mill_extent(const size_t record[5], LC_CONST_MEMORY, int64_t *first, int64_t *end, size_t *marked);

/* As lc_get: the sample at a place. Refuses with 1, 2, 13, and 9 where the place is at or past the end. */
uint32_t lc_mill_get(const size_t record[5], LC_CONST_MEMORY, uint16_t grant, int64_t place, uint16_t *value);

/* As lc_samples: copies the samples from start on, count of them or as many as there are; from the end on there are none.
 * Refuses with 1, 2, 13, and 11 where output is shorter than what is to be copied. */
uint32_t lc_mill_samples(const size_t record[5], LC_CONST_MEMORY, uint16_t grant, int64_t start, size_t count,
                         uint16_t *output, size_t output_len, size_t *copied);

/* As lc_summary without its count: the node of the places from a up to b, or up to the end; LC_NONE where there is no such
 * place (nothing is written). Refuses with 1, 2, and 13 where a or b is before the first sample. */
uint32_t lc_mill_summary(const size_t record[5], LC_CONST_MEMORY, uint16_t grant, int64_t a, int64_t b, uint16_t node[3]);

/* As lc_next_change: the first place above from at which a line of the mask differs from the sample before; LC_NONE where
 * there is none (place is not written). Refuses with 1, 2, 12 and 13. */
uint32_t lc_mill_next_change(const size_t record[5], LC_CONST_MEMORY, uint16_t grant, uint16_t mask, int64_t from,
                             int64_t *place, size_t *read);

/* The same backward: the last such place, above that of the first sample, that is not above from. */
uint32_t lc_mill_prev_change(const size_t record[5], LC_CONST_MEMORY, uint16_t grant, uint16_t mask, int64_t from,
                             int64_t *place, size_t *read);

/* As lc_burst_at, with all that it says of two bursts: first and last become the places of the burst's first and last change,
 * and jumps the jumps made at the end and those made at the start. LC_NONE where there is no burst (of these nothing is
 * written). Refuses with 1, 2, 12 and 13. */
uint32_t lc_mill_burst_at(const size_t record[5], LC_CONST_MEMORY, uint16_t grant, uint16_t mask, int64_t sample,
                          size_t max_gap, size_t tolerance, size_t budget, int64_t *first, int64_t *last, size_t jumps[2],
                          size_t *read);

/* As lc_encoder, from the first sample on, wherever the mark is. Refuses with 1, 2, 14 where a and b are equal or one of
 * them is above 15, and then 12 where one is beyond the grant. */
uint32_t lc_mill_encoder(const size_t record[5], LC_CONST_MEMORY, uint16_t grant, size_t a, size_t b, int64_t *position,
                         size_t counts[3]);

/* As lc_render: draws width pixels of a view; start is a place as the mill counts, and may be before the first sample, where
 * there is nothing to draw: 13 is not given. Refuses with 1, 2, 10 and 11. */
uint32_t lc_mill_render(const size_t record[5], LC_CONST_MEMORY, uint16_t grant, double start, double spp, size_t width,
                        uint16_t *output, size_t output_len);

/* Starts a recorder: record becomes its 17 numbers, of which the first five are the record of its capture, and cut becomes
 * 1 where the samples kept before the trigger were cut at the cap, else 0. The lent memory is measured, and not written.
 *
 * The other numbers: limit (samples, 0: none), pre (samples kept before the trigger), waits (0: it waits for no trigger),
 * the lines of High, Low, Rising, Falling and Edge terms, known (0: there is no previous sample), the previous sample, the
 * place of the ring's next slot, and how many samples the ring has kept. The lines and the previous sample count modulo
 * 65536: what they have above 16 bits is not read.
 *
 * A term is two bytes: its line, 0 to 15, and its condition, 0 Rising, 1 Falling, 2 Edge, 3 High, 4 Low. A line with both
 * Rising and Falling counts as one with Edge, beside any other terms on it, and is a line of Edge in the record. Without
 * terms it records at once. The wish is a fraction of limit to keep before the trigger, or, where seconds is true and
 * limit is 0, seconds at rate samples a second. The ring needs pre samples' bytes.
 *
 * Refuses with 1 and 2; 3 where a term has no such line or condition, or terms_len is odd; 4 where limit is above the
 * capacity; 5 a fraction without a limit, or seconds with one; 6 where the wish is not a number, or the rate of seconds
 * above 1000000000; 7 where pre is not below the capacity, or the ring is too short. */
uint32_t lc_feeder_start(size_t channels, size_t capacity, size_t limit, const uint8_t *terms, size_t terms_len,
                         bool seconds, double wish, size_t rate, LC_CONST_MEMORY, const uint8_t *ring, size_t ring_len,
                         size_t record[17], size_t *cut);

/* Pushes the whole samples of bytes, low byte first; a leftover byte is dropped. While the recorder waits they go to the
 * ring; from the sample that fires on, with those kept before it, they go to the capture, up to limit. Gives 0 while it goes
 * on and LC_NONE once it is complete, and in both cases the record's numbers are the new ones; unit, capacity, limit, pre and
 * the lines of the terms stay. Refuses with 1, 2, and 8 where what is to be stored does not all fit. */
uint32_t lc_push(size_t record[17], LC_MEMORY, uint8_t *ring, size_t ring_len, const uint8_t *bytes, size_t bytes_len);

#ifdef __cplusplus
}
#endif

#endif
