/* What a piece costs.
 *   pieces time COUNT LENGTH OPEN     nanoseconds of a piece that opens a message, is kept, repeats a held one, finishes the message.
 *                                     16 messages at a time: with OPEN 4 in four stores, 4 of neighbour 0 in each; with OPEN 16 in
 *                                     one store, 4 of each neighbour
 *   pieces count COUNT LENGTH KINDS   the calls of these kinds, 1,000 times each, for a tool that counts instructions:
 *                                     o opens the message, k keeps the pieces between, r repeats the first, f finishes it */
#define _POSIX_C_SOURCE 200809L
#include "piece.h"
#include <stdio.h>
#include <stdlib.h>
#include <string.h>
#include <time.h>

#define TIMES 1000
#define BATCH 16 /* messages at a time */
#define STORES 4

/* aligned, so that two archives copy between the same places; whole cache lines, an odd count of them, so that stores are not in
 * each other's way */
static _Alignas(4096) uint8_t records[STORES][147 * 64], rooms[STORES][16385 * 64], out[STRAWHUB_MESSAGE], bytes[1500];

/* each message has a new one: that of a finished message is refused for a while */
static uint32_t id;

static void wants(unsigned number, unsigned wanted)
{
	if (number == wanted)
		return;
	fprintf(stderr, "pieces: a piece is answered by %u, not by %u\n", number, wanted);
	exit(1);
}

static double now(void)
{
	struct timespec t;
	clock_gettime(CLOCK_MONOTONIC, &t);
	return t.tv_sec * 1e9 + t.tv_nsec;
}

__attribute__((noinline)) static unsigned piece(unsigned store, unsigned neighbour, unsigned number, unsigned last,
                                                size_t length)
{
	struct lent x = {records[store], rooms[store], out};
	return piece_of(x, neighbour, id, (uint8_t)number, (uint8_t)last, 0, bytes, length);
}

/* One call for each of the messages of a batch, and how long they took. */
static double batch(unsigned open, unsigned number, unsigned last, size_t length, unsigned wanted)
{
	double begun = now();
	uint32_t first = id;
	for (; id < first + BATCH; id++) {
		unsigned group = (id - first) / 4;
		wants(open == 4 ? piece(group, 0, number, last, length) : piece(0, group, number, last, length), wanted);
	}
	id = first;
	return now() - begun;
}

static void timed(unsigned count, unsigned length, unsigned open)
{
	unsigned batches = 400000 / (BATCH * count * (1 + length / 200)) + 1, i, n;
	double opening = 0, kept = 0, repeat = 0, finishing = 0;
	for (n = 0; n < batches; n++, id += BATCH) {
		opening += batch(open, 0, 0, length, STRAWHUB_DONE);
		for (i = 1; i + 1 < count; i++)
			kept += batch(open, i, 0, length, STRAWHUB_DONE);
		repeat += batch(open, 0, 0, length, STRAWHUB_PIECE_AGAIN);
		finishing += batch(open, count - 1, 1, length, STRAWHUB_FINISHED);
	}
	n *= BATCH;
	printf("%.2f %.2f %.2f %.2f\n", opening / n, count > 2 ? kept / n / (count - 2) : 0, repeat / n, finishing / n);
}

static void counted(unsigned count, unsigned length, const char *kinds)
{
	int opens = !!strchr(kinds, 'o'), keeps = !!strchr(kinds, 'k'), repeats = !!strchr(kinds, 'r'), finishes = !!strchr(kinds, 'f');
	unsigned i, n;
	for (n = 0; n < TIMES; n++) {
		if (opens)
			wants(piece(0, 0, 0, 0, length), STRAWHUB_DONE);
		for (i = 1; keeps && i + 1 < count; i++)
			wants(piece(0, 0, i, 0, length), STRAWHUB_DONE);
		if (repeats)
			wants(piece(0, 0, 0, 0, length), STRAWHUB_PIECE_AGAIN);
		if (finishes)
			wants(piece(0, 0, count - 1, 1, length), STRAWHUB_FINISHED);
		strawhub_store_new(records[0], STRAWHUB_RECORD);
	}
}

int main(int argc, char **argv)
{
	unsigned count, length;
	if (argc < 5)
		return 2;
	count = (unsigned)atoi(argv[2]);
	length = (unsigned)atoi(argv[3]);
	memset(bytes, 7, sizeof bytes);
	if (strcmp(argv[1], "time") == 0)
		timed(count, length, (unsigned)atoi(argv[4]));
	else
		counted(count, length, argv[4]);
	return 0;
}
