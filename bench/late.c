/* What the memory of finished messages costs, with four neighbours that take turns.
 *   late list         the kinds of calls, one a line
 *   late time KIND    nanoseconds of a call of this kind, the median of 2,001 batches of 16, and its answer
 *   late count KIND   one batch within measured(), for a tool that counts instructions
 * A library that remembers nothing answers a late repeat by 0, one that remembers by 57; every other answer is the same. One from
 * before neighbours has all messages of one sender: 16 open and 64 remembered, where now each neighbour has 4 and 16 of them. */
#define _POSIX_C_SOURCE 200809L
#include "piece.h"
#include <stdio.h>
#include <stdlib.h>
#include <string.h>
#include <time.h>

#define BATCH 16
#define BATCHES 2001
#define LENGTH 64
#define DONE_FROM 1000 /* the id of the first finished message */

enum call { OPENS, KEEPS, FINISHES, REPEATS, SWEEPS };

/* The call; how many messages were finished before; of a late repeat which of them, of a sweep its second. */
static const struct kind {
	const char *name;
	enum call call;
	unsigned finished, at;
} kinds[] = {
	{"an opening piece, none remembered", OPENS, 0, 0},
	{"an opening piece, 64 remembered", OPENS, 64, 0},
	{"a piece between, none remembered", KEEPS, 0, 0},
	{"a piece between, 64 remembered", KEEPS, 64, 0},
	{"a finishing piece, 0 to 15 remembered", FINISHES, 0, 0},
	{"a finishing piece, 64 remembered", FINISHES, 64, 0},
	{"a late repeat, of the first 16 of 64", REPEATS, 64, 0},
	{"a late repeat, of the last 16 of 64", REPEATS, 64, 48},
	{"a sweep, none remembered", SWEEPS, 0, 129},
	{"a sweep, 64 remembered and none due", SWEEPS, 64, 129},
	{"a sweep, 64 remembered and half of them due", SWEEPS, 64, 130},
	{"a sweep, 64 remembered and all due", SWEEPS, 64, 140},
};

#define KINDS (sizeof kinds / sizeof kinds[0])

/* aligned, so that two archives copy between the same places; a sweep has a record of its own in a batch */
static _Alignas(4096) uint8_t records[BATCH][STRAWHUB_RECORD], prepared[STRAWHUB_RECORD], room[STRAWHUB_ROOM];
static _Alignas(4096) uint8_t out[STRAWHUB_MESSAGE], bytes[LENGTH];
static unsigned answers[BATCH];

static double now(void)
{
	struct timespec t;
	clock_gettime(CLOCK_MONOTONIC, &t);
	return t.tv_sec * 1e9 + t.tv_nsec;
}

/* A piece of message `id`, whose neighbour is told by the id. */
static unsigned piece(uint8_t *record, uint32_t id, uint8_t number, uint8_t last, uint64_t second)
{
	struct lent x = {record, room, out};
	return piece_of(x, id % NEIGHBOURS, id, number, last, second, bytes, LENGTH);
}

static void wants(unsigned number, unsigned wanted)
{
	if (number == wanted)
		return;
	fprintf(stderr, "late: a call is answered by %u, not by %u\n", number, wanted);
	exit(1);
}

/* The record before a batch: so many finished messages, every second one of a neighbour ten seconds later; 16 open ones where the
 * calls go on with them. */
static void prepare(const struct kind *k)
{
	uint32_t i;
	wants(strawhub_store_new(prepared, sizeof prepared), STRAWHUB_DONE);
	for (i = 0; i < k->finished; i++) {
		wants(piece(prepared, DONE_FROM + i, 0, 0, 100), STRAWHUB_DONE);
		wants(piece(prepared, DONE_FROM + i, 1, 1, 100 + i / NEIGHBOURS % 2 * 10), STRAWHUB_FINISHED);
	}
	for (i = 0; i < BATCH && (k->call == KEEPS || k->call == FINISHES); i++)
		wants(piece(prepared, i, 0, 0, 100), STRAWHUB_DONE);
}

static void restore(const struct kind *k)
{
	unsigned i, all = k->call == SWEEPS ? BATCH : 1;
	for (i = 0; i < all; i++)
		memcpy(records[i], prepared, sizeof prepared);
}

static unsigned called(const struct kind *k, unsigned i)
{
	switch (k->call) {
	case OPENS: return piece(records[0], i, 0, 0, 100);
	case KEEPS: return piece(records[0], i, 1, 0, 100);
	case FINISHES: return piece(records[0], i, 1, 1, 100);
	case REPEATS: return piece(records[0], DONE_FROM + k->at + i, 1, 1, 100);
	default: return strawhub_store_sweep(records[i], sizeof records[i], k->at);
	}
}

__attribute__((noinline)) void measured(const struct kind *k)
{
	unsigned i;
	for (i = 0; i < BATCH; i++)
		answers[i] = called(k, i);
}

/* All 16 answers are one number: 60 of a finishing piece, 57 or 0 of a late repeat, 0 of the others. */
static unsigned answered(const struct kind *k)
{
	unsigned i, wanted = k->call == FINISHES ? STRAWHUB_FINISHED : STRAWHUB_DONE;
	if (k->call == REPEATS && answers[0] == STRAWHUB_ALREADY_FINISHED)
		wanted = STRAWHUB_ALREADY_FINISHED;
	for (i = 0; i < BATCH; i++)
		wants(answers[i], wanted);
	return wanted;
}

static int order(const void *a, const void *b)
{
	double x = *(const double *)a, y = *(const double *)b;
	return (x > y) - (x < y);
}

static void timed(const struct kind *k)
{
	static double each[BATCHES];
	unsigned n;
	for (n = 0; n < BATCHES; n++) {
		double begun;
		restore(k);
		begun = now();
		measured(k);
		each[n] = (now() - begun) / BATCH;
		answered(k);
	}
	qsort(each, BATCHES, sizeof each[0], order);
	printf("%.2f %u\n", each[BATCHES / 2], answered(k));
}

int main(int argc, char **argv)
{
	size_t i, kind = argc == 3 ? (size_t)atoi(argv[2]) : KINDS;
	memset(bytes, 7, sizeof bytes);
	if (argc == 2 && strcmp(argv[1], "list") == 0) {
		for (i = 0; i < KINDS; i++)
			printf("%s\n", kinds[i].name);
		return 0;
	}
	if (kind >= KINDS)
		return 2;
	prepare(&kinds[kind]);
	if (strcmp(argv[1], "time") == 0) {
		timed(&kinds[kind]);
		return 0;
	}
	restore(&kinds[kind]);
	measured(&kinds[kind]);
	printf("%u\n", answered(&kinds[kind]));
	return 0;
}
