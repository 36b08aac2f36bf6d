/* What a block costs.
 *   blocks KIND FILE    nanoseconds of a call, and a sum over all that the calls said: read or write each block of the payloads, or
 *                       list each payload; with KIND-TYPE, as read-12, the blocks of this type alone
 * FILE holds a payload a line, in hexadecimal digits up to a blank. */
#define _POSIX_C_SOURCE 200809L
#include "strawhub.h"
#include <stdio.h>
#include <stdlib.h>
#include <string.h>
#include <time.h>

#define PAYLOADS 4000
#define BLOCKS 20000
#define TIMES 25

static uint8_t *payloads[PAYLOADS], room[70000];
static size_t lengths[PAYLOADS], count, blocks;
static struct {
	size_t payload, place;
	uint64_t out[12];
} block[BLOCKS];
static struct strawhub_entry list[500];
static uint64_t sum;

static double now(void)
{
	struct timespec t;
	clock_gettime(CLOCK_MONOTONIC, &t);
	return t.tv_sec * 1e9 + t.tv_nsec;
}

static void payload_of(const char *line)
{
	size_t n = strspn(line, "0123456789abcdefABCDEF") / 2;
	uint8_t *bytes = malloc(n + 1);
	for (size_t i = 0; i < n; i++) {
		unsigned x;
		sscanf(line + 2 * i, "%2x", &x);
		bytes[i] = (uint8_t)x;
	}
	payloads[count] = bytes;
	lengths[count++] = n;
}

/* The blocks of a payload, up to its end or to one that is refused; those of one type alone, unless it is none. */
static void blocks_of(size_t payload, int type)
{
	size_t place = 0;
	while (place < lengths[payload] && blocks < BLOCKS) {
		struct strawhub_outcome x = strawhub_block_read(payloads[payload], lengths[payload], place, block[blocks].out);
		if (x.number != 0)
			return;
		block[blocks].payload = payload;
		block[blocks].place = place;
		blocks += type < 0 || block[blocks].out[0] == (uint64_t)type;
		place = x.value;
	}
}

static void say(struct strawhub_outcome x)
{
	sum = sum * 31 + x.number * 7 + x.value;
}

static void read_all(void)
{
	for (size_t i = 0; i < blocks; i++) {
		uint64_t out[12] = {0};
		say(strawhub_block_read(payloads[block[i].payload], lengths[block[i].payload], block[i].place, out));
		sum += out[2] + out[3] + out[4] + out[5] + out[6];
	}
}

static void write_all(void)
{
	for (size_t i = 0; i < blocks; i++) {
		const uint64_t *b = block[i].out;
		say(strawhub_block_write(room, sizeof room, (uint8_t)b[0], b + 4, payloads[block[i].payload] + b[2], b[3]));
		sum += room[3] + room[5];
	}
}

static void list_all(void)
{
	for (size_t i = 0; i < count; i++)
		say(strawhub_block_list(payloads[i], lengths[i], list, 500));
}

int main(int argc, char **argv)
{
	static char line[8000];
	FILE *f = argc == 3 ? fopen(argv[2], "r") : NULL;
	if (!f || !strchr("rwl", argv[1][0])) {
		fprintf(stderr, "blocks read|write|list[-TYPE] FILE\n");
		return 2;
	}
	while (count < PAYLOADS && fgets(line, sizeof line, f))
		payload_of(line);
	const char *type = strchr(argv[1], '-');
	for (size_t i = 0; i < count; i++)
		blocks_of(i, type ? atoi(type + 1) : -1);
	void (*all)(void) = argv[1][0] == 'r' ? read_all : argv[1][0] == 'w' ? write_all : list_all;
	size_t calls = argv[1][0] == 'l' ? count : blocks;
	double best = 1e18;
	for (int i = 0; calls > 0 && i < TIMES; i++) {
		double begun = now();
		all();
		double took = (now() - begun) / calls;
		best = took < best ? took : best;
	}
	printf("%.3f %zu %llu\n", calls ? best : 0, calls, (unsigned long long)sum);
	return 0;
}
