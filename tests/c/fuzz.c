/* Any bytes to every call: fuzz SEED CALLS.
 *
 * Every lent slice stands flush against a page that cannot be touched, before it or after it, so that a byte too far
 * stops the run. After a refusal all lent bytes are compared with a copy; after a success those that the call may
 * not write, and what it says that it left. Trackers, senders and stores go on from call to call, some of them
 * forged. A store that is not forged is held to its summary after each call: as many messages as slots are in use. */
#define _DEFAULT_SOURCE
#include "strawhub.h"

#include <signal.h>
#include <stdio.h>
#include <stdlib.h>
#include <string.h>
#include <sys/mman.h>
#include <unistd.h>

#define PAGE 4096
#define BESIDE 64 /* bytes beside a slice that are looked at too */
#define CANARY 0xa7

static const char *call = "";
static unsigned long long seed, calls, total;
static unsigned long long answered[STRAWHUB_NOT_OUTSTANDING + 1]; /* the highest number */

static void stop(const char *why)
{
	fprintf(stderr, "fuzz: %s: %s, at call %llu of seed %llu\n", call, why, calls, seed);
	_exit(1);
}

static uint64_t second_now = 1000;

/* ---- numbers from the seed: xorshift64* ---- */

static uint64_t state;

static uint64_t any(void)
{
	state ^= state >> 12;
	state ^= state << 25;
	state ^= state >> 27;
	return state * 0x2545f4914f6cdd1dULL;
}

static size_t below(size_t n)
{
	return (size_t)((any() >> 11) % n);
}

static int one_in(size_t n)
{
	return below(n) == 0;
}

static void any_bytes(uint8_t *at, size_t n)
{
	size_t i;
	uint64_t x = 0;
	for (i = 0; i < n; i++) {
		x = i % 8 ? x >> 8 : any();
		at[i] = (uint8_t)x;
	}
}

/* Some bytes changed. */
static void mutate(uint8_t *at, size_t n)
{
	size_t left = n ? 1 + below(6) : 0;
	while (left--)
		at[below(n)] ^= (uint8_t)(1u << below(8));
}

/* ---- lent slices ---- */

struct fence {
	size_t size;           /* the longest slice */
	uint8_t *start, *copy; /* whole pages between two that cannot be touched; what the slice held */
	size_t span;
	uint8_t *at; /* the slice that is lent now */
	size_t n;
	int writes; /* whether the call may write it */
};

static struct fence packet = {.size = 1600}, key1 = {.size = 32}, key2 = {.size = 32}, nonce = {.size = 12};
static struct fence numbers = {.size = 96}, fields = {.size = 64}, payload = {.size = 70000}, bytes = {.size = 70000};
static struct fence list = {.size = 16 * 700}, room = {.size = 70000}, pairs = {.size = 300};
static struct fence tracker = {.size = 400}, record = {.size = STRAWHUB_RECORD + 400}, out = {.size = 65600};
static struct fence sender = {.size = STRAWHUB_SENDER + 400}, settled = {.size = STRAWHUB_OUTSTANDING * 4};
static struct fence *const fences[] = {&packet, &key1, &key2,  &nonce,   &numbers, &fields, &payload, &bytes,
                                       &list,   &room, &pairs, &tracker, &record,  &out,    &sender,  &settled};

static struct fence *lent[16];
static size_t lents;

static uint8_t *map(size_t span)
{
	uint8_t *start = mmap(NULL, span + 2 * PAGE, PROT_NONE, MAP_PRIVATE | MAP_ANONYMOUS, -1, 0);
	if (start == MAP_FAILED || mprotect(start + PAGE, span, PROT_READ | PROT_WRITE) != 0)
		stop("no memory");
	return start + PAGE;
}

static void raise_fences(void)
{
	size_t i;
	for (i = 0; i < sizeof fences / sizeof fences[0]; i++) {
		struct fence *f = fences[i];
		f->span = (f->size + PAGE - 1) / PAGE * PAGE;
		f->start = map(f->span);
		f->copy = malloc(f->span);
		if (f->copy == NULL)
			stop("no memory");
	}
}

/* Lends n bytes, flush against the page before them or the one after; none may be lent as NULL. */
static uint8_t *lend(struct fence *f, size_t n, int writes)
{
	f->n = n;
	f->at = one_in(2) ? f->start : f->start + f->span - n;
	f->writes = writes;
	lent[lents++] = f;
	return n == 0 && one_in(2) ? NULL : f->at;
}

/* The bytes beside a slice: those before it and those after it, as far as its pages go. */
static size_t before_it(const struct fence *f)
{
	size_t n = (size_t)(f->at - f->start);
	return n < BESIDE ? n : BESIDE;
}

static size_t after_it(const struct fence *f)
{
	size_t n = (size_t)(f->start + f->span - (f->at + f->n));
	return n < BESIDE ? n : BESIDE;
}

static void copy_lent(void)
{
	size_t i;
	for (i = 0; i < lents; i++) {
		struct fence *f = lent[i];
		memset(f->at - before_it(f), CANARY, before_it(f));
		memset(f->at + f->n, CANARY, after_it(f));
		memcpy(f->copy, f->at, f->n);
	}
}

static int untouched(const uint8_t *at, size_t n)
{
	while (n--)
		if (*at++ != CANARY)
			return 0;
	return 1;
}

/* Whether a slice from a place on is as it was. */
static void stays(const struct fence *f, size_t from)
{
	if (f->n < from)
		stop("more is said to be written than was lent");
	if (memcmp(f->at + from, f->copy + from, f->n - from) != 0)
		stop("bytes were changed that have to stay");
}

/* ---- neighbours: each has a quarter of a store's record and of its room ---- */

#define SHARE (STRAWHUB_RECORD / STRAWHUB_NEIGHBOURS)
#define ROOM_SHARE (STRAWHUB_ROOM / STRAWHUB_NEIGHBOURS)

static uint64_t neighbour; /* the one that pieces come from */

/* One of the four, as a rule; else a number that is too high, and with fewer bits would be one of them or not. */
static void any_neighbour(void)
{
	static const uint64_t high[] = {4, 5, 255, 256, 257, 65536, (uint64_t)1 << 32, ((uint64_t)1 << 32) + 3,
	                                (uint64_t)1 << 63, UINT64_MAX};
	neighbour = one_in(60) ? high[below(sizeof high / sizeof high[0])] : one_in(500) ? any() : below(4);
}

/* The neighbour whose messages are sent. */
static size_t sending(void)
{
	return (size_t)(neighbour % STRAWHUB_NEIGHBOURS);
}

/* ---- the store's room: its pages are only read until a call writes one, which is then kept for comparing ---- */

#define PAGES ((STRAWHUB_ROOM + PAGE - 1) / PAGE)

static uint8_t *store_room, *room_at; /* the pages, and where the room that is lent begins */
static uint8_t kept[PAGES][PAGE];
static uint8_t *dirty[PAGES];
static size_t dirties;

static void touched(int signal_number, siginfo_t *info, void *context)
{
	uint8_t *at = info->si_addr;
	(void)signal_number;
	(void)context;
	if (at < store_room || store_room + PAGES * PAGE <= at || dirties == PAGES)
		stop("a byte outside what was lent was touched");
	at -= (size_t)(at - store_room) % PAGE;
	memcpy(kept[dirties], at, PAGE);
	dirty[dirties++] = at;
	if (mprotect(at, PAGE, PROT_READ | PROT_WRITE) != 0)
		stop("a page cannot be opened");
}

static void guard_room(void)
{
	struct sigaction action;
	memset(&action, 0, sizeof action);
	action.sa_sigaction = touched;
	action.sa_flags = SA_SIGINFO;
	sigemptyset(&action.sa_mask);
	store_room = map(PAGES * PAGE);
	any_bytes(store_room, PAGES * PAGE);
	if (mprotect(store_room, PAGES * PAGE, PROT_READ) != 0 || sigaction(SIGSEGV, &action, NULL) != 0 ||
	    sigaction(SIGBUS, &action, NULL) != 0)
		stop("the room cannot be guarded");
}

/* The bytes of a page from one place of the room to another are as they were. */
static void page_stays(size_t page, const uint8_t *from, const uint8_t *to, const char *why)
{
	const uint8_t *start = dirty[page], *end = start + PAGE;
	from = from < start ? start : from;
	to = to < end ? to : end;
	if (from < to && memcmp(from, kept[page] + (from - start), (size_t)(to - from)) != 0)
		stop(why);
}

/* A refusal leaves the room, and any call the shares of the other neighbours. */
static void close_room(int refused)
{
	const uint8_t *end = store_room + PAGES * PAGE;
	while (dirties) {
		const uint8_t *share = room_at + sending() * ROOM_SHARE;
		dirties--;
		if (refused)
			page_stays(dirties, store_room, end, "a refusal changed the room");
		page_stays(dirties, store_room, share, "another neighbour's room was changed");
		page_stays(dirties, share + ROOM_SHARE, end, "another neighbour's room was changed");
		if (mprotect(dirty[dirties], PAGE, PROT_READ) != 0)
			stop("a page cannot be closed");
	}
}

/* ---- what holds after every call ---- */

static int is_refusal(uint64_t number)
{
	return number != STRAWHUB_DONE && number != STRAWHUB_FINISHED;
}

static void answer(uint64_t number)
{
	size_t i;
	if (number > STRAWHUB_NOT_OUTSTANDING)
		stop("no such number");
	answered[number]++;
	for (i = 0; i < lents; i++) {
		struct fence *f = lent[i];
		if (!f->writes || is_refusal(number))
			stays(f, 0);
		if (!untouched(f->at - before_it(f), before_it(f)) || !untouched(f->at + f->n, after_it(f)))
			stop("bytes beside a slice were changed");
	}
	close_room(is_refusal(number));
}

static void must(int holds, const char *why)
{
	if (!holds)
		stop(why);
}

static int may_answer(uint64_t number, const char *allowed)
{
	char word[8];
	snprintf(word, sizeof word, " %u ", (unsigned)number);
	return strstr(allowed, word) != NULL;
}

static uint64_t *lend_numbers(size_t count)
{
	uint8_t *at = lend(&numbers, count * 8, 1);
	any_bytes(numbers.at, numbers.n);
	return (uint64_t *)(void *)at;
}

static void lend_keys(void)
{
	any_bytes(lend(&key1, 32, 0), 32);
	any_bytes(lend(&key2, 32, 0), 32);
}

/* ---- headers ---- */

static void keystream(void)
{
	uint8_t *stream = lend(&out, 64, 1);
	lend_keys();
	any_bytes(lend(&nonce, 12, 0), 12);
	copy_lent();
	strawhub_keystream(key1.at, (uint32_t)any(), nonce.at, stream);
	answer(0);
}

static uint8_t *lend_packet(void)
{
	uint8_t *at = lend(&packet, one_in(3) ? below(1601) : 30 + below(80), 1);
	any_bytes(packet.at, packet.n);
	return at;
}

/* A Data header, then other bits at the type and at the byte after it. */
static void plausible_header(void)
{
	if (strawhub_header_write(packet.at, packet.n, key1.at, key2.at, 6, any(), one_in(2) ? 0 : (uint32_t)any(), 0, 0, 0,
	                          0, 0, 0, 0) != 0)
		return;
	packet.at[12] ^= (uint8_t)(6 ^ below(13));
	packet.at[13] ^= (uint8_t)below(7);
}

static void header_read(void)
{
	uint8_t *at = lend_packet();
	uint64_t *o = lend_numbers(11);
	uint32_t number;
	lend_keys();
	if (!one_in(4))
		plausible_header();
	copy_lent();
	number = strawhub_header_read(at, packet.n, key1.at, key2.at, o);
	must(may_answer(number, " 0 20 21 22 23 24 "), "another number");
	answer(number);
	if (number != 0)
		return;
	stays(&packet, packet.n < 64 ? packet.n : 64);
	must(o[0] <= 11 && o[3] <= 15 && o[4] <= 15 && o[5] <= 1 && (o[10] == 0 || o[10] == 32), "a field out of range");
}

static void header_write(void)
{
	uint8_t *at = lend_packet(), kind = (uint8_t)below(13), version = (uint8_t)(1 + below(4));
	uint8_t fragment = (uint8_t)below(17), count = (uint8_t)below(17), flag = (uint8_t)below(3);
	uint64_t destination = any(), read[11];
	uint32_t sequence = one_in(2) ? 0 : (uint32_t)any(), number;
	lend_keys();
	copy_lent();
	number = strawhub_header_write(at, packet.n, key1.at, key2.at, kind, destination, sequence, version, 2, 3, 4, fragment,
	                               count, flag);
	must(may_answer(number, " 0 20 21 22 24 25 "), "another number");
	answer(number);
	if (number != 0)
		return;
	stays(&packet, kind < 2 ? 64 : kind == 2 || kind == 6 ? 16 : 32);
	must(strawhub_header_read(at, packet.n, key1.at, key2.at, read) == 0, "what was written is not read");
	must(read[0] == kind && read[7] == destination && read[6] == sequence, "what was written is read otherwise");
	must(kind >= 2 || memcmp(packet.at + 32, packet.copy + 32, 32) == 0, "the key is read otherwise");
}

/* ---- payloads ---- */

static uint8_t draft[70000];

static void put(uint8_t *at, unsigned width, uint64_t x)
{
	while (width--) {
		at[width] = (uint8_t)x;
		x >>= 8;
	}
}

/* Messages are told by their id: how many pieces, how long each is. Some are longer than a message may be. Of each
 * neighbour 6 are on their way at a time, under the same ids as another's; when one is finished, another of the same
 * shape takes its place, and its pieces still come. */
#define ON_THEIR_WAY 6
#define SHAPES 40 /* ids that are so far apart have the same shape */
#define DONE 20   /* more than a store remembers of a neighbour */

static struct {
	uint32_t rounds[ON_THEIR_WAY], done[DONE];
	size_t dones;
} sent_by[STRAWHUB_NEIGHBOURS];

static uint32_t any_id(void)
{
	size_t n = one_in(200) ? below(STRAWHUB_NEIGHBOURS) : sending(); /* rarely one that another neighbour sends */
	size_t i = below(ON_THEIR_WAY), dones = sent_by[n].dones;
	if (dones && one_in(20)) {
		size_t newest = one_in(50) ? DONE : 9; /* rarely one that may be forgotten */
		return sent_by[n].done[(dones - 1 - below(dones < newest ? dones : newest)) % DONE];
	}
	return (uint32_t)i + 1 + SHAPES * sent_by[n].rounds[i];
}

static void is_finished(uint32_t id)
{
	uint32_t i = id % SHAPES - 1, *rounds = sent_by[sending()].rounds;
	sent_by[sending()].done[sent_by[sending()].dones++ % DONE] = id;
	if (i < ON_THEIR_WAY && id / SHAPES == rounds[i])
		rounds[i]++;
}

static uint8_t last_of(uint32_t id)
{
	return (uint8_t)(id % 5 == 0 ? 60 : 1 + id % 4);
}

static uint8_t any_piece(uint32_t id)
{
	return (uint8_t)(one_in(20) ? below(256) : below((size_t)last_of(id) + 1));
}

static size_t piece_length(uint32_t id, uint8_t number)
{
	if (one_in(100))
		return below(1600);
	return id % 5 == 0 ? 1500 : 1 + (id * 7 + number * 13) % 90;
}

/* The same bytes for the same piece of a neighbour, but for a few. */
static void piece_bytes(uint8_t *at, size_t n, uint32_t id, uint8_t number)
{
	size_t i;
	for (i = 0; i < n; i++)
		at[i] = (uint8_t)(i * 3 + id * 31 + number + sending() * 64);
	if (n && one_in(40))
		mutate(at, n);
}

/* A piece as a block. */
static size_t draft_piece(uint8_t *at, uint32_t id)
{
	uint8_t number = any_piece(id) & 127;
	size_t n = piece_length(id, number), head = number == 0 ? 9 : 5;
	at[0] = number == 0 ? 4 : 5;
	put(at + 1, 2, n + head);
	at[3] = number == 0 ? 20 : (uint8_t)(number * 2 + (number == last_of(id)));
	put(at + 4, 4, id);
	if (number == 0)
		put(at + 8, 4, id * 3);
	piece_bytes(at + 3 + head, n, id, number);
	return 3 + head + n;
}

/* A block of any type with the size that it should have, or nearly. */
static size_t draft_block(uint8_t *at)
{
	static const uint8_t kinds[] = {0, 1, 2, 3, 4, 5, 6, 7, 11, 12, 13, 14, 15, 16, 17, 18, 19, 20, 21, 254};
	static const uint8_t listed[] = {1, 2, 3, 10, 11, 18, 20, 26, 27};
	uint8_t kind = one_in(20) ? (uint8_t)any() : kinds[below(sizeof kinds)];
	size_t size = below(40);
	switch (kind) {
	case 0: case 16: case 20: size = 4; break;
	case 1: case 17: size = 12; break;
	case 6: size = 9; break;
	case 12: size = 5 + 2 * below(10) + one_in(8); break;
	case 13: size = one_in(2) ? 6 : 18; break;
	case 15: size = 0; break;
	case 21: size = 1; break;
	default: break;
	}
	if (one_in(20))
		size = below(60);
	at[0] = kind;
	put(at + 1, 2, size);
	any_bytes(at + 3, size);
	if ((kind == 3 || kind == 4) && size)
		at[3] = listed[below(sizeof listed)];
	return 3 + size;
}

/* Blocks, some pieces among them; or noise; cut or changed here and there. */
static const uint8_t *lend_payload(void)
{
	size_t n = 0, blocks = below(one_in(50) ? 600 : 8);
	const uint8_t *at;
	if (one_in(20)) {
		n = below(200);
		any_bytes(draft, n);
	}
	while (blocks-- && n < 60000)
		n += one_in(3) ? draft_piece(draft + n, any_id()) : draft_block(draft + n);
	if (n && one_in(4))
		n = below(n);
	if (one_in(4))
		mutate(draft, n);
	at = lend(&payload, n, 0);
	memcpy(payload.at, draft, n);
	return at;
}

/* The place of some block, or any. */
static size_t any_place(void)
{
	uint64_t o[12];
	size_t at = 0, steps = below(6);
	if (one_in(20))
		return one_in(2) ? (size_t)any() : below(payload.n + 2);
	while (steps--) {
		struct strawhub_outcome r = strawhub_block_read(payload.at, payload.n, at, o);
		if (r.number != 0 || r.value == payload.n)
			break;
		at = (size_t)r.value;
	}
	return at;
}

#define READING " 0 1 2 3 4 5 6 7 8 9 "

static void block_read(void)
{
	const uint8_t *p = lend_payload();
	uint64_t *o = lend_numbers(12);
	size_t at = any_place();
	struct strawhub_outcome r;
	copy_lent();
	r = strawhub_block_read(p, payload.n, at, o);
	must(may_answer(r.number, READING), "another number");
	answer(r.number);
	if (r.number != 0) {
		must(r.value == at, "a refusal at another place");
		return;
	}
	must(at + 3 <= r.value && r.value <= payload.n, "a block that ends outside the payload");
	must(o[2] <= payload.n && o[3] <= payload.n - o[2], "bytes outside the payload");
}

static void block_list(void)
{
	const uint8_t *p = lend_payload();
	size_t room_for = one_in(3) ? below(700) : below(12), i, at = 0;
	struct strawhub_entry *entries = (struct strawhub_entry *)(void *)lend(&list, room_for * 16, 1);
	struct strawhub_outcome r;
	uint64_t o[12];
	any_bytes(list.at, list.n);
	copy_lent();
	r = strawhub_block_list(p, payload.n, entries, room_for);
	must(may_answer(r.number, READING "10 "), "another number");
	answer(r.number);
	if (r.number != 0) {
		must(r.value <= payload.n, "a place outside the payload");
		return;
	}
	must(r.value <= room_for, "more entries than were lent");
	stays(&list, (size_t)r.value * 16);
	for (i = 0; i < r.value; i++) {
		struct strawhub_outcome b = strawhub_block_read(payload.at, payload.n, at, o);
		must(b.number == 0 && entries[i].place == at && entries[i].kind == o[0] && entries[i].size == o[1],
		     "a listing that differs from the blocks");
		at = (size_t)b.value;
	}
	must(at == payload.n, "a listing that ends early");
}

static size_t any_body(uint8_t kind)
{
	if (one_in(300))
		return 65500 + below(100);
	if (kind == 13 && !one_in(4))
		return one_in(2) ? 4 : 16;
	return below(60);
}

static void any_fields(uint64_t *f, uint8_t kind)
{
	static const uint8_t widths[] = {8, 8, 7, 16, 32, 32, 1};
	size_t i;
	for (i = 0; i < 8; i++)
		f[i] = any() >> (64 - widths[below(one_in(3) ? sizeof widths : 3)]);
	if ((kind == 3 || kind == 4) && !one_in(5))
		f[0] = 18 + below(9);
	if (kind == 5)
		f[1] &= one_in(5) ? 3 : 1;
	if (one_in(20))
		f[below(8)] = any();
}

/* How many fields a type has. */
static size_t fields_of(uint8_t kind)
{
	static const uint8_t counts[22] = {1, 8, 2, 3, 3, 3, 2, 0, 0, 0, 0, 0, 2, 1, 0, 0, 1, 2, 0, 0, 1, 1};
	return kind < sizeof counts ? counts[kind] : 0;
}

static void block_write(void)
{
	uint8_t kind = (uint8_t)(one_in(3) ? any() : below(22)), *at, *b;
	uint64_t *f = (uint64_t *)(void *)lend(&fields, 64, 0), o[12];
	struct strawhub_outcome r, read;
	any_fields(f, kind);
	b = lend(&bytes, any_body(kind), 0);
	any_bytes(bytes.at, bytes.n < 100 ? bytes.n : 100);
	at = lend(&room, one_in(200) ? below(70001) : below(90), 1);
	copy_lent();
	r = strawhub_block_write(at, room.n, kind, f, b, bytes.n);
	must(may_answer(r.number, " 0 30 31 32 "), "another number");
	answer(r.number);
	if (r.number != 0)
		return;
	stays(&room, (size_t)r.value);
	read = strawhub_block_read(room.at, (size_t)r.value, 0, o);
	must(read.number == 0 && read.value == r.value && o[0] == kind, "what was written is not read");
	if (kind == 5)
		f[1] = f[1] != 0; /* last is a flag */
	must(memcmp(o + 4, f, fields_of(kind) * 8) == 0, "other fields are read");
	must(o[3] == 0 || (o[3] == bytes.n && memcmp(room.at + o[2], bytes.at, bytes.n) == 0), "other bytes are read");
}

/* ---- trackers ---- */

static uint8_t tracker_now[STRAWHUB_TRACKER];
static uint32_t near_number;

/* The tracker as the last call left it, at times forged, at times short or longer than it has to be. */
static uint8_t *lend_tracker(int writes)
{
	size_t n = one_in(60) ? below(401) : STRAWHUB_TRACKER;
	uint8_t *at;
	if (one_in(2000))
		any_bytes(tracker_now, sizeof tracker_now);
	if (one_in(2000))
		mutate(tracker_now, sizeof tracker_now);
	at = lend(&tracker, n, writes);
	any_bytes(tracker.at, n);
	memcpy(tracker.at, tracker_now, n < sizeof tracker_now ? n : sizeof tracker_now);
	return at;
}

static void keep_tracker(void)
{
	if (tracker.n < sizeof tracker_now)
		return;
	memcpy(tracker_now, tracker.at, sizeof tracker_now);
	stays(&tracker, sizeof tracker_now);
}

static uint32_t any_number(void)
{
	if (one_in(20))
		return (uint32_t)any();
	return near_number + (uint32_t)(one_in(10) ? below(600) : below(8)) - (uint32_t)(one_in(3) ? below(300) : 0);
}

static void tracker_new(void)
{
	uint8_t *at = lend_tracker(1);
	uint32_t number;
	copy_lent();
	number = strawhub_tracker_new(at, tracker.n);
	must(may_answer(number, " 0 59 "), "another number");
	answer(number);
	keep_tracker();
	near_number = 0;
}

static void tracker_register(void)
{
	uint8_t *at = lend_tracker(1);
	uint32_t n = any_number(), number;
	copy_lent();
	number = strawhub_tracker_register(at, tracker.n, n);
	must(may_answer(number, " 0 40 42 43 59 "), "another number");
	answer(number);
	keep_tracker();
	if (number == 0) {
		near_number = n > near_number ? n : near_number;
		must(strawhub_tracker_duplicate(tracker.at, tracker.n, n) == 1, "a registered number is not there");
	}
}

static void tracker_duplicate(void)
{
	uint8_t *at = lend_tracker(0);
	uint32_t number;
	copy_lent();
	number = strawhub_tracker_duplicate(at, tracker.n, any_number());
	must(may_answer(number, " 0 1 59 "), "another number");
	answer(number == 1 ? 0 : number);
}

static void tracker_report(void)
{
	uint8_t *at = lend_tracker(0), *p = lend(&pairs, 254, 1);
	uint64_t *o = lend_numbers(3);
	uint32_t number;
	any_bytes(p, 254);
	copy_lent();
	number = strawhub_tracker_report(at, tracker.n, o, p);
	must(may_answer(number, " 0 41 59 "), "another number");
	answer(number);
	if (number != 0)
		return;
	must(o[0] <= 0xffffffffu && o[1] <= 255 && o[2] <= 254 && o[2] % 2 == 0, "a report out of range");
	near_number = (uint32_t)o[0];
}

static void tracker_ack_block(void)
{
	uint8_t *at = lend_tracker(0), *r = lend(&room, one_in(3) ? below(20) : below(300), 1);
	struct strawhub_outcome o;
	any_bytes(room.at, room.n);
	copy_lent();
	o = strawhub_tracker_ack_block(at, tracker.n, r, room.n);
	must(may_answer(o.number, " 0 30 41 59 "), "another number");
	answer(o.number);
	if (o.number != 0)
		return;
	stays(&room, (size_t)o.value);
	must(room.at[0] == 12, "no Ack block");
}

static void ack_expand(void)
{
	size_t room_for = one_in(2) ? below(2800) : below(300), i;
	uint32_t through = one_in(2) ? (uint32_t)any() : (uint32_t)below(3000);
	uint32_t *numbers_named = (uint32_t *)(void *)lend(&list, room_for * 4, 1);
	const uint8_t *p = lend(&pairs, one_in(4) ? below(301) : below(10), 0);
	struct strawhub_expanded r;
	any_bytes(pairs.at, pairs.n);
	any_bytes(list.at, list.n);
	copy_lent();
	r = strawhub_ack_expand(through, (uint8_t)any(), p, pairs.n, numbers_named, room_for);
	must(may_answer(r.number, " 0 44 46 "), "another number");
	answer(r.number);
	if (r.number != 0)
		return;
	must(r.count >= 1 && r.count <= room_for && numbers_named[0] == through, "a count out of range");
	stays(&list, r.count * 4);
	for (i = 1; i < r.count; i++)
		must(numbers_named[i] < numbers_named[i - 1], "numbers that do not fall");
}

/* ---- senders ---- */

#define HEAD 8          /* the highest number given out and the count of outstanding packets, low byte first */
#define PACKET_BYTES 16 /* then the packets: number, resends, second */

static uint8_t sender_now[STRAWHUB_SENDER];

static uint64_t little(const uint8_t *at, unsigned width)
{
	uint64_t x = 0;
	while (width--)
		x = x << 8 | at[width];
	return x;
}

static void put_little(uint8_t *at, unsigned width, uint64_t x)
{
	while (width--) {
		*at++ = (uint8_t)x;
		x >>= 8;
	}
}

static uint32_t highest_of(const uint8_t *s)
{
	return (uint32_t)little(s, 4);
}

static size_t count_of(const uint8_t *s)
{
	uint64_t n = little(s + 4, 4);
	return n < STRAWHUB_OUTSTANDING ? (size_t)n : STRAWHUB_OUTSTANDING;
}

static const uint8_t *packet_of(const uint8_t *s, size_t k)
{
	return s + HEAD + k * PACKET_BYTES;
}

/* So many packets are outstanding, as calls would have left them: their numbers rise to the highest, with gaps. */
static void send_many(uint32_t highest, size_t n)
{
	uint32_t number = highest;
	put_little(sender_now, 4, highest);
	put_little(sender_now + 4, 4, n);
	while (n--) {
		uint8_t *p = sender_now + HEAD + n * PACKET_BYTES;
		put_little(p, 4, number);
		put_little(p + 4, 4, one_in(3) ? below(9) : 0);
		put_little(p + 8, 8, second_now - below(40));
		number -= 1 + (uint32_t)(one_in(4) ? below(3) : 0);
	}
}

static void forge_sender(void)
{
	if (one_in(4000))
		any_bytes(sender_now, sizeof sender_now);
	if (one_in(3000))
		mutate(sender_now, sizeof sender_now);
	if (one_in(3000))
		mutate(sender_now, HEAD);
	if (one_in(1000))
		send_many(1000 + (uint32_t)below(100000), STRAWHUB_OUTSTANDING - below(3));
	if (one_in(4000)) /* the last numbers are given out */
		send_many(UINT32_MAX - (uint32_t)below(3), one_in(2) ? STRAWHUB_OUTSTANDING : below(STRAWHUB_OUTSTANDING));
}

/* The sender as the last call left it, at times forged, at times short or longer than it has to be. */
static uint8_t *lend_sender(int writes)
{
	size_t n = one_in(60) ? below(STRAWHUB_SENDER + 401) : STRAWHUB_SENDER;
	uint8_t *at;
	if (one_in(100))
		n = STRAWHUB_SENDER - 1;
	forge_sender();
	at = lend(&sender, n, writes);
	memset(sender.at, 0x33, n);
	memcpy(sender.at, sender_now, n < sizeof sender_now ? n : sizeof sender_now);
	return at;
}

/* A call that was taken leaves so many packets: what stands behind them stays. */
static void keep_sender(size_t packets)
{
	must(little(sender.at + 4, 4) == packets, "another count is left");
	stays(&sender, HEAD + packets * PACKET_BYTES);
	memcpy(sender_now, sender.at, sizeof sender_now);
}

static int used_up(void)
{
	return highest_of(sender.at) == UINT32_MAX;
}

/* Where the packet of a number stands in what was lent, or their count. */
static size_t place_of(uint32_t number)
{
	size_t n = count_of(sender.at), k = 0;
	while (k < n && little(packet_of(sender.at, k), 4) != number)
		k++;
	return k;
}

/* The number of some outstanding packet, or any. */
static uint32_t any_outstanding(void)
{
	size_t n = count_of(sender_now);
	if (n == 0 || one_in(8))
		return one_in(2) ? (uint32_t)any() : highest_of(sender_now) - (uint32_t)below(300);
	return (uint32_t)little(packet_of(sender_now, below(n)), 4);
}

static void sender_new(void)
{
	uint8_t *at = lend_sender(1);
	uint32_t number;
	copy_lent();
	number = strawhub_sender_new(at, sender.n);
	must(number == (sender.n < STRAWHUB_SENDER ? 59 : 0), "another number");
	answer(number);
	if (number != 0)
		return;
	memset(sender_now, 0, sizeof sender_now);
	must(memcmp(sender.at, sender_now, sizeof sender_now) == 0, "a new sender is not all zero");
	stays(&sender, sizeof sender_now);
}

/* What a send or a resend leaves: the next number is given out, and its packet stands last. */
static void is_given_out(uint64_t number, size_t packets, uint64_t resends)
{
	const uint8_t *p = packet_of(sender.at, packets - 1);
	must(number == (uint64_t)highest_of(sender.copy) + 1 && highest_of(sender.at) == number, "not the next number");
	must(little(p, 4) == number && little(p + 4, 4) == resends && little(p + 8, 8) == second_now, "another packet");
	keep_sender(packets);
}

static void sender_send(void)
{
	uint8_t *at = lend_sender(1);
	struct strawhub_outcome o;
	size_t n = sender.n < STRAWHUB_SENDER ? 0 : count_of(sender.at);
	unsigned due = sender.n < STRAWHUB_SENDER ? 59 : used_up() ? 71 : n == STRAWHUB_OUTSTANDING ? 70 : 0;
	copy_lent();
	o = strawhub_sender_send(at, sender.n, second_now);
	must(o.number == due, "another number");
	answer(o.number);
	if (o.number != 0)
		return;
	must(memcmp(sender.at + HEAD, sender.copy + HEAD, n * PACKET_BYTES) == 0, "a send changed another packet");
	is_given_out(o.value, n + 1, 0);
}

static void sender_resend(void)
{
	uint8_t *at = lend_sender(1);
	uint32_t number = any_outstanding();
	struct strawhub_outcome o;
	size_t n = sender.n < STRAWHUB_SENDER ? 0 : count_of(sender.at), k = n == 0 ? 0 : place_of(number);
	unsigned due = sender.n < STRAWHUB_SENDER ? 59 : k == n ? 73 : used_up() ? 71 : 0;
	copy_lent();
	o = strawhub_sender_resend(at, sender.n, number, second_now);
	must(o.number == due, "another number");
	answer(o.number);
	if (o.number != 0)
		return;
	must(memcmp(sender.at + HEAD, sender.copy + HEAD, k * PACKET_BYTES) == 0 &&
	         memcmp(packet_of(sender.at, k), packet_of(sender.copy, k + 1), (n - 1 - k) * PACKET_BYTES) == 0,
	     "a resend changed another packet");
	is_given_out(o.value, n, (uint32_t)(little(packet_of(sender.copy, k) + 4, 4) + 1));
}

/* Whether an acknowledgement names a number: count below through, then by turns missing ones and others. */
static int names(uint32_t through, uint8_t count, uint32_t number)
{
	int64_t x = number, above = (int64_t)through + 1, low = (int64_t)through - count;
	size_t i;
	for (i = 0;; i += 2) {
		if (low <= x && x < above)
			return 1;
		if (pairs.n - i < 2 || above <= x)
			return 0;
		above = low - pairs.at[i];
		low = above - pairs.at[i + 1];
	}
}

/* What an ack is answered. */
static unsigned ack_due(uint32_t through, uint8_t count)
{
	uint64_t reach = count;
	size_t i;
	for (i = 0; i < pairs.n - pairs.n % 2; i++)
		reach += pairs.at[i];
	return sender.n < STRAWHUB_SENDER ? 59 : reach > through ? 44 : through > highest_of(sender.at) ? 72 : 0;
}

/* What an ack leaves: those that it names are settled, the others stay outstanding, both in their order. */
static void is_settled(uint32_t through, uint8_t count, uint64_t said)
{
	const uint32_t *numbers_settled = (const uint32_t *)(const void *)settled.at;
	size_t n = count_of(sender.copy), k, gone = 0, left = 0;
	for (k = 0; k < n; k++) {
		const uint8_t *p = packet_of(sender.copy, k);
		if (names(through, count, (uint32_t)little(p, 4)))
			must(gone < said && numbers_settled[gone++] == little(p, 4), "a packet that is named is not settled");
		else
			must(memcmp(packet_of(sender.at, left++), p, PACKET_BYTES) == 0, "a packet that is not named is gone");
	}
	must(gone == said, "another count is settled");
	must(highest_of(sender.at) == highest_of(sender.copy), "an ack gives out a number");
	stays(&settled, gone * 4);
	keep_sender(left);
}

/* Pairs of an Ack block: short runs, or any. */
static const uint8_t *lend_pairs(void)
{
	const uint8_t *at = lend(&pairs, one_in(4) ? below(301) : below(10), 0);
	size_t i, most = one_in(4) ? 256 : 1 + below(4);
	for (i = 0; i < pairs.n; i++)
		pairs.at[i] = (uint8_t)below(most);
	return at;
}

static void sender_ack(void)
{
	uint8_t *at = lend_sender(1), count = (uint8_t)(one_in(8) ? any() : below(4));
	uint32_t through = one_in(30) ? (uint32_t)any() : any_outstanding() + one_in(30);
	uint32_t *s = (uint32_t *)(void *)lend(&settled, settled.size, 1);
	const uint8_t *p = lend_pairs();
	unsigned due = ack_due(through, count);
	struct strawhub_outcome o;
	any_bytes(settled.at, settled.n);
	copy_lent();
	o = strawhub_sender_ack(at, sender.n, through, count, p, pairs.n, s);
	must(o.number == due, "another number");
	answer(o.number);
	if (o.number == 0)
		is_settled(through, count, o.value);
}

static void sender_outstanding(void)
{
	uint8_t *at = lend_sender(0);
	size_t k = one_in(20) ? (size_t)any() : below(300), n = count_of(sender_now);
	uint64_t *o = lend_numbers(3);
	const uint8_t *p = packet_of(sender.copy, k < n ? k : 0);
	struct strawhub_outcome r;
	copy_lent();
	r = strawhub_sender_outstanding(at, sender.n, k, o);
	must(r.number == (sender.n < STRAWHUB_SENDER ? 59 : 0) && r.value == (r.number == 0 ? n : 0), "another number");
	answer(r.number);
	if (r.number == 0 && k < n)
		must(o[0] == little(p, 4) && o[1] == little(p + 8, 8) && o[2] == little(p + 4, 4), "another packet");
	else
		stays(&numbers, 0);
}

/* ---- stores ---- */

static uint8_t record_now[STRAWHUB_RECORD];
static int room_first; /* the room stands flush against the page before it */
static size_t room_length;

/* A neighbour's share of the record: the heads of 4 slots, their tables, how many messages are open, the memory of
 * finished ones: 16 ids, 16 seconds, and how many of them are in use. */
#define HEAD_SIZE 24
#define SUMMARY (4 * HEAD_SIZE + 4 * 512)
#define MEMORY (SUMMARY + 1)

static int forged; /* since the last new store */

/* 12 to 16 messages of a neighbour, finished in the last 40 seconds, as calls would have left them. */
static void remember_many(uint8_t *share)
{
	uint8_t *at = share + MEMORY;
	size_t n = 12 + below(5), k;
	for (k = 0; k < n; k++) {
		put_little(at + 4 * k, 4, 0x80000000u + k); /* above every id that any_id gives */
		put_little(at + 16 * 4 + 8 * k, 8, second_now - below(40));
	}
	share[SHARE - 1] = (uint8_t)n;
}

static void forge_record(void)
{
	uint8_t *share = record_now + below(STRAWHUB_NEIGHBOURS) * SHARE;
	int all_bytes = one_in(15000), some = one_in(4000), heads = one_in(4000), memory = one_in(4000), open = one_in(4000);
	if (all_bytes)
		any_bytes(record_now, sizeof record_now);
	if (some)
		mutate(record_now, sizeof record_now);
	if (heads)
		mutate(share, 4 * HEAD_SIZE);
	if (open)
		share[SUMMARY] = (uint8_t)(one_in(3) ? 0 : one_in(2) ? 255 : any()); /* how many are open */
	if (memory)
		mutate(share + MEMORY, SHARE - MEMORY);
	if (memory && one_in(2))
		share[SHARE - 1] = (uint8_t)any(); /* how many are remembered */
	forged = forged || all_bytes || some || heads || memory || open;
	if (one_in(4000) && !forged)
		remember_many(share);
	if (one_in(10000)) {
		memset(record_now, 0, sizeof record_now);
		room_first = !room_first;
		forged = 0;
	}
}

/* The store as the last call left it, at times forged, at times short or longer than it has to be. */
static uint8_t *lend_record(void)
{
	size_t n = one_in(80) ? below(STRAWHUB_RECORD + 401) : STRAWHUB_RECORD;
	uint8_t *at;
	forge_record();
	at = lend(&record, n, 1);
	memset(record.at, 0x33, n);
	memcpy(record.at, record_now, n < sizeof record_now ? n : sizeof record_now);
	return at;
}

/* How many slots of a share are in use. */
static size_t open_in(const uint8_t *share)
{
	size_t i, n = 0;
	for (i = 0; i < 4; i++)
		n += share[i * HEAD_SIZE + 18] != 0; /* how many numbers are held */
	return n;
}

static void keep_record(void)
{
	size_t i;
	if (record.n < sizeof record_now)
		return;
	memcpy(record_now, record.at, sizeof record_now);
	stays(&record, sizeof record_now);
	for (i = 0; i < STRAWHUB_NEIGHBOURS; i++)
		must(forged || record_now[i * SHARE + SUMMARY] == open_in(record_now + i * SHARE), "a summary that is no count");
}

/* A piece changes nothing of the record but its neighbour's share. */
static void others_stay(void)
{
	size_t at = sending() * SHARE;
	if (record.n < sizeof record_now)
		return;
	must(memcmp(record.at, record.copy, at) == 0, "another neighbour's share was changed");
	stays(&record, at + SHARE);
}

/* What a piece is answered before it is looked at: 59, 58, or 0 for neither. */
static unsigned lent_due(void)
{
	return record.n < STRAWHUB_RECORD || room_length < STRAWHUB_ROOM ? 59 : neighbour > 3 ? 58 : 0;
}

/* Whether a piece may be answered so: 58 for a neighbour above 3 alone, 52 for one with 4 messages open alone. */
static void is_fair(uint64_t number)
{
	unsigned due = lent_due();
	must(due == 0 ? number != 58 : number == due, "another number for this neighbour");
	must(forged || number != 52 || open_in(record.copy + sending() * SHARE) == 4, "52 with a slot free");
}

/* Flush against the page before it or the one after; rarely too short, or longer than it has to be. */
static void lend_room(void)
{
	room_length = one_in(80) ? below(STRAWHUB_ROOM) : one_in(5000) ? PAGES * PAGE : STRAWHUB_ROOM;
	room_at = room_first ? store_room : store_room + PAGES * PAGE - room_length;
}

static uint8_t *lend_out(void)
{
	return lend(&out, one_in(20) ? below(65601) : one_in(20) ? below(200) : STRAWHUB_MESSAGE, 1);
}

#define KEEPING " 0 50 51 52 53 54 55 56 57 58 59 60 "

/* A finished message is remembered: another piece of it is refused. */
static void finished(uint32_t id)
{
	const uint8_t byte = 1;
	is_finished(id);
	if (forged) /* another slot may be open under this id */
		return;
	must(strawhub_store_first(record.at, record.n, room_at, room_length, out.at, out.n, neighbour, id, 20, 0, second_now,
	                          &byte, 1).number == STRAWHUB_ALREADY_FINISHED, "a finished message is not remembered");
}

static void keep_reply(struct strawhub_reply r, uint32_t id)
{
	must(may_answer(r.number, KEEPING), "another number");
	is_fair(r.number);
	answer(r.number);
	keep_record();
	others_stay();
	stays(&out, r.number == STRAWHUB_FINISHED ? r.length : 0);
	if (r.number == STRAWHUB_FINISHED)
		finished(id);
}

static const uint8_t *lend_piece(uint32_t id, uint8_t number)
{
	const uint8_t *at = lend(&bytes, piece_length(id, number), 0);
	piece_bytes(bytes.at, bytes.n, id, number);
	return at;
}

static void store_new(void)
{
	uint8_t *at = lend_record();
	uint32_t number;
	copy_lent();
	number = strawhub_store_new(at, record.n);
	must(may_answer(number, " 0 59 "), "another number");
	answer(number);
	keep_record();
	if (number == 0)
		forged = 0;
}

static void store_first(void)
{
	uint8_t *at = lend_record(), *o = lend_out();
	const uint8_t *b;
	uint32_t id;
	any_neighbour();
	id = any_id();
	b = lend_piece(id, 0);
	lend_room();
	copy_lent();
	keep_reply(strawhub_store_first(at, record.n, room_at, room_length, o, out.n, neighbour, id, 20, id * 3, second_now, b,
	                                bytes.n),
	           id);
}

static void store_follow_on(void)
{
	uint8_t *at = lend_record(), *o = lend_out(), number, last;
	const uint8_t *b;
	uint32_t id;
	any_neighbour();
	id = any_id();
	number = any_piece(id);
	last = one_in(400) ? (uint8_t)any() : number == last_of(id);
	b = lend_piece(id, number);
	lend_room();
	copy_lent();
	keep_reply(strawhub_store_follow_on(at, record.n, room_at, room_length, o, out.n, neighbour, id, number, last,
	                                    second_now, b, bytes.n),
	           id);
}

static void store_sweep(void)
{
	uint8_t *at = lend_record();
	uint64_t second = one_in(500) ? any() : second_now;
	copy_lent();
	answer(strawhub_store_sweep(at, record.n, second));
	if (record.n < STRAWHUB_RECORD)
		stays(&record, 0);
	keep_record();
}

/* What is delivered from a place is answered so: a block that is not read by its refusal, a piece as a store does, any
 * other block by 0. */
static void is_delivered(uint64_t number, size_t place)
{
	uint64_t o[12];
	uint64_t read = strawhub_block_read(payload.at, payload.n, place, o).number;
	if (read == 0 && (o[0] == 4 || o[0] == 5))
		is_fair(number);
	else
		must(number == read, "another number for a block that is no piece");
}

static void block_deliver(void)
{
	const uint8_t *p;
	uint8_t *at = lend_record(), *o = lend_out();
	uint64_t *told = lend_numbers(6);
	size_t place;
	struct strawhub_outcome r;
	any_neighbour();
	p = lend_payload();
	place = any_place();
	lend_room();
	copy_lent();
	r = strawhub_block_deliver(p, payload.n, place, at, record.n, room_at, room_length, o, out.n, neighbour, second_now,
	                           told);
	must(may_answer(r.number, READING KEEPING), "another number");
	must(r.value == (is_refusal(r.number) ? place : 0), "another place");
	is_delivered(r.number, place);
	answer(r.number);
	keep_record();
	others_stay();
	stays(&out, r.number == STRAWHUB_FINISHED ? (size_t)told[5] : 0);
	if (is_refusal(r.number))
		return;
	must(told[0] <= 2 && (told[0] == 2) == (r.number == STRAWHUB_FINISHED), "a message that stands nowhere");
	must(told[0] != 1 || (told[4] <= payload.n && told[5] <= payload.n - told[4]), "a message outside the payload");
	must(told[0] != 2 || told[4] == 0, "a rebuilt message that does not stand first");
	if (told[0] == 2)
		finished((uint32_t)told[2]);
}

/* ---- the run ---- */

static const struct {
	const char *name;
	void (*run)(void);
	unsigned weight;
} all[] = {
	{"strawhub_keystream", keystream, 2},
	{"strawhub_header_read", header_read, 10},
	{"strawhub_header_write", header_write, 10},
	{"strawhub_block_read", block_read, 12},
	{"strawhub_block_write", block_write, 12},
	{"strawhub_block_list", block_list, 8},
	{"strawhub_tracker_new", tracker_new, 1},
	{"strawhub_tracker_register", tracker_register, 20},
	{"strawhub_tracker_duplicate", tracker_duplicate, 5},
	{"strawhub_tracker_report", tracker_report, 5},
	{"strawhub_tracker_ack_block", tracker_ack_block, 5},
	{"strawhub_ack_expand", ack_expand, 8},
	{"strawhub_sender_new", sender_new, 0}, /* as rare as any_call has it */
	{"strawhub_sender_send", sender_send, 14},
	{"strawhub_sender_resend", sender_resend, 6},
	{"strawhub_sender_ack", sender_ack, 8},
	{"strawhub_sender_outstanding", sender_outstanding, 3},
	{"strawhub_store_new", store_new, 0}, /* as rare as any_call has it */
	{"strawhub_store_first", store_first, 8},
	{"strawhub_store_follow_on", store_follow_on, 20},
	{"strawhub_store_sweep", store_sweep, 2},
	{"strawhub_block_deliver", block_deliver, 12},
};

#define ALL (sizeof all / sizeof all[0])
#define SENDER_NEW 12
#define STORE_NEW 17

static size_t any_call(void)
{
	static unsigned sum;
	size_t i, at;
	if (sum == 0)
		for (i = 0; i < ALL; i++)
			sum += all[i].weight;
	if (one_in(10000))
		return STORE_NEW;
	if (one_in(2000))
		return SENDER_NEW;
	at = below(sum);
	for (i = 0; at >= all[i].weight; i++)
		at -= all[i].weight;
	return i;
}

/* Every number of the header has to come, or the bytes were not any. */
static int every_number_came(void)
{
	static const uint8_t given[] = {0,  1,  2,  3,  4,  5,  6,  7,  8,  9,  10, 20, 21, 22, 23, 24, 25, 30,
	                                31, 32, 40, 41, 42, 43, 44, 46, 50, 51, 52, 53, 54, 55, 56, 57, 58, 59,
	                                60, 70, 71, 72, 73};
	size_t i;
	int whole = 1;
	for (i = 0; i < sizeof given; i++) {
		printf("%s%d: %llu", i ? ", " : "answers: ", given[i], answered[given[i]]);
		whole = whole && answered[given[i]] != 0;
	}
	printf("\n");
	return whole;
}

static unsigned long long number_of(const char *word)
{
	char *end;
	unsigned long long n = strtoull(word, &end, 10);
	if (*word == 0 || *end != 0) {
		fprintf(stderr, "fuzz: %s is no number\n", word);
		exit(2);
	}
	return n;
}

int main(int argc, char **argv)
{
	if (argc != 3) {
		fprintf(stderr, "fuzz: wanted are a seed and a count of calls\n");
		return 2;
	}
	seed = number_of(argv[1]);
	total = number_of(argv[2]);
	state = seed * 0x9e3779b97f4a7c15ULL + 1;
	if (state == 0) /* it would stay 0 */
		state = 1;
	raise_fences();
	guard_room();
	for (calls = 1; calls <= total; calls++) {
		size_t i = any_call();
		call = all[i].name;
		lents = 0;
		all[i].run();
		second_now += one_in(1000);
		if (calls % 1000000 == 0) {
			printf("fuzz: %llu of %llu calls\n", calls, total);
			fflush(stdout);
		}
	}
	if (!every_number_came() && total >= 200000) {
		printf("fuzz: failed, a number never came\n");
		return 1;
	}
	printf("fuzz: %llu calls of seed %llu passed, 0 failed\n", total, seed);
	return 0;
}
