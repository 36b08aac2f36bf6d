/* Each call of strawhub.h: what it answers, what it writes, and that a refusal leaves every lent byte. */
#include "strawhub.h"

#include <stdio.h>
#include <string.h>

static unsigned passed, failed;

static void check(int holds, const char *what)
{
	if (holds) {
		passed++;
		return;
	}
	failed++;
	printf("failed: %s\n", what);
}

#define CHECK(holds) check((holds) != 0, #holds)

/* Whether n bytes all have a value. */
static int all(const void *bytes, size_t n, int value)
{
	const uint8_t *b = bytes;
	size_t i;
	for (i = 0; i < n; i++)
		if (b[i] != value)
			return 0;
	return 1;
}

static int is(struct strawhub_outcome o, uint64_t number, uint64_t value)
{
	return o.number == number && o.value == value;
}

static const uint8_t key1[32] = {1}, key2[32] = {2};

/* RFC 8439, 2.3.2. */
static void keystream(void)
{
	static const uint8_t nonce[12] = {0, 0, 0, 9, 0, 0, 0, 0x4a, 0, 0, 0, 0};
	static const uint8_t start[8] = {0x10, 0xf1, 0xe7, 0xe4, 0xd1, 0x3b, 0x59, 0x15};
	uint8_t key[32], out[64];
	int i;
	for (i = 0; i < 32; i++)
		key[i] = (uint8_t)i;
	strawhub_keystream(key, 1, nonce, out);
	CHECK(memcmp(out, start, sizeof start) == 0);
	CHECK(out[63] == 0x4e);
}

static uint32_t write_header(uint8_t *packet, size_t length, uint8_t kind, uint32_t number, uint8_t version,
                             uint8_t fragment)
{
	return strawhub_header_write(packet, length, key1, key2, kind, 77, number, version, 2, 88, 99, fragment, 3, 0xff);
}

/* A packet that is not written, with its refusal. */
static int refuses_to_write(uint32_t refusal, size_t length, uint8_t kind, uint32_t number, uint8_t version,
                            uint8_t fragment)
{
	uint8_t packet[128];
	memset(packet, 0x5a, sizeof packet);
	return write_header(packet, length, kind, number, version, fragment) == refusal &&
	       all(packet, sizeof packet, 0x5a);
}

static void header_write(void)
{
	uint8_t packet[128];
	memset(packet, 0x5a, sizeof packet);
	CHECK(write_header(packet, 88, 0, 5, 2, 0) == 0);
	CHECK(!all(packet, 64, 0x5a));
	CHECK(all(packet + 64, 64, 0x5a));
	CHECK(refuses_to_write(21, 88, 3, 5, 2, 0));
	CHECK(refuses_to_write(22, 88, 0, 5, 5, 0));
	CHECK(refuses_to_write(24, 88, 2, 5, 2, 0));
	CHECK(refuses_to_write(25, 88, 2, 0, 2, 16));
	CHECK(refuses_to_write(20, 87, 0, 5, 2, 0));
	CHECK(refuses_to_write(20, 0, 6, 5, 0, 0));
}

/* A packet that is not read, with its refusal: masks are XORs, so bits changed under them are changed in the plain
 * header, here the lowest byte of the number, the type and the version. */
static int refuses_to_read(uint32_t refusal, size_t length, uint8_t kind, uint8_t type_bits, uint8_t version_bits,
                           uint8_t number_bits)
{
	uint8_t packet[128], before[128];
	uint64_t out[11];
	memset(packet, 0x5a, sizeof packet);
	memset(out, 0x77, sizeof out);
	if (write_header(packet, length, kind, 0, 2, 0) != 0)
		return 0;
	packet[11] ^= number_bits;
	packet[12] ^= type_bits;
	packet[13] ^= version_bits;
	memcpy(before, packet, sizeof packet);
	return strawhub_header_read(packet, length, key1, key2, out) == refusal &&
	       memcmp(packet, before, sizeof packet) == 0 && all(out, sizeof out, 0x77);
}

static void header_read(void)
{
	static const uint64_t request[11] = {0, 2, 2, 0, 0, 0, 5, 77, 88, 99, 32};
	static const uint64_t data[11] = {6, 0, 0, 0, 0, 1, 5, 77, 0, 0, 0};
	uint8_t packet[128];
	uint64_t out[11];
	memset(packet, 0x5a, sizeof packet);
	CHECK(write_header(packet, 100, 0, 5, 2, 0) == 0);
	CHECK(strawhub_header_read(packet, 100, key1, key2, out) == 0);
	CHECK(memcmp(out, request, sizeof out) == 0);
	CHECK(all(packet + 32, 96, 0x5a));
	CHECK(write_header(packet, 40, 6, 5, 0, 0) == 0);
	CHECK(strawhub_header_read(packet, 40, key1, key2, out) == 0);
	CHECK(memcmp(out, data, sizeof out) == 0);
	memset(packet, 0x5a, sizeof packet);
	CHECK(strawhub_header_read(packet, 39, key1, key2, out) == 20);
	CHECK(all(packet, sizeof packet, 0x5a) && memcmp(out, data, sizeof out) == 0);
	CHECK(refuses_to_read(21, 64, 6, 6 ^ 3, 0, 0));
	CHECK(refuses_to_read(22, 64, 9, 0, 2 ^ 5, 0));
	CHECK(refuses_to_read(23, 63, 9, 9 ^ 1, 0, 0));
	CHECK(refuses_to_read(24, 64, 2, 0, 0, 1));
}

/* DateTime, Congestion, Padding; then the first fragment "ab" of message 7. */
static const uint8_t payload[] = {0, 0, 4, 0x65, 0x53, 0xf1, 0, 21, 0, 1, 1, 254, 0, 2, 0, 0, 4, 0, 11, 20, 0, 0, 0, 7,
                                  0, 0, 0, 9, 'a', 'b'};

/* A block that is not read, with its refusal at 0. */
static int refuses_block(uint64_t refusal, const uint8_t *block, size_t length)
{
	uint64_t out[12];
	memset(out, 0x77, sizeof out);
	return is(strawhub_block_read(block, length, 0, out), refusal, 0) && all(out, sizeof out, 0x77);
}

static void block_read(void)
{
	static const uint64_t piece[12] = {4, 11, 28, 2, 20, 7, 9};
	static const uint8_t short_time[] = {0, 0, 4, 0, 0, 7}, info[] = {2, 0, 2, 0, 0};
	static const uint8_t unlisted[] = {4, 0, 9, 4, 0, 0, 0, 1, 0, 0, 0, 2};
	static const uint8_t first[] = {4, 0, 9, 11, 0, 0, 0, 1, 0, 0, 0, 2};
	static const uint8_t first10[] = {4, 0, 10, 11, 0, 0, 0, 1, 0, 0, 0, 2};
	static const uint8_t next[] = {5, 0, 5, 3, 0, 0, 0, 1}, next6[] = {5, 0, 6, 3, 0, 0, 0, 1};
	static const uint8_t address[] = {13, 0, 7, 0x1f, 0x90}, i2np[] = {3, 0, 8};
	uint64_t out[12];
	CHECK(is(strawhub_block_read(payload, sizeof payload, 16, out), 0, 30));
	CHECK(memcmp(out, piece, sizeof out) == 0);
	CHECK(is(strawhub_block_read(payload, sizeof payload, 30, out), 1, 30));
	CHECK(memcmp(out, piece, sizeof out) == 0);
	CHECK(is(strawhub_block_read(NULL, 0, 0, out), 1, 0));
	CHECK(is(strawhub_block_read(payload, sizeof payload, SIZE_MAX, out), 1, SIZE_MAX));
	CHECK(refuses_block(1, short_time, sizeof short_time));
	CHECK(refuses_block(2, info, sizeof info));
	CHECK(refuses_block(3, unlisted, sizeof unlisted));
	CHECK(refuses_block(4, first, sizeof first));
	CHECK(refuses_block(5, first10, sizeof first10));
	CHECK(refuses_block(6, next, sizeof next));
	CHECK(refuses_block(7, next6, sizeof next6));
	CHECK(refuses_block(8, address, sizeof address));
	CHECK(refuses_block(9, i2np, sizeof i2np));
}

/* A block that is not written, with its refusal. */
static int refuses_room(uint64_t refusal, size_t room_len, uint8_t kind, uint64_t field, size_t bytes_len)
{
	static uint8_t room[65600], bytes[65600];
	uint64_t fields[8] = {0};
	fields[0] = field;
	memset(room, 0x5a, sizeof room);
	return strawhub_block_write(room, room_len, kind, fields, bytes, bytes_len).number == refusal &&
	       all(room, sizeof room, 0x5a);
}

static void block_write(void)
{
	static const uint64_t ack[8] = {10, 2}, time[8] = {7}, marked[8] = {1, 256, 7};
	static const uint8_t pairs[2] = {1, 3}, block[10] = {12, 0, 7, 0, 0, 0, 10, 2, 1, 3};
	uint8_t room[16];
	memset(room, 0x5a, sizeof room);
	CHECK(is(strawhub_block_write(room, sizeof room, 12, ack, pairs, 2), 0, 10));
	CHECK(memcmp(room, block, 10) == 0);
	CHECK(all(room + 10, 6, 0x5a));
	CHECK(is(strawhub_block_write(room, 7, 0, time, pairs, 2), 0, 7));
	CHECK(room[2] == 4 && room[6] == 7);
	CHECK(is(strawhub_block_write(room, sizeof room, 5, marked, pairs, 2), 0, 10));
	CHECK(room[3] == 3); /* number 1, and any last but 0 is set */
	CHECK(refuses_room(32, 65600, 2, 0, 0));
	CHECK(refuses_room(32, 65600, 0, (uint64_t)1 << 32, 0));
	CHECK(refuses_room(32, 65600, 5, 128, 1));
	CHECK(refuses_room(32, 65600, 12, 0, 1));
	CHECK(refuses_room(32, 65600, 13, 0, 5));
	CHECK(refuses_room(31, 65600, 254, 0, 65536));
	CHECK(refuses_room(30, 6, 0, 7, 0));
	CHECK(refuses_room(30, 0, 254, 0, 0));
}

static void block_list(void)
{
	struct strawhub_entry list[6], before[6];
	memset(list, 0x77, sizeof list);
	memcpy(before, list, sizeof list);
	CHECK(is(strawhub_block_list(payload, sizeof payload, list, 3), 10, 16));
	CHECK(is(strawhub_block_list(payload, sizeof payload - 1, list, 6), 5, 16));
	CHECK(is(strawhub_block_list(NULL, 0, list, 6), 1, 0));
	CHECK(memcmp(list, before, sizeof list) == 0);
	CHECK(is(strawhub_block_list(payload, sizeof payload, list, 6), 0, 4));
	CHECK(list[1].place == 7 && list[1].kind == 21 && list[1].size == 1);
	CHECK(list[3].place == 16 && list[3].kind == 4 && list[3].size == 11);
	CHECK(memcmp(list + 4, before + 4, 2 * sizeof list[0]) == 0);
}

/* A tracker with the highest number 400, and 200 received. */
static void two_seen(uint8_t tracker[STRAWHUB_TRACKER])
{
	CHECK(strawhub_tracker_new(tracker, STRAWHUB_TRACKER) == 0);
	CHECK(all(tracker, STRAWHUB_TRACKER, 0));
	CHECK(strawhub_tracker_register(tracker, STRAWHUB_TRACKER, 200) == 0);
	CHECK(strawhub_tracker_register(tracker, STRAWHUB_TRACKER, 400) == 0);
}

static void tracker_register(void)
{
	uint8_t tracker[STRAWHUB_TRACKER], before[STRAWHUB_TRACKER];
	memset(tracker, 0x5a, sizeof tracker);
	CHECK(strawhub_tracker_new(tracker, STRAWHUB_TRACKER - 1) == 59);
	CHECK(all(tracker, sizeof tracker, 0x5a));
	two_seen(tracker);
	memcpy(before, tracker, sizeof tracker);
	CHECK(strawhub_tracker_register(tracker, STRAWHUB_TRACKER, 656) == 40);
	CHECK(strawhub_tracker_register(tracker, STRAWHUB_TRACKER, 145) == 42);
	CHECK(strawhub_tracker_register(tracker, STRAWHUB_TRACKER, 400) == 43);
	CHECK(strawhub_tracker_register(tracker, STRAWHUB_TRACKER - 1, 401) == 59);
	CHECK(memcmp(tracker, before, sizeof tracker) == 0);
	CHECK(strawhub_tracker_duplicate(tracker, STRAWHUB_TRACKER, 200) == 1);
	CHECK(strawhub_tracker_duplicate(tracker, STRAWHUB_TRACKER, 201) == 0);
	CHECK(strawhub_tracker_duplicate(tracker, STRAWHUB_TRACKER, 0) == 0);
	CHECK(strawhub_tracker_duplicate(tracker, 3, 200) == 59);
	CHECK(memcmp(tracker, before, sizeof tracker) == 0);
}

static void tracker_report(void)
{
	static const uint64_t numbers[3] = {400, 0, 4};
	static const uint8_t runs[4] = {199, 1, 54, 0};
	uint8_t tracker[STRAWHUB_TRACKER] = {0}, pairs[254];
	uint64_t out[3];
	memset(out, 0x77, sizeof out);
	memset(pairs, 0x77, sizeof pairs);
	CHECK(strawhub_tracker_report(tracker, STRAWHUB_TRACKER, out, pairs) == 41);
	CHECK(strawhub_tracker_report(tracker, 258, out, pairs) == 59);
	CHECK(all(out, sizeof out, 0x77) && all(pairs, sizeof pairs, 0x77));
	two_seen(tracker);
	CHECK(strawhub_tracker_report(tracker, STRAWHUB_TRACKER, out, pairs) == 0);
	CHECK(memcmp(out, numbers, sizeof out) == 0);
	CHECK(memcmp(pairs, runs, sizeof runs) == 0 && all(pairs + 4, 250, 0));
}

static void tracker_ack_block(void)
{
	static const uint8_t block[12] = {12, 0, 9, 0, 0, 1, 0x90, 0, 199, 1, 54, 0};
	uint8_t tracker[STRAWHUB_TRACKER] = {0}, room[16];
	memset(room, 0x5a, sizeof room);
	CHECK(is(strawhub_tracker_ack_block(tracker, STRAWHUB_TRACKER, room, sizeof room), 41, 0));
	two_seen(tracker);
	CHECK(is(strawhub_tracker_ack_block(tracker, 258, room, sizeof room), 59, 0));
	CHECK(is(strawhub_tracker_ack_block(tracker, STRAWHUB_TRACKER, room, 11), 30, 0));
	CHECK(all(room, sizeof room, 0x5a));
	CHECK(is(strawhub_tracker_ack_block(tracker, STRAWHUB_TRACKER, room, sizeof room), 0, 12));
	CHECK(memcmp(room, block, sizeof block) == 0 && all(room + 12, 4, 0x5a));
}

static void ack_expand(void)
{
	static const uint8_t pairs[3] = {1, 3, 7}; /* an odd last byte is dropped */
	static const uint32_t named[6] = {10, 9, 8, 6, 5, 4};
	uint32_t list[8];
	memset(list, 0x77, sizeof list);
	CHECK(strawhub_ack_expand(10, 11, NULL, 0, list, 8).number == 44);
	CHECK(strawhub_ack_expand(10, 2, pairs, 3, list, 5).number == 46);
	CHECK(all(list, sizeof list, 0x77));
	CHECK(strawhub_ack_expand(10, 2, pairs, 3, list, 8).number == 0);
	CHECK(strawhub_ack_expand(10, 2, pairs, 3, list, 6).count == 6);
	CHECK(memcmp(list, named, sizeof named) == 0 && all(list + 6, 8, 0x77));
}

/* ---- the sender: the readings of document 02 by their numbers ---- */

/* A sender and the numbers that an ack settled; and both as they were before the last call. */
static struct sent {
	uint8_t sender[STRAWHUB_SENDER];
	uint32_t settled[STRAWHUB_OUTSTANDING];
} sent, sent_before;

static void new_sender(void)
{
	memset(&sent, 0x5a, sizeof sent);
	CHECK(strawhub_sender_new(sent.sender, STRAWHUB_SENDER) == 0);
	CHECK(all(sent.sender, STRAWHUB_SENDER, 0));
}

static struct strawhub_outcome send_at(uint64_t second)
{
	sent_before = sent;
	return strawhub_sender_send(sent.sender, sizeof sent.sender, second);
}

static struct strawhub_outcome resend_at(uint32_t number, uint64_t second)
{
	sent_before = sent;
	return strawhub_sender_resend(sent.sender, sizeof sent.sender, number, second);
}

static struct strawhub_outcome ack_with(uint32_t through, uint8_t count, const uint8_t *pairs, size_t pairs_len)
{
	memset(sent.settled, 0x5a, sizeof sent.settled);
	sent_before = sent;
	return strawhub_sender_ack(sent.sender, sizeof sent.sender, through, count, pairs, pairs_len, sent.settled);
}

/* An Ack block without pairs. */
static struct strawhub_outcome ack(uint32_t through, uint8_t count)
{
	return ack_with(through, count, NULL, 0);
}

/* Whether a call was refused with a number and left every lent byte. */
static int refuses(uint64_t number, struct strawhub_outcome o)
{
	return is(o, number, 0) && memcmp(&sent, &sent_before, sizeof sent) == 0;
}

/* Whether an ack was taken and settled these numbers, in this order; the rest of the list stays. */
static int settles(size_t n, const uint32_t *numbers, struct strawhub_outcome o)
{
	return is(o, 0, n) && (n == 0 || memcmp(sent.settled, numbers, n * sizeof *numbers) == 0) &&
	       all(sent.settled + n, (STRAWHUB_OUTSTANDING - n) * sizeof *numbers, 0x5a);
}

static int is_packet(size_t k, uint64_t number, uint64_t second, uint64_t resends)
{
	uint64_t out[3];
	memset(out, 0x77, sizeof out);
	return strawhub_sender_outstanding(sent.sender, sizeof sent.sender, k, out).number == 0 && out[0] == number &&
	       out[1] == second && out[2] == resends;
}

/* Whether these numbers are outstanding, in this order, and no other. */
static int outstanding(size_t n, const uint32_t *numbers)
{
	uint64_t out[3];
	size_t k;
	for (k = 0; k < n; k++)
		if (!is(strawhub_sender_outstanding(sent.sender, sizeof sent.sender, k, out), 0, n) || out[0] != numbers[k])
			return 0;
	memset(out, 0x77, sizeof out);
	return is(strawhub_sender_outstanding(sent.sender, sizeof sent.sender, n, out), 0, n) &&
	       is(strawhub_sender_outstanding(sent.sender, sizeof sent.sender, SIZE_MAX, out), 0, n) &&
	       all(out, sizeof out, 0x77);
}

/* A new sender that has given out 1 to n, all at second 10. */
static void given_out(uint32_t n)
{
	uint32_t i;
	new_sender();
	for (i = 1; i <= n; i++)
		CHECK(is(send_at(10), 0, i));
}

static const uint32_t one_to_three[] = {1, 2, 3};

/* 6.1: a resend takes the next number, its own second and one resend more. */
static void sender_resend(void)
{
	static const uint32_t left[] = {1, 3, 4}, later[] = {1, 3, 5};
	given_out(3);
	CHECK(outstanding(3, one_to_three) && is_packet(1, 2, 10, 0));
	CHECK(is(resend_at(2, 17), 0, 4));
	CHECK(outstanding(3, left) && is_packet(0, 1, 10, 0) && is_packet(1, 3, 10, 0) && is_packet(2, 4, 17, 1));
	CHECK(is(resend_at(4, UINT64_MAX), 0, 5));
	CHECK(outstanding(3, later) && is_packet(2, 5, UINT64_MAX, 2));
	CHECK(refuses(73, resend_at(2, 18)) && refuses(73, resend_at(4, 18)) && refuses(73, resend_at(6, 18)));
	CHECK(is(send_at(9), 0, 6) && is_packet(3, 6, 9, 0)); /* a clock that went back is taken as it is */
}

/* The highest number given out, which stands in front, set by hand: no test has the time for four billion sends. */
static void set_highest(uint32_t n)
{
	int i;
	for (i = 0; i < 4; i++)
		sent.sender[i] = (uint8_t)(n >> 8 * i);
}

/* 6.2: a send is refused by 71 before 70, a resend by 73 before 71. */
static void sender_used_up(void)
{
	static const uint32_t last[] = {1, 4294967294u, 4294967295u}, first[] = {1};
	given_out(256);
	set_highest(4294967295u);
	CHECK(refuses(71, send_at(11)));
	CHECK(refuses(71, resend_at(5, 11)) && refuses(71, resend_at(256, 11)));
	CHECK(refuses(73, resend_at(257, 11)) && refuses(73, resend_at(0, 11)) && refuses(73, resend_at(4294967295u, 11)));
	CHECK(is_packet(4, 5, 10, 0) && is_packet(255, 256, 10, 0));
	given_out(2);
	set_highest(4294967293u);
	CHECK(is(send_at(11), 0, 4294967294u));
	CHECK(is(resend_at(2, 12), 0, 4294967295u));
	CHECK(outstanding(3, last) && is_packet(2, 4294967295u, 12, 1));
	CHECK(refuses(71, send_at(13)) && refuses(71, resend_at(1, 13)) && refuses(73, resend_at(2, 13)));
	CHECK(settles(2, last + 1, ack(4294967295u, 1)));
	CHECK(outstanding(1, first) && refuses(71, send_at(14)));
	given_out(1);
	set_highest(4294967294u);
	CHECK(is(send_at(11), 0, 4294967295u) && is_packet(1, 4294967295u, 11, 0) && refuses(71, send_at(11)));
}

/* 6.3, 6.4: 72 where through is above the highest number given out, but 44 first; either settles nothing. */
static void sender_never_given(void)
{
	static const uint8_t one[] = {1, 1}, low[] = {3, 2}, apart[] = {1, 0, 0, 3};
	new_sender();
	CHECK(refuses(72, ack(1, 0)) && refuses(72, ack(1, 1)) && refuses(44, ack(1, 2)) && refuses(44, ack(0, 1)));
	given_out(3);
	CHECK(refuses(72, ack(4, 3)) && refuses(72, ack_with(4, 0, one, 2)) && refuses(72, ack(4294967295u, 255)));
	CHECK(refuses(44, ack(4, 5)) && refuses(44, ack(3, 4)));
	CHECK(refuses(44, ack_with(4, 0, low, 2)) && refuses(44, ack_with(3, 0, apart, 4)));
	CHECK(outstanding(3, one_to_three));
	CHECK(settles(3, one_to_three, ack(3, 3)) && outstanding(0, NULL));
	CHECK(refuses(72, ack(4, 0))); /* all are settled, and 4 was still never given out */
}

/* 6.5, 6.11: what was given up stays so, and its new number waits for its own acknowledgement. */
static void sender_given_up(void)
{
	static const uint32_t odd[] = {1, 3}, two[] = {2}, three[] = {3}, four[] = {4};
	given_out(3);
	CHECK(is(resend_at(2, 17), 0, 4));
	CHECK(settles(2, odd, ack(3, 2)) && outstanding(1, four));
	CHECK(settles(0, NULL, ack(3, 2)) && refuses(73, resend_at(2, 18)) && outstanding(1, four));
	CHECK(settles(1, four, ack(4, 4)) && outstanding(0, NULL) && refuses(73, resend_at(4, 18)));
	given_out(2);
	CHECK(is(resend_at(1, 11), 0, 3));
	CHECK(settles(1, two, ack(2, 0)) && outstanding(1, three));
	CHECK(refuses(73, resend_at(1, 12)) && refuses(73, resend_at(2, 12)));
}

/* 6.6, 6.7, 6.8: 0 is acked without effect; an odd last byte is dropped; an ack may settle nothing. */
static void sender_ack(void)
{
	static const uint8_t odd[] = {1, 1, 1}, none[] = {0, 0, 2, 1, 0, 0};
	static const uint32_t ends[] = {1, 3}, two[] = {2};
	new_sender();
	CHECK(settles(0, NULL, ack(0, 0)) && refuses(73, resend_at(0, 10)));
	given_out(3);
	CHECK(settles(0, NULL, ack(0, 0)) && outstanding(3, one_to_three));
	CHECK(settles(2, ends, ack_with(3, 0, odd, 3)) && outstanding(1, two) && is_packet(0, 2, 10, 0));
	CHECK(settles(0, NULL, ack_with(3, 0, odd, 2)) && outstanding(1, two));
	given_out(3);
	CHECK(settles(1, one_to_three + 2, ack_with(3, 0, none, 6))); /* 3 and 0: pairs may have nothing in them */
	CHECK(settles(1, one_to_three + 1, ack_with(2, 0, odd, 1)) && outstanding(1, one_to_three));
}

/* 6.9: 70 means that 256 are outstanding, and a resend is fine then. */
static void sender_full(void)
{
	uint32_t numbers[STRAWHUB_OUTSTANDING];
	uint8_t pairs[254];
	size_t i;
	given_out(255);
	CHECK(is(send_at(11), 0, 256) && is_packet(255, 256, 11, 0));
	CHECK(refuses(70, send_at(12)));
	CHECK(is(resend_at(256, 12), 0, 257) && is_packet(255, 257, 12, 1));
	CHECK(refuses(70, send_at(13)));
	CHECK(is(resend_at(1, 13), 0, 258) && is_packet(0, 2, 10, 0) && is_packet(255, 258, 13, 1));
	given_out(256);
	for (i = 0; i < 256; i++)
		numbers[i] = (uint32_t)i + 1;
	CHECK(outstanding(256, numbers));
	CHECK(settles(256, numbers, ack(256, 255)) && outstanding(0, NULL)); /* all of them at once */
	given_out(256);
	memset(pairs, 1, sizeof pairs);
	for (i = 0; i < 128; i++)
		numbers[i] = 2 * (uint32_t)i + 2;
	CHECK(settles(128, numbers, ack_with(256, 0, pairs, 254))); /* every second one */
	for (i = 0; i < 128; i++)
		numbers[i] = 2 * (uint32_t)i + 1;
	CHECK(outstanding(128, numbers));
	for (i = 0; i < 128; i++)
		CHECK(is(send_at(14), 0, 257 + i));
	CHECK(refuses(70, send_at(14)) && is_packet(127, 255, 10, 0) && is_packet(128, 257, 14, 0));
}

/* 6.10: a record of one byte too few, or of none, is a 59 for every call; bytes behind the 4,104 stay. */
static void sender_record(void)
{
	static const size_t lengths[] = {STRAWHUB_SENDER - 1, 8, 0};
	uint8_t longer[STRAWHUB_SENDER + 9];
	uint64_t out[3];
	size_t i;
	CHECK(STRAWHUB_SENDER == 4104);
	given_out(3);
	memset(sent.settled, 0x5a, sizeof sent.settled);
	sent_before = sent;
	memset(out, 0x77, sizeof out);
	for (i = 0; i < 3; i++) {
		size_t n = lengths[i];
		struct strawhub_outcome none = {strawhub_sender_new(sent.sender, n), 0};
		CHECK(refuses(59, none) && refuses(59, strawhub_sender_send(sent.sender, n, 11)));
		CHECK(refuses(59, strawhub_sender_resend(sent.sender, n, 2, 11)));
		CHECK(refuses(59, strawhub_sender_resend(sent.sender, n, 9, 11)));
		CHECK(refuses(59, strawhub_sender_ack(sent.sender, n, 3, 0, NULL, 0, sent.settled)));
		CHECK(refuses(59, strawhub_sender_ack(sent.sender, n, 3, 9, NULL, 0, sent.settled)));
		CHECK(refuses(59, strawhub_sender_outstanding(sent.sender, n, 0, out)) && all(out, sizeof out, 0x77));
	}
	memset(longer, 0x5a, sizeof longer);
	CHECK(strawhub_sender_new(longer, sizeof longer) == 0 && all(longer, STRAWHUB_SENDER, 0));
	for (i = 1; i <= 256; i++)
		CHECK(is(strawhub_sender_send(longer, sizeof longer, 7), 0, i));
	CHECK(is(strawhub_sender_resend(longer, sizeof longer, 256, 8), 0, 257));
	CHECK(is(strawhub_sender_ack(longer, sizeof longer, 257, 0, NULL, 0, sent.settled), 0, 1));
	CHECK(sent.settled[0] == 257 && all(longer + STRAWHUB_SENDER, 9, 0x5a));
}

/* A record that no call made: a count above 256 is read as 256, and a resend count may be the last one. */
static void sender_forged(void)
{
	uint64_t out[3];
	new_sender();
	memset(sent.sender, 0xff, sizeof sent.sender);
	CHECK(is(strawhub_sender_outstanding(sent.sender, sizeof sent.sender, 255, out), 0, 256));
	CHECK(out[0] == 0xffffffffu && out[1] == UINT64_MAX && out[2] == 0xffffffffu);
	CHECK(refuses(71, send_at(1)) && refuses(71, resend_at(0xffffffffu, 1)) && refuses(73, resend_at(1, 1)));
	set_highest(5);
	CHECK(refuses(70, send_at(1)) && refuses(72, ack(6, 0)));
	CHECK(settles(0, NULL, ack(5, 5)) && sent.sender[4] == 0 && sent.sender[5] == 1 && sent.sender[6] == 0);
	CHECK(is(resend_at(0xffffffffu, 9), 0, 6));
	CHECK(is_packet(0, 0xffffffffu, UINT64_MAX, 0xffffffffu) && is_packet(255, 6, 9, 0));
}

/* The far tracker's report, fed in. */
static struct strawhub_outcome ack_report(const uint64_t report[3], const uint8_t pairs[254])
{
	return ack_with((uint32_t)report[0], (uint8_t)report[1], pairs, (size_t)report[2]);
}

/* 6.12: reports of the far tracker, in another order and again. */
static void sender_reports(void)
{
	uint8_t far[STRAWHUB_TRACKER] = {0}, a_pairs[254], b_pairs[254];
	uint64_t a[3], b[3];
	given_out(2);
	CHECK(strawhub_tracker_register(far, sizeof far, 1) == 0);
	CHECK(strawhub_tracker_report(far, sizeof far, a, a_pairs) == 0);
	CHECK(strawhub_tracker_register(far, sizeof far, 2) == 0);
	CHECK(strawhub_tracker_report(far, sizeof far, b, b_pairs) == 0);
	CHECK(settles(2, one_to_three, ack_report(b, b_pairs)) && outstanding(0, NULL));
	CHECK(settles(0, NULL, ack_report(a, a_pairs)) && settles(0, NULL, ack_report(a, a_pairs)));
}

/* 6.13: progress is not promised. After 255 numbers that were lost the far tracker refuses every later one; a sender
 * that keeps both rules of the header never gets there. */
static void sender_progress(void)
{
	static const uint32_t left[] = {256};
	uint8_t far[STRAWHUB_TRACKER] = {0};
	uint32_t n;
	given_out(1);
	for (n = 1; n <= 255; n++)
		CHECK(is(resend_at(n, 10 + n), 0, n + 1));
	CHECK(outstanding(1, left) && is_packet(0, 256, 265, 255));
	CHECK(strawhub_tracker_register(far, sizeof far, 256) == STRAWHUB_NUMBER_HIGH);
	CHECK(strawhub_tracker_register(far, sizeof far, 257) == STRAWHUB_NUMBER_HIGH);
	CHECK(strawhub_tracker_register(far, sizeof far, 255) == 0);
}

/* A store and a copy of it. */
static struct store {
	uint8_t record[STRAWHUB_RECORD], room[STRAWHUB_ROOM], out[STRAWHUB_MESSAGE];
} store, copy;

#define SHARE (STRAWHUB_RECORD / STRAWHUB_NEIGHBOURS)   /* a neighbour's share of the record, */
#define ROOM_SHARE (STRAWHUB_ROOM / STRAWHUB_NEIGHBOURS) /* and of the room */
#define HEADS (4 * 24)                                  /* the heads of its slots come first, then their tables, */
#define SUMMARY (HEADS + 4 * 512)                       /* then how many messages it has open */

/* The neighbour that pieces come from. The tests of the store run for each of them, alone and with the others busy. */
static uint64_t neighbour;
static int others_are_busy;

static struct strawhub_reply first_of(uint32_t id, const char *bytes, size_t length)
{
	return strawhub_store_first(store.record, sizeof store.record, store.room, sizeof store.room, store.out,
	                            sizeof store.out, neighbour, id, 20, 9, 100, (const uint8_t *)bytes, length);
}

static struct strawhub_reply next_of(uint32_t id, uint8_t number, uint8_t last, const char *bytes, size_t length)
{
	return strawhub_store_follow_on(store.record, sizeof store.record, store.room, sizeof store.room, store.out,
	                                sizeof store.out, neighbour, id, number, last, 100, (const uint8_t *)bytes, length);
}

static int unchanged(void)
{
	return memcmp(&store, &copy, sizeof store) == 0;
}

/* A piece of one byte at a second, number 0 as a first piece, with so many bytes of assembly buffer. */
static uint8_t piece_to(size_t buffer, uint32_t id, uint8_t number, uint64_t second)
{
	uint8_t byte = (uint8_t)('a' + number);
	if (number == 0)
		return strawhub_store_first(store.record, sizeof store.record, store.room, sizeof store.room, store.out, buffer,
		                            neighbour, id, 20, 9, second, &byte, 1).number;
	return strawhub_store_follow_on(store.record, sizeof store.record, store.room, sizeof store.room, store.out, buffer,
	                                neighbour, id, number, number == 1, second, &byte, 1).number;
}

/* A message has two pieces: number 1 is the last. */
static uint8_t piece(uint32_t id, uint8_t number, uint64_t second)
{
	return piece_to(sizeof store.out, id, number, second);
}

static int finishes(uint32_t id, uint64_t second)
{
	return piece(id, 0, second) == 0 && piece(id, 1, second) == STRAWHUB_FINISHED;
}

/* The same of a neighbour that is named. */
static uint8_t piece_from(uint64_t n, uint32_t id, uint8_t number, uint64_t second)
{
	uint64_t kept = neighbour;
	uint8_t answer;
	neighbour = n;
	answer = piece(id, number, second);
	neighbour = kept;
	return answer;
}

static int finishes_from(uint64_t n, uint32_t id, uint64_t second)
{
	return piece_from(n, id, 0, second) == 0 && piece_from(n, id, 1, second) == STRAWHUB_FINISHED;
}

/* Every neighbour but one has 4 messages open and 16 remembered, of the last second, so that no sweep takes them. */
static void busy_but(uint64_t one)
{
	uint64_t n;
	uint32_t id;
	for (n = 0; n < STRAWHUB_NEIGHBOURS; n++) {
		if (n == one)
			continue;
		for (id = 4; id < 20; id++)
			CHECK(finishes_from(n, id, UINT64_MAX));
		for (id = 0; id < 4; id++)
			CHECK(piece_from(n, id, 0, UINT64_MAX) == 0);
	}
}

static void store_new(void)
{
	memset(&store, 0x5a, sizeof store);
	CHECK(strawhub_store_new(store.record, STRAWHUB_RECORD - 1) == 59);
	CHECK(all(store.record, STRAWHUB_RECORD, 0x5a));
	CHECK(strawhub_store_new(store.record, STRAWHUB_RECORD) == 0);
	CHECK(all(store.record, STRAWHUB_RECORD, 0));
	if (others_are_busy)
		busy_but(neighbour);
}

/* The request's story: pieces 0, 2 (the last) and 5 are no letter of three. */
static void story(void)
{
	struct strawhub_reply r;
	store_new();
	CHECK(first_of(7, "a", 1).number == 0);
	CHECK(next_of(7, 2, 0xff, "c", 1).number == 0);
	copy = store;
	CHECK(next_of(7, 5, 0, "f", 1).number == 55 && unchanged());
	r = next_of(7, 1, 0, "b", 1);
	CHECK(r.number == STRAWHUB_FINISHED && r.kind == 20 && r.expires == 9 && r.length == 3);
	CHECK(memcmp(store.out, "abc", 3) == 0 && all(store.out + 3, sizeof store.out - 3, 0x5a));
}

static void store_pieces(void)
{
	static char page[1501];
	uint32_t id;
	store_new();
	for (id = 0; id < 4; id++)
		CHECK(next_of(id, 2, 1, "c", 1).number == 0);
	CHECK(next_of(3, 1, 0, page, 1500).number == 0);
	copy = store;
	CHECK(next_of(0, 1, 0, page, 0).number == 50 && unchanged());
	CHECK(first_of(0, page, 1501).number == 50 && unchanged());
	CHECK(next_of(0, 0, 0, page, 1).number == 51 && unchanged());
	CHECK(next_of(0, 128, 0, page, 1).number == 51 && unchanged());
	CHECK(first_of(4, page, 1).number == 52 && unchanged());
	CHECK(next_of(0, 2, 1, "c", 1).number == 54 && unchanged());
	CHECK(next_of(0, 2, 0, "c", 1).number == 55 && unchanged());
	CHECK(next_of(3, 1, 0, page, 1500).number == 54 && unchanged());
	CHECK(strawhub_store_first(store.record, STRAWHUB_RECORD, store.room, STRAWHUB_ROOM, store.out, 1501, neighbour, 3, 20,
	                           9, 100, (const uint8_t *)page, 1).number == 56 && unchanged());
	CHECK(strawhub_store_first(store.record, STRAWHUB_RECORD - 1, store.room, STRAWHUB_ROOM, store.out, 9, neighbour, 0,
	                           20, 9, 100, (const uint8_t *)page, 1).number == 59 && unchanged());
	CHECK(strawhub_store_follow_on(store.record, STRAWHUB_RECORD, store.room, STRAWHUB_ROOM - 1, store.out, 9, neighbour,
	                               0, 1, 0, 100, (const uint8_t *)page, 1).number == 59 && unchanged());
}

static void store_long(void)
{
	static char page[1500];
	uint8_t n;
	store_new();
	for (n = 1; n < 44; n++)
		CHECK(next_of(1, n, 0, page, 1500).number == 0);
	copy = store;
	CHECK(first_of(1, page, 1036).number == 53 && unchanged());
	CHECK(first_of(1, page, 1035).number == 0);
}

/* A record that no call made: number 0 of the neighbour's slot 3 is one byte, after the 65,535 of its slot. */
static void store_outside(void)
{
	uint8_t *share = store.record + neighbour * SHARE, *head = share + 3 * 24, *entry = share + HEADS + 3 * 512;
	store_new();
	head[0] = 1;                   /* the id */
	head[18] = 1;                  /* numbers held */
	entry[0] = entry[1] = 0xff;    /* the place of number 0 */
	entry[2] = 1;                  /* its length */
	copy = store;
	CHECK(next_of(1, 1, 1, "y", 1).number == 59 && unchanged()); /* would join it */
	CHECK(first_of(1, "x", 1).number == 59 && unchanged());      /* would compare it */
	CHECK(next_of(1, 1, 1, "y", 0).number == 50 && unchanged());
	CHECK(next_of(1, 128, 1, "y", 1).number == 51 && unchanged());
	CHECK(next_of(1, 1, 0, "y", 1).number == 0); /* reads no piece */
	store = copy;
	entry[0] = 0xfe; /* its last byte is the slot's */
	CHECK(first_of(1, "x", 1).number == 55);
	CHECK(next_of(1, 1, 1, "y", 1).number == STRAWHUB_FINISHED && store.out[0] == 0x5a && store.out[1] == 'y');
}

static void store_sweep(void)
{
	store_new();
	CHECK(first_of(7, "a", 1).number == 0);
	copy = store;
	CHECK(strawhub_store_sweep(store.record, STRAWHUB_RECORD, 129) == 0 && unchanged());
	CHECK(strawhub_store_sweep(store.record, STRAWHUB_RECORD, 99) == 0 && unchanged());
	CHECK(strawhub_store_sweep(store.record, STRAWHUB_RECORD - 1, 200) == 0 && unchanged());
	CHECK(strawhub_store_sweep(store.record, STRAWHUB_RECORD, 130) == 0 && !unchanged());
	CHECK(first_of(7, "b", 1).number == 0);
}

/* ---- late repeats: the readings of document 02 by their numbers, 5.11 below at block_deliver ---- */

/* Whether a piece is refused as one of a finished message, and every lent byte stays. */
static int late(uint32_t id, uint8_t number, uint64_t second)
{
	copy = store;
	return piece(id, number, second) == STRAWHUB_ALREADY_FINISHED && unchanged();
}

static void sweep(uint64_t second)
{
	CHECK(strawhub_store_sweep(store.record, sizeof store.record, second) == 0);
}

/* 5.1: 50 and 51 come first, then 57, whatever the piece is and however many are open. */
static void late_order(void)
{
	uint32_t id;
	store_new();
	CHECK(finishes(7, 0));
	CHECK(late(7, 1, 0) && late(7, 0, 0) && late(7, 9, 0) && late(7, 127, 0));
	CHECK(next_of(7, 1, 1, "other", 5).number == 57 && unchanged());
	CHECK(next_of(7, 0, 1, "a", 1).number == 51 && unchanged());
	CHECK(next_of(7, 128, 1, "a", 1).number == 51 && unchanged());
	CHECK(next_of(7, 1, 1, "a", 0).number == 50 && unchanged());
	CHECK(first_of(7, "a", 0).number == 50 && unchanged());
	for (id = 100; id < 104; id++)
		CHECK(piece(id, 0, 0) == 0);
	CHECK(late(7, 1, 0) && late(7, 0, 0));
	CHECK(piece(8, 0, 0) == 52 && unchanged());
	CHECK(late(7, 1, 0) && piece_to(0, 7, 1, 0) == 57 && unchanged());
}

/* 5.2, 5.3, 5.9: only a sweep finds an id due, by the second of the finishing piece, which a 57 does not refresh. */
static void late_due(void)
{
	store_new();
	CHECK(finishes(7, 0));
	CHECK(late(7, 1, 99));
	store_new();
	CHECK(piece(7, 0, 0) == 0 && piece(7, 1, 20) == STRAWHUB_FINISHED);
	sweep(30);
	CHECK(late(7, 0, 30));
	sweep(49);
	CHECK(late(7, 0, 49));
	sweep(50);
	CHECK(piece(7, 0, 50) == 0);
	store_new();
	CHECK(finishes(7, 0));
	CHECK(late(7, 0, 29));
	sweep(30);
	CHECK(piece(7, 0, 30) == 0);
}

/* 5.13: nothing wraps at the finishing second + 30; an id finished later than the sweep stays. */
static void late_seconds(void)
{
	store_new();
	CHECK(finishes(7, UINT64_MAX) && finishes(8, UINT64_MAX - 29) && finishes(9, UINT64_MAX - 30));
	sweep(0);
	sweep(29);
	sweep(30);
	CHECK(late(7, 0, 0) && late(8, 0, 0) && late(9, 0, 0));
	sweep(UINT64_MAX - 1);
	CHECK(late(9, 0, 0));
	sweep(UINT64_MAX);
	CHECK(late(7, 0, 0) && late(8, 0, 0) && piece(9, 0, 0) == 0);
}

/* 5.4, 5.10, 12.3: a 17th pushes out the first finished in the order of the calls, due or not. */
static void late_pushed(void)
{
	uint32_t id;
	store_new();
	for (id = 0; id < 16; id++)
		CHECK(finishes(id, id == 1 ? 5 : 10));
	for (id = 0; id < 16; id++)
		CHECK(late(id, 0, 10));
	CHECK(finishes(16, 10));
	for (id = 1; id < 17; id++)
		CHECK(late(id, 1, 10));
	CHECK(piece(0, 0, 10) == 0);
	store_new();
	for (id = 0; id < 16; id++)
		CHECK(finishes(id, 0));
	CHECK(finishes(16, 99));
	CHECK(late(1, 0, 99) && late(16, 0, 99) && piece(0, 0, 99) == 0);
}

/* 5.5: a push counts remembered ids; those that a sweep forgot leave no gap, and the others keep their order. */
static void late_forgotten(void)
{
	uint32_t id;
	store_new();
	CHECK(finishes(0, 100));
	for (id = 1; id < 16; id++)
		CHECK(finishes(id, 0));
	sweep(30);
	CHECK(finishes(16, 30) && late(0, 0, 30) && piece(1, 0, 30) == 0);
	store_new();
	CHECK(finishes(0, 100));
	for (id = 1; id < 16; id++)
		CHECK(finishes(id, id % 5 == 0 ? 40 : 0));
	sweep(30);
	CHECK(late(0, 0, 30) && late(5, 0, 30) && late(10, 0, 30) && late(15, 0, 30));
	for (id = 16; id < 28; id++)
		CHECK(finishes(id, 30)); /* 16 are remembered: 0, 5, 10, 15 and these */
	CHECK(late(0, 0, 30) && finishes(28, 30));
	CHECK(late(5, 0, 30) && piece(0, 0, 30) == 0 && finishes(29, 30));
	CHECK(late(10, 0, 30) && late(15, 0, 30) && late(16, 0, 30) && piece(5, 0, 30) == 0);
}

/* 5.6, 5.7, 5.8: what a sweep dropped or a 56 left open is not remembered; zeros remember nothing, id 0 neither. */
static void late_unfinished(void)
{
	store_new();
	CHECK(piece(7, 0, 0) == 0);
	sweep(30);
	CHECK(piece(7, 0, 30) == 0);
	store_new();
	CHECK(piece(3, 0, 0) == 0);
	copy = store;
	CHECK(piece_to(1, 3, 1, 0) == 56 && unchanged());
	CHECK(piece(3, 0, 0) == 54 && unchanged());
	CHECK(piece_to(2, 3, 1, 0) == STRAWHUB_FINISHED && late(3, 0, 0));
	memset(store.record + neighbour * SHARE, 0, SHARE);
	CHECK(finishes(0, 0) && late(0, 0, 0) && late(0, 1, 0));
}

/* A remembered id is all of its 32 bits: none that differs in one of them is refused. */
static void late_ids(void)
{
	int bit;
	store_new();
	CHECK(finishes(7, 0));
	for (bit = 0; bit < 32; bit++) {
		copy = store;
		CHECK(piece(7 ^ (uint32_t)1 << bit, 0, 0) == 0);
		store = copy;
	}
	CHECK(late(7, 0, 0));
}

/* 5.14, 5.15: repeats between the pieces of another message; at the end none is open, and both are remembered. */
static void late_between(void)
{
	uint32_t id;
	store_new();
	CHECK(finishes(7, 0) && late(7, 0, 0) && piece(8, 0, 0) == 0);
	CHECK(late(7, 1, 0) && piece(8, 1, 0) == STRAWHUB_FINISHED);
	for (id = 100; id < 104; id++)
		CHECK(piece(id, 0, 0) == 0);
	CHECK(piece(104, 0, 0) == 52 && late(7, 0, 0) && late(8, 1, 0));
}

/* 5.12, 12.9: a record of an older length, 8,576 or 9,345, or of one byte too few is a 59 for every call, and so is a
 * room of 1,048,559 bytes; nothing changes. */
static void late_record(void)
{
	static const size_t lengths[] = {8576, 9345, STRAWHUB_RECORD - 1};
	const uint8_t byte = 'a';
	size_t i;
	CHECK(STRAWHUB_RECORD == 9352 && STRAWHUB_ROOM == 1048560);
	store_new();
	CHECK(finishes(7, 0) && piece(8, 0, 0) == 0);
	copy = store;
	for (i = 0; i < 3; i++) {
		size_t n = lengths[i];
		CHECK(strawhub_store_new(store.record, n) == 59 && unchanged());
		CHECK(strawhub_store_first(store.record, n, store.room, STRAWHUB_ROOM, store.out, 9, neighbour, 7, 20, 9, 0, &byte,
		                           1).number == 59);
		CHECK(strawhub_store_follow_on(store.record, n, store.room, STRAWHUB_ROOM, store.out, 9, neighbour, 8, 1, 1, 0,
		                               &byte, 1).number == 59);
		CHECK(strawhub_store_sweep(store.record, n, 99) == 0 && unchanged());
	}
	CHECK(strawhub_store_first(store.record, STRAWHUB_RECORD, store.room, 1048559, store.out, 9, neighbour, 9, 20, 9, 0,
	                           &byte, 1).number == 59);
	CHECK(strawhub_store_follow_on(store.record, STRAWHUB_RECORD, store.room, 1048559, store.out, 9, neighbour, 8, 1, 1, 0,
	                               &byte, 1).number == 59 && unchanged());
}

static struct strawhub_outcome deliver(const uint8_t *block, size_t length, size_t at, uint64_t told[6])
{
	return strawhub_block_deliver(block, length, at, store.record, sizeof store.record, store.room, sizeof store.room,
	                              store.out, sizeof store.out, neighbour, 100, told);
}

static void block_deliver(void)
{
	static const uint8_t last[] = {5, 0, 7, 3, 0, 0, 0, 7, 'c', 'd'};
	static const uint8_t whole[] = {3, 0, 11, 11, 0, 0, 0, 5, 0, 0, 0, 6, 'h', 'i'};
	static const uint64_t none[6], rebuilt[6] = {2, 20, 7, 9, 0, 4}, in_payload[6] = {1, 11, 5, 6, 12, 2};
	uint64_t told[6];
	store_new();
	memset(told, 0x77, sizeof told);
	copy = store;
	CHECK(is(deliver(payload, sizeof payload - 1, 16, told), 5, 16));
	CHECK(is(deliver(payload, sizeof payload, 30, told), 1, 30));
	CHECK(all(told, sizeof told, 0x77) && unchanged());
	CHECK(deliver(payload, sizeof payload, 0, told).number == 0);
	CHECK(memcmp(told, none, sizeof told) == 0 && unchanged());
	CHECK(deliver(whole, sizeof whole, 0, told).number == 0);
	CHECK(memcmp(told, in_payload, sizeof told) == 0 && unchanged());
	CHECK(deliver(payload, sizeof payload, 16, told).number == 0);
	CHECK(memcmp(told, none, sizeof told) == 0);
	copy = store;
	memset(told, 0x77, sizeof told);
	CHECK(is(deliver(payload, sizeof payload, 16, told), 54, 16));
	CHECK(all(told, sizeof told, 0x77) && unchanged());
	CHECK(deliver(last, sizeof last, 0, told).number == STRAWHUB_FINISHED);
	CHECK(memcmp(told, rebuilt, sizeof told) == 0 && memcmp(store.out, "abcd", 4) == 0);
}

/* A late repeat as a block is refused at its place. 5.11: a whole message under its id is delivered all the same. */
static void block_deliver_late(void)
{
	static const uint8_t last[] = {15, 0, 0, 5, 0, 7, 3, 0, 0, 0, 7, 'c', 'd'};
	static const uint8_t whole[] = {3, 0, 11, 11, 0, 0, 0, 7, 0, 0, 0, 6, 'h', 'i'};
	static const uint64_t in_payload[6] = {1, 11, 7, 6, 12, 2};
	uint64_t told[6];
	store_new();
	CHECK(deliver(whole, sizeof whole, 0, told).number == 0);
	CHECK(deliver(payload, sizeof payload, 16, told).number == 0);
	CHECK(deliver(last, sizeof last, 3, told).number == STRAWHUB_FINISHED);
	copy = store;
	memset(told, 0x77, sizeof told);
	CHECK(is(deliver(last, sizeof last, 3, told), 57, 3));
	CHECK(is(deliver(payload, sizeof payload, 16, told), 57, 16));
	CHECK(all(told, sizeof told, 0x77) && unchanged());
	CHECK(deliver(whole, sizeof whole, 0, told).number == 0);
	CHECK(memcmp(told, in_payload, sizeof told) == 0 && unchanged());
}

/* ---- fair slots: the readings of document 02 by their numbers ---- */

/* Neighbour numbers that are too high, and would be 0 to 3 with fewer bits. */
static const uint64_t too_high[] = {4,
                                    5,
                                    255,
                                    256,
                                    259,
                                    65536,
                                    (uint64_t)1 << 32,
                                    ((uint64_t)1 << 32) + 3,
                                    (uint64_t)1 << 63,
                                    UINT64_MAX - 255,
                                    UINT64_MAX};

#define TOO_HIGH (sizeof too_high / sizeof too_high[0])

/* How many messages each neighbour has open, by the record. */
static int summary_is(uint8_t n0, uint8_t n1, uint8_t n2, uint8_t n3)
{
	const uint8_t *at = store.record + SUMMARY;
	return at[0] == n0 && at[SHARE] == n1 && at[2 * SHARE] == n2 && at[3 * SHARE] == n3;
}

/* Whether no byte of record and room has changed but in a neighbour's own shares. */
static int others_stay(uint64_t n)
{
	size_t at = n * SHARE, end = at + SHARE, room_at = n * ROOM_SHARE, room_end = room_at + ROOM_SHARE;
	return memcmp(store.record, copy.record, at) == 0 &&
	       memcmp(store.record + end, copy.record + end, STRAWHUB_RECORD - end) == 0 &&
	       memcmp(store.room, copy.room, room_at) == 0 &&
	       memcmp(store.room + room_end, copy.room + room_end, STRAWHUB_ROOM - room_end) == 0;
}

/* What neighbour n's piece of so many bytes is refused with, as a first and as a follow-on piece, over so many bytes of
 * record and room; 0 where the two differ, or a lent byte has changed. */
static unsigned refused(size_t record, size_t room, uint64_t n, uint8_t number, size_t length)
{
	static const uint8_t bytes[1501];
	struct strawhub_reply f = strawhub_store_first(store.record, record, store.room, room, store.out, sizeof store.out,
	                                               n, 7, 20, 9, 100, bytes, length);
	struct strawhub_reply r = strawhub_store_follow_on(store.record, record, store.room, room, store.out,
	                                                   sizeof store.out, n, 7, number, 1, 100, bytes, length);
	return f.number == r.number && unchanged() ? r.number : 0;
}

/* 12.1, 12.5: 59, then 58 in all 64 bits, then 50; 58 comes before 51 too, and changes no lent byte. */
static void fair_order(void)
{
	size_t i;
	store_new();
	busy_but(4);
	copy = store;
	for (i = 0; i < TOO_HIGH; i++) {
		uint64_t n = too_high[i];
		CHECK(refused(STRAWHUB_RECORD, STRAWHUB_ROOM - 1, n, 1, 0) == 59);
		CHECK(refused(STRAWHUB_RECORD - 1, STRAWHUB_ROOM, n, 1, 0) == 59);
		CHECK(refused(0, 0, n, 1, 1) == 59);
		CHECK(refused(STRAWHUB_RECORD, STRAWHUB_ROOM, n, 1, 0) == 58);
		CHECK(refused(STRAWHUB_RECORD, STRAWHUB_ROOM, n, 1, 1501) == 58);
		CHECK(refused(STRAWHUB_RECORD, STRAWHUB_ROOM, n, 0, 1) == 58);
		CHECK(refused(STRAWHUB_RECORD, STRAWHUB_ROOM, n, 128, 1) == 58);
		CHECK(refused(STRAWHUB_RECORD, STRAWHUB_ROOM, n, 1, 1) == STRAWHUB_NEIGHBOUR_HIGH);
	}
	for (i = 0; i < STRAWHUB_NEIGHBOURS; i++) {
		CHECK(refused(STRAWHUB_RECORD, STRAWHUB_ROOM - 1, i, 1, 0) == 59);
		CHECK(refused(STRAWHUB_RECORD, STRAWHUB_ROOM, i, 0, 0) == 50);
		CHECK(refused(STRAWHUB_RECORD, STRAWHUB_ROOM, i, 1, 1) == 57);
	}
}

/* 12.2, 12.10: ids hold within a neighbour, remembered ones too. In the end none is open; 7 is remembered for 0 and 1. */
static void fair_ids(void)
{
	uint32_t n;
	store_new();
	CHECK(finishes_from(0, 7, 0) && finishes_from(1, 7, 0));
	CHECK(piece_from(0, 7, 0, 0) == 57 && piece_from(1, 7, 0, 0) == 57 && piece_from(2, 7, 0, 0) == 0);
	store_new();
	CHECK(piece_from(0, 7, 0, 0) == 0 && piece_from(1, 7, 0, 0) == 0 && summary_is(1, 1, 0, 0));
	CHECK(piece_from(0, 7, 1, 0) == STRAWHUB_FINISHED && summary_is(0, 1, 0, 0));
	CHECK(piece_from(1, 7, 1, 0) == STRAWHUB_FINISHED && summary_is(0, 0, 0, 0));
	for (n = 0; n < STRAWHUB_NEIGHBOURS; n++)
		CHECK(all(store.record + n * SHARE, HEADS, 0));
	copy = store;
	CHECK(piece_from(0, 7, 1, 0) == 57 && piece_from(1, 7, 1, 0) == 57 && unchanged());
	CHECK(finishes_from(2, 7, 0) && finishes_from(3, 7, 0));
}

/* Equal ids with other bytes: each neighbour gets its own message. */
static void fair_bytes(void)
{
	static const char *const pages[] = {"aA", "bB", "cC", "dD"};
	store_new();
	for (neighbour = 0; neighbour < 4; neighbour++)
		CHECK(first_of(7, pages[neighbour], 1).number == 0);
	for (neighbour = 0; neighbour < 4; neighbour++) {
		CHECK(next_of(7, 1, 1, pages[neighbour] + 1, 1).number == STRAWHUB_FINISHED);
		CHECK(memcmp(store.out, pages[neighbour], 2) == 0);
	}
	neighbour = 0;
}

/* 12.3: 16 remembered ids for each neighbour; a 17th pushes out that neighbour's first, and the others' lists stay. */
static void fair_memory(void)
{
	uint32_t id, n;
	store_new();
	for (n = 0; n < 4; n++)
		for (id = 0; id < 16; id++)
			CHECK(finishes_from(n, id, 0));
	for (n = 0; n < 4; n++)
		for (id = 0; id < 16; id++)
			CHECK(piece_from(n, id, 0, 0) == 57); /* 64 in all */
	copy = store;
	CHECK(finishes_from(0, 16, 0) && others_stay(0));
	CHECK(piece_from(0, 1, 0, 0) == 57 && piece_from(0, 16, 0, 0) == 57 && piece_from(0, 0, 0, 0) == 0);
	for (n = 1; n < 4; n++)
		CHECK(piece_from(n, 0, 0, 0) == 57 && piece_from(n, 16, 0, 0) == 0);
}

/* 12.4: one sweep for all, of open messages and of remembered ones. */
static void fair_sweep(void)
{
	uint64_t n;
	store_new();
	CHECK(piece_from(0, 1, 0, 0) == 0 && piece_from(3, 1, 0, 10) == 0 && summary_is(1, 0, 0, 1));
	sweep(30);
	CHECK(summary_is(0, 0, 0, 1));
	sweep(40);
	CHECK(summary_is(0, 0, 0, 0));
	for (n = 0; n < 4; n++) {
		CHECK(finishes_from(n, 7, n) && piece_from(n, 1, 0, n) == 0 && piece_from(n, 2, 0, 10) == 0);
		CHECK(piece_from(n, 3, 0, 0) == 0 && piece_from(n, 4, 0, n) == 0);
	}
	CHECK(summary_is(4, 4, 4, 4));
	sweep(31);
	CHECK(summary_is(1, 1, 3, 3));
	CHECK(piece_from(0, 7, 0, 31) == 0 && piece_from(1, 7, 0, 31) == 0);
	CHECK(piece_from(2, 7, 0, 31) == 57 && piece_from(3, 7, 0, 31) == 57);
}

/* 12.6: 52 means that this neighbour has 4 open, and 57 comes before it. */
static void fair_full(void)
{
	uint32_t id;
	store_new();
	CHECK(finishes_from(0, 9, 0));
	for (id = 0; id < 4; id++)
		CHECK(piece_from(0, id, 0, 0) == 0);
	copy = store;
	CHECK(piece_from(0, 9, 0, 0) == 57 && piece_from(0, 8, 0, 0) == 52 && piece_from(0, 8, 1, 0) == 52 && unchanged());
	CHECK(piece_from(1, 8, 0, 0) == 0 && piece_from(0, 8, 0, 0) == 52);
	CHECK(piece_from(0, 0, 1, 0) == STRAWHUB_FINISHED && piece_from(0, 8, 0, 0) == 0 && piece_from(0, 5, 0, 0) == 52);
}

/* One noisy neighbour has 4 messages open, and no more; each of the others still opens 4 and finishes them. */
static void fair_flood(void)
{
	uint64_t n;
	uint32_t id, noise = 1000;
	store_new();
	for (; noise < 1100; noise++)
		CHECK(piece_from(2, noise, 0, 0) == (noise < 1004 ? 0 : 52));
	CHECK(summary_is(0, 0, 4, 0));
	for (id = 0; id < 4; id++)
		for (n = 0; n < 4; n++) {
			copy = store;
			if (n == 2)
				CHECK(piece_from(2, noise++, 0, 0) == 52 && unchanged());
			else
				CHECK(piece_from(n, id, 0, 0) == 0 && others_stay(n));
		}
	CHECK(summary_is(4, 4, 4, 4));
	for (n = 0; n < 4; n++)
		CHECK(piece_from(n, 4, 0, 0) == 52);
	for (id = 0; id < 4; id++)
		for (n = 0; n < 4; n++) {
			copy = store;
			if (n != 2)
				CHECK(piece_from(n, id, 1, 0) == STRAWHUB_FINISHED && others_stay(n));
		}
	CHECK(summary_is(0, 0, 4, 0));
}

/* 12.9: the room's last byte is that of neighbour 3's fourth message. */
static void fair_room(void)
{
	static char page[1500];
	uint32_t id;
	uint8_t number;
	memset(page, 'p', sizeof page);
	store_new();
	neighbour = 3;
	for (id = 0; id < 3; id++)
		CHECK(piece(id, 0, 0) == 0);
	for (number = 1; number < 44; number++)
		CHECK(next_of(3, number, 0, page, 1500).number == 0);
	copy = store;
	CHECK(store.room[STRAWHUB_ROOM - 1] == 0x5a && first_of(3, page, 1035).number == 0);
	CHECK(store.room[STRAWHUB_ROOM - 1] == 'p' && others_stay(3));
	neighbour = 0;
}

/* 12.7: the summary is in the record. A message that opens raises it, one that finishes or is swept lowers it, and
 * nothing else changes it. */
static void fair_summary(void)
{
	store_new();
	CHECK(piece_from(1, 7, 0, 0) == 0 && summary_is(0, 1, 0, 0));
	CHECK(piece_from(1, 7, 2, 0) == 0 && summary_is(0, 1, 0, 0)); /* kept, and not the last */
	CHECK(piece_from(1, 8, 1, 5) == 0 && summary_is(0, 2, 0, 0));
	CHECK(piece_from(1, 8, 1, 5) == 54 && piece_from(1, 8, 2, 5) == 55 && summary_is(0, 2, 0, 0));
	neighbour = 1;
	CHECK(piece_to(1, 8, 0, 5) == 56 && summary_is(0, 2, 0, 0));
	neighbour = 0;
	CHECK(piece_from(1, 8, 0, 5) == STRAWHUB_FINISHED && summary_is(0, 1, 0, 0));
	CHECK(piece_from(1, 8, 0, 5) == 57 && summary_is(0, 1, 0, 0));
	sweep(29);
	CHECK(summary_is(0, 1, 0, 0));
	sweep(30);
	CHECK(summary_is(0, 0, 0, 0));
	sweep(31);
	CHECK(summary_is(0, 0, 0, 0));
}

/* 12.8, A.1: a summary that no call made. Every call ends, nothing wraps, and the other neighbours see nothing of it. */
static void fair_forged(void)
{
	uint8_t *open = store.record + 2 * SHARE + SUMMARY;
	uint32_t id;
	unsigned byte;
	for (byte = 0; byte < 256; byte++) {
		store_new();
		CHECK(piece_from(1, 1, 0, 0) == 0 && piece_from(2, 1, 0, 0) == 0);
		*open = (uint8_t)byte;
		copy = store;
		CHECK(piece_from(2, 2, 0, 0) == (byte < 4 ? 0 : 52) && others_stay(2));
		CHECK(piece_from(2, 1, 0, 0) == 54 && piece_from(2, 1, 1, 0) == STRAWHUB_FINISHED && others_stay(2));
		CHECK(*open == (byte < 4 ? byte : byte - 1));
		sweep(30);
		CHECK(piece_from(2, 1, 0, 30) == (byte > 4 ? 52 : 0));
		CHECK(finishes_from(1, 2, 30) && finishes_from(0, 2, 30));
	}
	store_new(); /* 4 slots in use, and the summary says 0: no slot is free, and nothing goes below 0 */
	for (id = 0; id < 4; id++)
		CHECK(piece_from(2, id, 0, 0) == 0);
	*open = 0;
	copy = store;
	CHECK(piece_from(2, 4, 0, 0) == 52 && unchanged());
	CHECK(piece_from(2, 0, 1, 0) == STRAWHUB_FINISHED && *open == 0);
	sweep(30);
	CHECK(*open == 0 && all(store.record + 2 * SHARE, HEADS, 0));
	for (id = 4; id < 8; id++)
		CHECK(piece_from(2, id, 0, 30) == 0);
	CHECK(*open == 4 && piece_from(2, 8, 0, 30) == 52);
	memset(store.record, 0xff, sizeof store.record);
	for (id = 0; id < 4; id++)
		CHECK(piece_from(id, 7, 0, 30) == 52 && piece_from(id, 0xffffffffu, 0, 30) == 59);
	sweep(UINT64_MAX);
}

/* A block's own refusals come before 58; a block that is no piece passes no store, so it gets neither 58 nor 59. */
static void fair_deliver(void)
{
	static const uint8_t last[] = {5, 0, 7, 3, 0, 0, 0, 7, 'c', 'd'}, time[] = {0, 0, 4, 0, 0, 0, 1};
	static const uint8_t whole[] = {3, 0, 11, 11, 0, 0, 0, 7, 0, 0, 0, 6, 'h', 'i'};
	static const uint64_t none[6], rebuilt[6] = {2, 20, 7, 9, 0, 4}, in_payload[6] = {1, 11, 7, 6, 12, 2};
	uint64_t told[6];
	size_t i;
	store_new();
	copy = store;
	for (i = 0; i < TOO_HIGH; i++) {
		neighbour = too_high[i];
		memset(told, 0x77, sizeof told);
		CHECK(is(deliver(payload, sizeof payload - 1, 16, told), 5, 16));
		CHECK(is(deliver(payload, sizeof payload, 16, told), 58, 16));
		CHECK(is(deliver(last, sizeof last, 0, told), 58, 0));
		CHECK(is(strawhub_block_deliver(last, sizeof last, 0, store.record, STRAWHUB_RECORD, store.room,
		                                STRAWHUB_ROOM - 1, store.out, 9, neighbour, 100, told), 59, 0));
		CHECK(all(told, sizeof told, 0x77));
		CHECK(is(deliver(whole, sizeof whole, 0, told), 0, 0) && memcmp(told, in_payload, sizeof told) == 0);
		CHECK(is(deliver(time, sizeof time, 0, told), 0, 0) && memcmp(told, none, sizeof told) == 0);
		CHECK(is(strawhub_block_deliver(whole, sizeof whole, 0, NULL, 0, NULL, 0, NULL, 0, neighbour, 100, told), 0, 0));
		CHECK(memcmp(told, in_payload, sizeof told) == 0 && unchanged());
	}
	for (neighbour = 0; neighbour < 4; neighbour++)
		CHECK(is(deliver(payload, sizeof payload, 16, told), 0, 0) && memcmp(told, none, sizeof told) == 0);
	CHECK(summary_is(1, 1, 1, 1));
	for (neighbour = 0; neighbour < 4; neighbour++) {
		CHECK(is(deliver(last, sizeof last, 0, told), 60, 0) && memcmp(told, rebuilt, sizeof told) == 0);
		CHECK(memcmp(store.out, "abcd", 4) == 0);
	}
	CHECK(summary_is(0, 0, 0, 0));
	neighbour = 0;
}

/* What holds of every neighbour. */
static void store_of_a_neighbour(void)
{
	story();
	store_pieces();
	store_long();
	store_outside();
	store_sweep();
	late_order();
	late_due();
	late_seconds();
	late_pushed();
	late_forgotten();
	late_unfinished();
	late_ids();
	late_between();
	late_record();
	block_deliver();
	block_deliver_late();
}

int main(void)
{
	keystream();
	header_write();
	header_read();
	block_read();
	block_write();
	block_list();
	tracker_register();
	tracker_report();
	tracker_ack_block();
	ack_expand();
	sender_resend();
	sender_used_up();
	sender_never_given();
	sender_given_up();
	sender_ack();
	sender_full();
	sender_record();
	sender_forged();
	sender_reports();
	sender_progress();
	for (others_are_busy = 0; others_are_busy < 2; others_are_busy++)
		for (neighbour = 0; neighbour < STRAWHUB_NEIGHBOURS; neighbour++)
			store_of_a_neighbour();
	others_are_busy = 0;
	neighbour = 0;
	fair_order();
	fair_ids();
	fair_bytes();
	fair_memory();
	fair_sweep();
	fair_full();
	fair_flood();
	fair_room();
	fair_summary();
	fair_forged();
	fair_deliver();
	printf("calls: %u passed, %u failed\n", passed, failed);
	return failed != 0;
}
