/* A neighbour's piece to a store, by the calls of this tree's archive, or by those of an archive from before neighbours, which take
 * none: BEFORE_NEIGHBOURS says so (bench/with). There all messages are of one sender, so no two neighbours may use one id here. */
#ifndef PIECE_H
#define PIECE_H

#include "strawhub.h"

#define NEIGHBOURS 4 /* of each 4 messages are open and 16 are remembered; before, 16 and 64 in all */

/* Where the pieces of a message stand, and what a finished one is put into. */
struct lent {
	uint8_t *record, *room, *out;
};

#ifdef BEFORE_NEIGHBOURS
struct strawhub_reply first_before(uint8_t *record, size_t record_len, uint8_t *room, size_t room_len, uint8_t *out,
                                   size_t out_len, uint32_t id, uint8_t kind, uint32_t expires, uint64_t second,
                                   const uint8_t *bytes, size_t bytes_len) __asm__("strawhub_store_first");
struct strawhub_reply follow_on_before(uint8_t *record, size_t record_len, uint8_t *room, size_t room_len, uint8_t *out,
                                       size_t out_len, uint32_t id, uint8_t number, uint8_t last, uint64_t second,
                                       const uint8_t *bytes, size_t bytes_len) __asm__("strawhub_store_follow_on");
#endif

/* Number 0 is a first piece. */
static inline unsigned piece_of(struct lent x, uint64_t neighbour, uint32_t id, uint8_t number, uint8_t last,
                                uint64_t second, const uint8_t *bytes, size_t length)
{
#ifdef BEFORE_NEIGHBOURS
	(void)neighbour;
	if (number == 0)
		return first_before(x.record, STRAWHUB_RECORD, x.room, STRAWHUB_ROOM, x.out, STRAWHUB_MESSAGE, id, 20, 9, second,
		                    bytes, length).number;
	return follow_on_before(x.record, STRAWHUB_RECORD, x.room, STRAWHUB_ROOM, x.out, STRAWHUB_MESSAGE, id, number, last,
	                        second, bytes, length).number;
#else
	if (number == 0)
		return strawhub_store_first(x.record, STRAWHUB_RECORD, x.room, STRAWHUB_ROOM, x.out, STRAWHUB_MESSAGE, neighbour, id,
		                            20, 9, second, bytes, length).number;
	return strawhub_store_follow_on(x.record, STRAWHUB_RECORD, x.room, STRAWHUB_ROOM, x.out, STRAWHUB_MESSAGE, neighbour,
	                                id, number, last, second, bytes, length).number;
#endif
}

#endif
