/* Strawhub: SSU2 headers, blocks, acknowledgements, packets sent and reassembly, proved. Link libstrawhub.a.
 *
 * Every call takes any bytes and any lengths, ends, and allocates nothing. A slice is a pointer and a
 * count; with a count of 0 the pointer may be anything. An array is as long as it is declared. What a
 * call may write, a slice or an array, must not overlap any other slice or array of that call. State is
 * bytes that the caller keeps and hands in as the last call left them; all zero is empty.
 *
 * 0 is success. Any other number is a refusal, and a refusal changes no byte that was lent. Two numbers
 * are no refusals: 60, a message is finished, and strawhub_tracker_duplicate's 1, a duplicate. STRAWHUB_*
 * below name the numbers, docs/REFUSALS.md says what a daemon does at each. Parts of an answer that
 * nothing is said of are 0. A flag that is handed in is set by any value but 0.
 */
#ifndef STRAWHUB_H
#define STRAWHUB_H

#include <stddef.h>
#include <stdint.h>

#ifdef __cplusplus
extern "C" {
#endif

/* Bytes that a tracker takes, a sender, a store's record, its room, and a finished message at most. */
#define STRAWHUB_TRACKER 259
#define STRAWHUB_SENDER 4104
#define STRAWHUB_RECORD 9352
#define STRAWHUB_ROOM 1048560
#define STRAWHUB_MESSAGE 65535

/* Packets that a sender has outstanding at most. */
#define STRAWHUB_OUTSTANDING 256

/* Neighbours of a store: their numbers are 0 to 3. */
#define STRAWHUB_NEIGHBOURS 4

enum strawhub_number {
	STRAWHUB_DONE = 0,
	STRAWHUB_ENDS_INSIDE_BLOCK = 1,      /* bytes end inside or before a block */
	STRAWHUB_ROUTER_INFO_SIZE = 2,       /* RouterInfo size 2 or less */
	STRAWHUB_I2NP_TYPE = 3,              /* I2NP type not listed */
	STRAWHUB_FIRST_FRAGMENT_SIZE = 4,    /* first fragment size 9 or less */
	STRAWHUB_FIRST_FRAGMENT_BYTES = 5,   /* first fragment's bytes missing */
	STRAWHUB_FOLLOW_ON_SIZE = 6,         /* follow-on size 5 or less */
	STRAWHUB_FOLLOW_ON_BYTES = 7,        /* follow-on's bytes missing */
	STRAWHUB_ADDRESS_SIZE = 8,           /* address size not 6 or 18 */
	STRAWHUB_I2NP_SIZE = 9,              /* I2NP size below 9 */
	STRAWHUB_LIST_FULL = 10,             /* all blocks good, but more than the list holds */
	STRAWHUB_PACKET_SHORT = 20,          /* packet too short to unmask, or to write */
	STRAWHUB_TYPE = 21,                  /* packet type unknown */
	STRAWHUB_VERSION = 22,               /* version not 2, 3 or 4 */
	STRAWHUB_KEY_MISSING = 23,           /* types 0 and 1 under 64 bytes */
	STRAWHUB_CONFIRMED_NUMBER = 24,      /* SessionConfirmed number not 0 */
	STRAWHUB_NIBBLE = 25,                /* written nibble above 15 */
	STRAWHUB_ROOM_SHORT = 30,            /* written block longer than the room */
	STRAWHUB_BODY_LONG = 31,             /* body above 65,535 */
	STRAWHUB_BLOCK_FAULTY = 32,          /* a block that cannot be written; a field wider than its place */
	STRAWHUB_NUMBER_HIGH = 40,           /* number above highest+255 */
	STRAWHUB_NOTHING_SEEN = 41,          /* report before any number */
	STRAWHUB_NUMBER_LOW = 42,            /* below the window */
	STRAWHUB_NUMBER_AGAIN = 43,          /* already received */
	STRAWHUB_BELOW_ZERO = 44,            /* an expansion goes below 0 */
	STRAWHUB_EXPANSION_LONG = 46,        /* an expansion has more numbers than its list holds */
	STRAWHUB_PIECE_LENGTH = 50,          /* piece length 0 or above 1,500 */
	STRAWHUB_PIECE_NUMBER = 51,          /* follow-on number 0 or above 127 */
	STRAWHUB_STORE_FULL = 52,            /* message not open and this neighbour has 4 open */
	STRAWHUB_MESSAGE_LONG = 53,          /* total would pass 65,535 */
	STRAWHUB_PIECE_AGAIN = 54,           /* exact repeat of a held piece */
	STRAWHUB_PIECE_CONFLICT = 55,        /* same number, other content; above the last; a last that cannot be */
	STRAWHUB_BUFFER_SHORT = 56,          /* would complete, assembly buffer too short */
	STRAWHUB_ALREADY_FINISHED = 57,      /* piece of a finished message whose id is remembered */
	STRAWHUB_NEIGHBOUR_HIGH = 58,        /* neighbour number above 3 */
	STRAWHUB_LENT_SHORT = 59,            /* lent room or record short, or the record names bytes outside it */
	STRAWHUB_FINISHED = 60,              /* a message is finished */
	STRAWHUB_SENDER_FULL = 70,           /* 256 packets are outstanding */
	STRAWHUB_NUMBERS_USED_UP = 71,       /* 4,294,967,295 was given out */
	STRAWHUB_NEVER_GIVEN_OUT = 72,       /* an Ack block names a number that was never given out */
	STRAWHUB_NOT_OUTSTANDING = 73        /* resend of a number that is not outstanding */
};

/* 0 and a length, a count, a place or a packet number; or a refusal and, for blocks that are read or
 * delivered, the block's place. */
struct strawhub_outcome {
	uint64_t number;
	uint64_t value;
};

/* A block of a listing: the place of its type byte, its type, its size field as it stands. */
struct strawhub_entry {
	size_t place;
	uint8_t kind;
	uint16_t size;
};

/* 0 and how many numbers an expansion wrote; or 44 or 46. */
struct strawhub_expanded {
	uint32_t number;
	size_t count;
};

/* What came of a piece: 0 kept; 60 finished, with the message's I2NP type, its expiration and its
 * length in the assembly buffer; or a refusal. */
struct strawhub_reply {
	uint8_t number;
	uint8_t kind;
	uint32_t expires;
	size_t length;
};

/* out becomes 64 bytes of the ChaCha20 keystream of RFC 8439. */
void strawhub_keystream(const uint8_t key[32], uint32_t counter, const uint8_t nonce[12], uint8_t out[64]);

/* Unmasks a packet's header in place and reads it; bytes past the header stay. Fields go to out, what a
 * type does not have as 0: type, version, network id, fragment, count, immediate-ack flag, packet
 * number, destination id, source id, token, place of the 32-byte key in the packet. Ids and token are
 * read low byte first. 0, or 20 to 24, and then packet and out are as they came. */
uint32_t strawhub_header_read(uint8_t *packet, size_t packet_len, const uint8_t key1[32], const uint8_t key2[32],
                              uint64_t out[11]);

/* Writes and masks a header at the start of a packet whose other bytes, the key of types 0 and 1
 * among them, stand there already; the masks' nonces are its last 24 bytes. Fields that a type does
 * not have are not looked at. Ids and token are written low byte first: a token that came in a NewToken
 * block, which has its high byte first, has its 8 bytes swapped before it is handed in. 0, or 21, 22,
 * 24, 25, 20, and then the packet is as it came. */
uint32_t strawhub_header_write(uint8_t *packet, size_t packet_len, const uint8_t key1[32], const uint8_t key2[32],
                               uint8_t kind, uint64_t destination, uint32_t number, uint8_t version, uint8_t network,
                               uint64_t source, uint64_t token, uint8_t fragment, uint8_t count, uint8_t immediate);

/* Reads the block at a place: 0 and the place after it, out written; or 1 to 9 and the place of its
 * type byte, out as it was. out: type, size field, place and length of the bytes after the fields (0, 0
 * where a type has none), then the fields in document 01's order, 0 beyond them:
 *   0 DateTime time; 1 Options t_min t_max r_min r_max t_dmy r_dmy t_delay r_delay;
 *   2 RouterInfo flag frag; 3 I2NP and 4 FirstFragment type id expiration;
 *   5 FollowOnFragment number last id; 6 Termination count reason; 12 Ack through count;
 *   13 Address port; 16 RelayTag tag; 17 NewToken expires token; 20 FirstPacketNumber number;
 *   21 Congestion flag; no fields in 15, 18, 19, 254 and every other type.
 * All numbers of a block stand high byte first, NewToken's token too (a header's stands low byte first).
 * last is 0 or 1. */
struct strawhub_outcome strawhub_block_read(const uint8_t *payload, size_t payload_len, size_t at, uint64_t out[12]);

/* Writes a block to the start of a room, fields as strawhub_block_read gives them, bytes as the bytes
 * after the fields (not looked at where a type has none): 0 and its length, the rest of the room stays;
 * or 32, 31, 30 in that order. A field that is too wide for its place in the block is a 32; last is a
 * flag. */
struct strawhub_outcome strawhub_block_write(uint8_t *room, size_t room_len, uint8_t kind, const uint64_t fields[8],
                                             const uint8_t *bytes, size_t bytes_len);

/* Lists a payload's blocks: 0 and their count, an entry for each in list, the rest of the list stays;
 * or 1 to 10 and the place of the block that was refused, of the first without an entry for 10. */
struct strawhub_outcome strawhub_block_list(const uint8_t *payload, size_t payload_len, struct strawhub_entry *list,
                                            size_t list_len);

/* A tracker that has seen nothing, in the first 259 bytes. 0, or 59 where there are fewer. */
uint32_t strawhub_tracker_new(uint8_t *tracker, size_t tracker_len);

/* A packet number came: 0, or 40, 42, 43, 59. Register a packet only after its payload was
 * authenticated: a forged packet that takes the number makes the true one a 43, and since the number is
 * then acknowledged, it is never sent again. */
uint32_t strawhub_tracker_register(uint8_t *tracker, size_t tracker_len, uint32_t number);

/* Whether a number is in the window and was received: 1 yes, 0 no, or 59. */
uint32_t strawhub_tracker_duplicate(const uint8_t *tracker, size_t tracker_len, uint32_t number);

/* The acknowledgement: through, count and the count of pair bytes in out, the pairs as an Ack block has
 * them in pairs, 0 beyond them. 0, or 41, 59. Asking changes nothing. */
uint32_t strawhub_tracker_report(const uint8_t *tracker, size_t tracker_len, uint64_t out[3], uint8_t pairs[254]);

/* The acknowledgement as an Ack block at the start of a room: 0 and its length, the rest of the room
 * stays; or 41, 59, 30. */
struct strawhub_outcome strawhub_tracker_ack_block(const uint8_t *tracker, size_t tracker_len, uint8_t *room,
                                                   size_t room_len);

/* The numbers that an acknowledgement names, falling, to the start of a list whose rest stays: 0 and
 * their count; or 44, 46. */
struct strawhub_expanded strawhub_ack_expand(uint32_t through, uint8_t count, const uint8_t *pairs, size_t pairs_len,
                                             uint32_t *list, size_t list_len);

/* ---- The sender: the packets that this end sent, and those that the far end has not acknowledged yet.
 *
 * Packet numbers are given out in order, from 1, and never twice; 4,294,967,295 is the last. 0, the
 * SessionConfirmed, counts as given out and settled from the start. A number that was given out is
 * outstanding until an Ack block names it, and then it is settled; or until its packet is sent again, which
 * gives the old number up and gives out a new one. A number that was given up is never settled, also where
 * an Ack block names it later. There is no other way out of the list: nothing expires, nothing is cancelled.
 *
 * Where the far tracker registers only numbers of this sender, and every Ack block that is fed in is a
 * report of that tracker, a number above 0 is settled only if that tracker had registered it; packets and
 * Ack blocks may be lost, repeated and reordered.
 *
 * Progress is not promised. The far tracker refuses by 40 every number more than 255 above the highest that
 * it registered, and a resend takes a higher number: if the first 255 numbers are lost, it refuses all later
 * ones, for ever. A daemon that keeps two rules never gets there; the calls do not test them.
 *  1. Keep the span from the lowest outstanding number to the highest given out below 255: then each
 *     outstanding number is still in the far end's window, and can be registered and reported. Send the
 *     oldest packet again before the span grows to 255.
 *  2. Give out no number, by a send or a resend, that is more than 255 above the highest settled one (0 at
 *     the start): then the far end cannot answer 40. Numbers given up count here too: one packet that was
 *     sent and resent 255 times, all lost, ends up as number 256, the only one outstanding, and 256 is
 *     refused. If none of those 255 arrives, the connection is lost: close it when no Ack block settles one.
 * The highest number given out is the one that the last send or resend answered, the lowest outstanding one
 * is that of packet 0 of strawhub_sender_outstanding, and strawhub_sender_ack gives the settled ones. */

/* A sender that has given out nothing, in the first 4,104 bytes. 4,104 zeros are one too. 0, or 59 where
 * there are fewer bytes. */
uint32_t strawhub_sender_new(uint8_t *sender, size_t sender_len);

/* A packet is sent, at a second: 0 and its number, which is then outstanding, with no resends; or the first
 * that holds of 59, 71, 70. */
struct strawhub_outcome strawhub_sender_send(uint8_t *sender, size_t sender_len, uint64_t second);

/* The packet of an outstanding number is sent again, at a second: 0 and its new number. The old number is
 * given up; the new one is outstanding, with this second and one resend more. Or the first that holds of 59,
 * 73, 71; it is never 70, for one leaves the list and one comes. */
struct strawhub_outcome strawhub_sender_resend(uint8_t *sender, size_t sender_len, uint32_t number, uint64_t second);

/* An Ack block came, from a payload that was authenticated: its through, its count and its pairs as
 * strawhub_block_read gives them; an odd last byte of the pairs is passed over. It settles those outstanding
 * packets that it names: 0 and how many they are, their numbers at the start of settled, the oldest first,
 * and the rest of settled stays. It may settle none, as an Ack block does that comes again, or that names 0
 * and numbers given up alone. Or the first that holds of 59, 44, 72, and then nothing is settled: 72 is given
 * where through is above the highest number given out. */
struct strawhub_outcome strawhub_sender_ack(uint8_t *sender, size_t sender_len, uint32_t through, uint8_t count,
                                            const uint8_t *pairs, size_t pairs_len,
                                            uint32_t settled[STRAWHUB_OUTSTANDING]);

/* The k-th outstanding packet, from 0, the oldest first: its number, the second at which it was sent under
 * that number and how often it was resent, in out, which stays where k is not below their count. 0 and that
 * count, or 59. Their numbers rise. Asking changes nothing. */
struct strawhub_outcome strawhub_sender_outstanding(const uint8_t *sender, size_t sender_len, size_t k,
                                                    uint64_t out[3]);

/* ---- The store: the pieces of I2NP messages, put together.
 *
 * A store serves four neighbours. Each piece comes with the number of the neighbour that sent it, 0 to 3; the
 * daemon decides which peer has which number. A number above 3 is a 58. It is taken as it is, in all 64 bits:
 * 256 is a 58, and not neighbour 0.
 *
 * A neighbour may always have up to 4 messages open, whatever the others send, and never more than 4. A piece
 * of a fifth message is a 52. Nothing that another neighbour sends makes a 52, or prevents one.
 *
 * Ids hold within a neighbour. Equal ids from two neighbours are two messages, so all pieces of a message have
 * to come under one number.
 *
 * The store remembers the ids of each neighbour's last finished messages, 16 at most, and answers 57 to every
 * piece that this neighbour sends under one of them. The far end sends a piece again when an acknowledgement
 * was lost; the message was delivered already. So drop the piece, and acknowledge its packet as usual. A new
 * message under a remembered id is refused in the same way. A sweep forgets an id 30 seconds after its message
 * was finished. Where a neighbour has 16 remembered, the next message that it finishes pushes out its first
 * finished one, and no other neighbour's. Nothing else forgets an id, so sweep regularly: before each payload,
 * or once a second. One sweep serves all neighbours.
 *
 * A daemon that kept 16 messages open in one store does one of two things now.
 *  1. One store for each session: hand in neighbour 0 with every piece. A session then has up to 4 messages
 *     open, and 16 remembered.
 *  2. One store for four peers: give each of them a number of its own. Together they have up to 16 messages
 *     open and 64 remembered, 4 and 16 each. Two peers under one number would share its 4, and their ids would
 *     be mixed up. When a peer is gone, wait for a sweep at least 30 seconds after its last piece before
 *     another peer gets its number: until then its messages count for the new peer. */

/* An empty store, in the first 9,352 bytes: no neighbour has a message open, and no finished one is
 * remembered. 9,352 zeros are an empty store too. 0, or 59 where there are fewer bytes. */
uint8_t strawhub_store_new(uint8_t *record, size_t record_len);

/* A first piece came from a neighbour, at a second. 0 kept; 60 with the whole message at the start of out; or
 * the first refusal that holds of 59, 58, 50, 57, 54, 55, 52, 53, 56. record holds at least 9,352 bytes, room
 * 1,048,560, for all four neighbours together; out is the assembly buffer. A record that no call made gets 59
 * too where it names bytes outside their slot's 65,535 for a piece that the call would compare or join. */
struct strawhub_reply strawhub_store_first(uint8_t *record, size_t record_len, uint8_t *room, size_t room_len,
                                           uint8_t *out, size_t out_len, uint64_t neighbour, uint32_t id,
                                           uint8_t kind, uint32_t expires, uint64_t second, const uint8_t *bytes,
                                           size_t bytes_len);

/* A follow-on piece came, in the same way; the refusals are 59, 58, 50, 51, 57, 54, 55, 52, 53, 56 in this
 * order. last is a flag. */
struct strawhub_reply strawhub_store_follow_on(uint8_t *record, size_t record_len, uint8_t *room, size_t room_len,
                                               uint8_t *out, size_t out_len, uint64_t neighbour, uint32_t id,
                                               uint8_t number, uint8_t last, uint64_t second, const uint8_t *bytes,
                                               size_t bytes_len);

/* Drops exactly the open messages, of every neighbour, whose opening piece came 30 seconds before this second
 * or earlier, and forgets exactly the finished ones whose finishing piece did. A message that is dropped was
 * not finished and is not remembered: its next piece opens it anew. 0. */
uint8_t strawhub_store_sweep(uint8_t *record, size_t record_len, uint64_t second);

/* What the block at a place of a neighbour's payload delivers. told: where the message stands (0 none, 1 in
 * the payload, 2 in the assembly buffer), its I2NP type, id, expiration, place and length there; all 0 where
 * there is none. 0: a whole message, or none (a piece was kept, or a block of another type); 60: a rebuilt
 * one. Or 1 to 9, or the store's refusal (59, 58 and 50 to 57, for pieces alone), with the block's place, and
 * then told too is as it was. A whole message passes no store: its id is not remembered, and it never gets
 * 57, 58 or 59. */
struct strawhub_outcome strawhub_block_deliver(const uint8_t *payload, size_t payload_len, size_t at, uint8_t *record,
                                               size_t record_len, uint8_t *room, size_t room_len, uint8_t *out,
                                               size_t out_len, uint64_t neighbour, uint64_t second, uint64_t told[6]);

#ifdef __cplusplus
}
#endif

#endif
