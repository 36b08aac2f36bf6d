/* The blocks of a payload, and the message that its pieces make: a store for one session, which is its neighbour 0. */
#include "strawhub.h"

#include <stdio.h>

static uint8_t record[STRAWHUB_RECORD], room[STRAWHUB_ROOM], message[STRAWHUB_MESSAGE]; /* all zero: empty */

/* DateTime, then pieces 0, 2 (the last), 5 (of another letter) and 1 of message 7; then piece 1 again, too late. */
static const uint8_t payload[] = "\x00\x00\x04\x65\x53\xf1\x00"
                                 "\x04\x00\x0e\x14\x00\x00\x00\x07\x65\x54\x00\x00hello"
                                 "\x05\x00\x0b\x05\x00\x00\x00\x07world!"
                                 "\x05\x00\x0a\x0a\x00\x00\x00\x07stray"
                                 "\x05\x00\x07\x02\x00\x00\x00\x07, "
                                 "\x05\x00\x07\x02\x00\x00\x00\x07, ";

int main(void)
{
	size_t length = sizeof payload - 1, i; /* without the 0 at the string's end */
	struct strawhub_entry list[500];       /* a third of a payload's bytes is enough */
	struct strawhub_outcome o = strawhub_block_list(payload, length, list, 500);
	if (o.number != STRAWHUB_DONE) {
		printf("refused %d at %d\n", (int)o.number, (int)o.value);
		return 1;
	}
	for (i = 0; i < o.value; i++) {
		uint64_t told[6];
		struct strawhub_outcome d = strawhub_block_deliver(payload, length, list[i].place, record, sizeof record, room,
		                                                   sizeof room, message, sizeof message, 0, 1700000000, told);
		printf("%d: type %d, size %d", (int)list[i].place, list[i].kind, list[i].size);
		if (d.number == STRAWHUB_FINISHED)
			printf(", message %d: %.*s\n", (int)told[2], (int)told[5], (const char *)message + told[4]);
		else
			printf(d.number == STRAWHUB_DONE ? "\n" : ", refused %d\n", (int)d.number);
	}
	return 0;
}
