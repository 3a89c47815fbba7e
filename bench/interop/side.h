/* One side of a channel, a mobile or a base station, with its links of SAPI 0 and 3, independent of the implementation. */
#ifndef SIDE_H
#define SIDE_H
#include "um.h"

enum { LINK0, LINK3, LINK_COUNT, LINE_ROOM = 1024 };
enum event { OPENED, GOT, UNIT, ACKED, OVERSIZE, CLOSED, ERROR };
enum closed { BY_CONTENTION, BY_FAILURE, BY_REFUSAL, BY_RELEASE, CLOSINGS }; /* um_reason */

struct side;

/* The operations of a side. Each call returns whether it was accepted. */
struct player {
	const char *name;
	void (*begin)(struct side *);
	bool (*open)(struct side *, int link, const um_message *info);
	bool (*send)(struct side *, int link, const um_message *);
	bool (*unit)(struct side *, int link, const um_message *);
	bool (*close)(struct side *, int link);
	/* a mobile returns to its old channel: it opens SAPI 0 again, and libosmogsm sends this message then */
	bool (*resume)(struct side *, const um_message *);
	void (*take)(struct side *, const uint8_t block[23]);
	bool (*next)(struct side *, uint8_t block[23]); /* the block to send; false: nothing is queued, and it is a fill frame */
	void (*timers)(struct side *);
	void (*end)(struct side *);
};
extern const struct player um_player;    /* um's data link */
extern const struct player plain_player; /* um's endpoints with one queue and T200 counted from the call, which um.h warns against */
extern const struct player osmo_player;  /* libosmogsm's entities */

struct side {
	const struct player *player;
	uint8_t role, on;  /* um_role, um_channel */
	bool alone;        /* SAPI 0 is not of the session: it is established */
	bool normal;       /* SAPI 0 is opened without information */
	bool polled;       /* libosmogsm hands out a frame when the air has room, as in osmo-bts; else as soon as it has one */
	long t200;         /* TDMA frames */
	/* octets of OPENED, GOT and UNIT, else none; the number of ACKED, of CLOSED (enum closed) or of ERROR (its cause) */
	void (*report)(struct side *, int link, enum event, const uint8_t *octets, int number);
	void *own;
	struct line { uint8_t blocks[LINE_ROOM][23]; unsigned first, count; } line; /* the transmit queue, for sides without their own */
};

extern long now; /* TDMA frames, set by whoever runs the sides */

void line_add(struct side *, const uint8_t block[23]); /* dropped where 1024 blocks wait */
bool line_next(struct side *, uint8_t block[23]);
void quiet_osmo(void); /* silences libosmocore's log */
#endif
