/* A session between two sides over a path that loses blocks: its plan and its result. */
#ifndef SESSION_H
#define SESSION_H
#include "side.h"

enum { MOBILE, NETWORK, EITHER, MESSAGES = 6 };

struct plan {
	uint64_t seed;
	uint8_t on;                 /* um_channel */
	int loss;                   /* blocks lost, in a thousand */
	double sigma;               /* noise on bits of amplitude 60, where blocks go as bursts; 0: they do not */
	bool fills, polled, early;  /* early: the link is closed at a slot of its own, whatever is under way */
	int closer, early_at;
	long t200[2];               /* TDMA frames */
	struct planned_link {
		bool wanted;
		int opener;             /* MOBILE, NETWORK, or EITHER: both at once */
		um_message info;
		int count[2], pause[2][MESSAGES];
		um_message messages[2][MESSAGES]; /* by the side that sends them */
	} links[LINK_COUNT];
};

enum outcome { WHOLE, EARLY, NOT_OPENED, GIVEN_UP, STANDS_STILL, WRONG, OUTCOMES };

struct result {
	enum outcome outcome;
	long blocks, lost, i_frames, rejects; /* without fill frames */
	char cause[160];                      /* why a session failed */
	char fault[160];                      /* a violation by um, else empty */
};

/* SCENE: "0", SAPI 0; "m3", "n3", "b3", SAPI 3 opened by the mobile, by the network, by both; "all", SAPI 0 and then SAPI 3 by either. */
void plan_session(struct plan *, uint64_t seed, uint8_t on, const char *scene);
struct result run_session(const struct plan *, const struct player *const players[2], bool trace);
#endif
