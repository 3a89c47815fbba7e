/* LAPDm sessions between endpoints of um and of libosmogsm, counted by outcome.
 *
 *   sessions PAIR CHANNEL SCENE FIRST COUNT [t200 BLOCKS] [loss THOUSANDTHS]
 *   sessions trace PAIR CHANNEL SCENE SEED [t200 BLOCKS] [loss THOUSANDTHS]
 *
 * PAIR: the mobile and the network: u (um), p (um with T200 from the call), o (libosmogsm). CHANNEL: sdcch, sacch.
 * SCENE: 0, m3, n3, b3, all (session.h). It prints a line for each loss rate, then the causes of failed sessions, and last how many
 * sessions passed; a session in which um violates a requirement does not pass, and has a line of its own. */
#include "session.h"
#include <stdio.h>
#include <stdlib.h>
#include <string.h>

static const char *const outcomes[OUTCOMES] = { "whole", "early", "unopened", "given-up", "still", "wrong" };

static const struct player *player_of(char letter)
{
	switch (letter) {
	case 'u': return &um_player;
	case 'p': return &plain_player;
	case 'o': return &osmo_player;
	}
	fprintf(stderr, "sessions: a side is u, p or o, not %c\n", letter);
	exit(2);
}

static struct row { int loss, sigma; long sessions, blocks, lost, i_frames, rejects, ended[OUTCOMES]; } rows[32];
static struct cause { char text[180]; long count; unsigned long long seed; } causes[64];
static int row_count, cause_count;
static long passed, failed;

static struct row *row_of(const struct plan *p)
{
	int i = 0;
	while (i < row_count && (rows[i].loss != p->loss || rows[i].sigma != (int)p->sigma))
		i++;
	if (i == row_count)
		rows[row_count++] = (struct row){ .loss = p->loss, .sigma = (int)p->sigma };
	return &rows[i];
}

static void count_cause(const char *text, uint64_t seed)
{
	int i = 0;
	while (i < cause_count && strcmp(causes[i].text, text))
		i++;
	if (i == cause_count && cause_count < 63)
		cause_count++;
	if (!causes[i].count++) {
		snprintf(causes[i].text, sizeof causes[i].text, "%s", text);
		causes[i].seed = seed;
	}
}

static void count(const struct plan *p, const struct result *r, const char *what)
{
	struct row *row = row_of(p);
	row->sessions++;
	row->ended[r->outcome]++;
	row->blocks += r->blocks;
	row->lost += r->lost;
	row->i_frames += r->i_frames;
	row->rejects += r->rejects;
	if (r->outcome > EARLY) {
		char text[180];
		snprintf(text, sizeof text, "%s: %s", outcomes[r->outcome], r->cause);
		count_cause(text, p->seed);
	}
	if (r->fault[0]) {
		failed++;
		printf("FAILED %s seed %llu: %s\n", what, (unsigned long long)p->seed, r->fault);
	} else
		passed++;
}

static void print_counts(const char *what)
{
	for (int i = 0; i < row_count; i++) {
		const struct row *r = &rows[i];
		printf("%s %s %d: sessions %ld", what, r->sigma ? "sigma" : "loss", r->sigma ? r->sigma : r->loss, r->sessions);
		for (int k = 0; k < OUTCOMES; k++)
			printf(" %s %ld", outcomes[k], r->ended[k]);
		printf(" blocks %ld lost %ld I %ld REJ %ld\n", r->blocks, r->lost, r->i_frames, r->rejects);
	}
	for (int i = 0; i < cause_count; i++)
		printf("%s cause %ld %s (seed %llu)\n", what, causes[i].count, causes[i].text, causes[i].seed);
	printf("sessions: %ld passed, %ld failed\n", passed, failed);
}

static uint8_t channel_of(const char *word)
{
	return strcmp(word, "sacch") ? UM_SDCCH : UM_SACCH;
}

int main(int count_of_words, char **words)
{
	static struct plan plan;
	double t200 = 0;
	int loss = -1;
	bool trace = count_of_words >= 6 && !strcmp(words[1], "trace");
	char **at = words + (trace ? 2 : 1);
	if (count_of_words < 6) {
		fprintf(stderr, "sessions PAIR CHANNEL SCENE FIRST COUNT [t200 BLOCKS] [loss THOUSANDTHS] | sessions trace PAIR CHANNEL SCENE SEED\n");
		return 2;
	}
	for (int i = 6; i + 1 < count_of_words; i += 2) {
		t200 = strcmp(words[i], "t200") ? t200 : atof(words[i + 1]);
		loss = strcmp(words[i], "loss") ? loss : atoi(words[i + 1]);
	}
	const struct player *const players[2] = { player_of(at[0][0]), player_of(at[0][1]) };
	char what[40];
	snprintf(what, sizeof what, "%s %s %s", at[0], at[1], at[2]);
	quiet_osmo();
	uint64_t first = strtoull(at[3], NULL, 10), sessions = trace ? 1 : strtoull(at[4], NULL, 10);
	for (uint64_t seed = first; seed < first + sessions; seed++) {
		plan_session(&plan, seed, channel_of(at[1]), at[2]);
		if (t200 > 0)
			plan.t200[0] = plan.t200[1] = (long)(t200 * (plan.on == UM_SACCH ? 102 : 51));
		if (loss >= 0)
			plan.loss = loss, plan.sigma = 0;
		struct result result = run_session(&plan, players, trace);
		count(&plan, &result, what);
	}
	print_counts(what);
	return failed != 0;
}
