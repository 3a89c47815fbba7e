/* Runs a session slot by slot: layer 3 follows the plan, and one block goes each way. The messages that each side delivers must be a prefix
 * of those given to the other side: in order, once, with the same octets. */
#include "session.h"
#include "draw.h"
#include <osmocom/coding/gsm0503_coding.h>
#include <stdio.h>
#include <string.h>

enum { SLOTS = 12000, QUIET = 300, SETTLED = 12, AFTER_END = 40 };

struct link_state {
	bool asked_open[2], asked_close, again; /* again: the closer's link opened again, and is to be closed again */
	int opened[2], closed[2], why[2];
	unsigned errors[2];           /* the causes reported, a bit each */
	int given[2], got[2];         /* messages taken by the side; messages that the side got */
	long next_at[2], settled;
};

static const struct plan *plan;
static struct side sides[2];
static struct link_state links[LINK_COUNT];
static struct result result;
static bool wrong, trace;
static long slot;

static bool is_um(int role)
{
	return sides[role].player != &osmo_player;
}

static const char *side_name(int role)
{
	return role == MOBILE ? "mobile" : "network";
}

/* Where libosmogsm plays both sides nothing is um's fault. */
static void say_fault(const char *what, int role, int link)
{
	if (!result.fault[0] && (is_um(0) || is_um(1)))
		snprintf(result.fault, sizeof result.fault, "%s, SAPI %d: %s", side_name(role), link ? 3 : 0, what);
}

/* libosmogsm takes a retransmitted SABM for a new one: it then discards what it had sent, and earlier expectations no longer apply. */
static bool began_anew(int link)
{
	for (int r = 0; r < 2; r++)
		if (!is_um(r) && links[link].opened[r] > 1)
			return true;
	return false;
}

/* A closed link of um opens again on SAPI 3, if the other side's SABM comes after its release. */
static void opened(int role, int link, const uint8_t *octets, int count)
{
	struct link_state *k = &links[link];
	const um_message *info = &plan->links[link].info;
	if (is_um(role) && (k->opened[role] > k->closed[role] || (k->opened[role] && link == LINK0)))
		say_fault("opened twice", role, link);
	k->again = k->again || (is_um(role) && k->opened[role] && role == plan->closer);
	if (link == LINK0 && role == NETWORK && !k->opened[role] && (count != info->count || memcmp(octets, info->octets, (size_t)count)))
		say_fault("opened by other information", role, link);
	if (!k->opened[role]++)
		k->next_at[role] = slot;
}

static void got(int role, int link, const uint8_t *octets, int count)
{
	struct link_state *k = &links[link];
	const um_message *m = &plan->links[link].messages[!role][k->got[role] % MESSAGES];
	if (k->got[role] >= k->given[!role] || count != m->count || memcmp(octets, m->octets, (size_t)count)) {
		wrong = true;
		if (!began_anew(link))
			say_fault("another message than was sent", role, link);
	}
	k->got[role]++;
}

static void report(struct side *s, int link, enum event event, const uint8_t *octets, int number)
{
	static const char *const words[] = { "opened", "got", "unit", "acked", "oversize", "closed", "error" };
	int role = (int)(s - sides);
	struct link_state *k = &links[link];
	if (trace)
		printf("%5ld  %s SAPI %d: %s %d\n", slot, side_name(role), link ? 3 : 0, words[event], number);
	switch (event) {
	case OPENED: opened(role, link, octets, number); break;
	case GOT: got(role, link, octets, number); break;
	case UNIT:
		if (is_um(role)) /* libosmogsm's mobile delivers fill frames of SACCH as units */
			say_fault("a unit that nobody sent", role, link);
		break;
	case ACKED:
		if (number > k->got[!role] && !began_anew(link))
			say_fault("acknowledged before the other side has it", role, link);
		break;
	case OVERSIZE: say_fault("oversize", role, link); break;
	case CLOSED:
		if (!k->closed[role]++)
			k->why[role] = number;
		break;
	case ERROR:
		k->errors[role] |= 1u << number;
		if (is_um(role))
			say_fault("a frame of the other side was refused", role, link);
	}
}

static void layer_3(int link)
{
	struct link_state *k = &links[link];
	const struct planned_link *p = &plan->links[link];
	for (int r = 0; r < 2; r++) {
		bool may = link == LINK0 || !plan->links[LINK0].wanted || links[LINK0].opened[r];
		if ((p->opener == r || p->opener == EITHER) && !k->asked_open[r] && may) {
			k->asked_open[r] = true;
			if (!k->opened[r])
				sides[r].player->open(&sides[r], link, &p->info);
		}
		int n = k->given[r];
		if (!k->opened[r] || k->closed[r] || k->asked_close || n == p->count[r] || slot < k->next_at[r] + p->pause[r][n])
			continue;
		k->given[r]++; /* before the call, so that nothing comes in earlier than it was given */
		k->next_at[r] = slot;
		if (!sides[r].player->send(&sides[r], link, &p->messages[r][n]))
			k->given[r]--;
	}
}

static bool is_whole(int link)
{
	const struct link_state *k = &links[link];
	const struct planned_link *p = &plan->links[link];
	return k->opened[0] && k->opened[1] && k->got[0] == p->count[1] && k->got[1] == p->count[0];
}

/* SAPI 3 is closed before SAPI 0. */
static void close_in_time(int link)
{
	struct link_state *k = &links[link];
	int closer = plan->closer;
	bool early = plan->early && slot > plan->early_at, last = link == LINK3 || !plan->links[LINK3].wanted || links[LINK3].closed[closer];
	k->settled += is_whole(link);
	bool open = k->opened[closer] && !k->closed[closer] && !k->asked_close && (early || k->settled > SETTLED);
	if (!last || !(open || k->again))
		return;
	k->asked_close = true;
	k->again = false;
	sides[closer].player->close(&sides[closer], link);
}

static void code(const struct side *s, const uint8_t block[23], uint8_t bursts[4][148])
{
	ubit_t coded[464];
	if (!um_send_block(block, 5, bursts))
		abort();
	if (s->player != &osmo_player)
		return;
	gsm0503_xcch_encode(coded, block);
	for (int i = 0; i < 4; i++) {
		memcpy(bursts[i] + 3, coded + 116 * i, 58);
		memcpy(bursts[i] + 87, coded + 116 * i + 58, 58);
	}
}

static bool decode(const struct side *s, int8_t soft[4][148], uint8_t block[23])
{
	um_block_report heard;
	sbit_t coded[464];
	int errors, bits;
	if (s->player != &osmo_player) {
		bool known = um_receive_block((const int8_t (*)[148])soft, &heard);
		memcpy(block, heard.octets, 23);
		return known && heard.accepted;
	}
	for (int i = 0; i < 4; i++) {
		memcpy(coded + 116 * i, soft[i] + 3, 58);
		memcpy(coded + 116 * i + 58, soft[i] + 87, 58);
	}
	return gsm0503_xcch_decode(block, coded, &errors, &bits) == 0;
}

/* A block of this role's side is on the air: whether it arrives, and as what. */
static bool arrives(int role, const uint8_t block[23], uint8_t heard[23])
{
	uint8_t bursts[4][148];
	int8_t soft[4][148];
	if (!plan->sigma) {
		memcpy(heard, block, 23);
		return (int)(drawn(plan->seed, 1 + (uint64_t)role, (uint64_t)slot) % 1000) >= plan->loss;
	}
	code(&sides[role], block, bursts);
	for (int i = 0; i < 592; i++)
		soft[i / 148][i % 148] = noisy(bursts[i / 148][i % 148], 60, plan->sigma, plan->seed, 3 + (uint64_t)role, (uint64_t)(592 * slot + i));
	bool held = decode(&sides[!role], soft, heard);
	if (held && memcmp(heard, block, 23))
		say_fault("a block was accepted with other octets", !role, 0);
	return held;
}

static void tell_frame(int role, const uint8_t block[23], bool there)
{
	static const char *const kinds[] = { "I", "RR", "RNR", "REJ", "SABM", "DM", "UI", "DISC", "UA" };
	um_frame f;
	if (um_read_frame(block, plan->on, &f) == UM_FRAME)
		printf("%5ld  %s SAPI %d %s C/R %d P/F %d N(S) %d N(R) %d M %d, %d octets%s\n", slot, role == MOBILE ? "mobile >" : "network <", f.sapi,
			kinds[f.kind], f.cr, f.pf, f.ns, f.nr, f.more, f.count, there ? "" : ": lost");
}

/* One block each way. Answers whether one was an end's. */
static bool air(void)
{
	uint8_t blocks[2][23], heard[23];
	bool real[2];
	for (int r = 0; r < 2; r++)
		real[r] = sides[r].player->next(&sides[r], blocks[r]);
	for (int r = 0; r < 2; r++) {
		if (!real[r] && !plan->fills)
			continue;
		bool there = arrives(r, blocks[r], heard);
		if (real[r]) {
			uint8_t control = blocks[r][plan->on == UM_SACCH ? 3 : 1];
			result.blocks++;
			result.lost += !there;
			result.i_frames += !(control & 1);
			result.rejects += (control & 0x0f) == 0x09;
			if (trace)
				tell_frame(r, blocks[r], there);
		}
		if (there)
			sides[!r].player->take(&sides[!r], heard);
	}
	return real[0] || real[1];
}

static bool is_over(int role, const struct link_state *k)
{
	return k->closed[role] && (!is_um(role) || k->closed[role] >= k->opened[role]);
}

static bool gave_up(int role, const struct link_state *k)
{
	return (k->closed[role] && k->why[role] != BY_RELEASE) || k->errors[role] & 1u << 1 || (k->closed[role] && !k->asked_close);
}

/* Whether a side reports a release that the other side, which has the link open, knows nothing of. */
static bool released_alone(int role, const struct link_state *k)
{
	return k->closed[role] && k->why[role] == BY_RELEASE && k->opened[!role] && !k->closed[!role];
}

/* Why a session did not end well, by what a side reported; 1 is the error of libosmogsm for a timer that expired N200 times. */
static void find_cause(void)
{
	for (int l = 0; l < LINK_COUNT; l++)
		for (int r = 0; r < 2 && plan->links[l].wanted; r++) {
			const struct link_state *k = &links[l];
			const char *name = is_um(r) ? "um" : "libosmogsm", *what = NULL;
			if (!is_um(r) && k->opened[r] > 1)
				what = k->asked_close ? "takes a SABM for a new one after its DISC" : "takes a repeated SABM for a new one and drops what it has sent";
			else if (k->why[r] == BY_REFUSAL && k->closed[r])
				what = "is refused by DM";
			else if (!is_um(r) && k->errors[r] & 1u << 14)
				what = "answers a repeated SABM by DM";
			else if (gave_up(r, k))
				what = !k->opened[r] ? "gives up its SABM" : k->asked_close && r == plan->closer ? "gives up its DISC" : "gives up its I frame";
			else if (!is_um(r) && k->errors[r] & 1u << 7)
				what = "reports a sequence error and drops a message";
			else if (!is_um(r) && released_alone(r, k))
				what = "takes the UA to its repeated SABM for the answer to its DISC";
			if (what) {
				snprintf(result.cause, sizeof result.cause, "%s %s", name, what);
				return;
			}
		}
	snprintf(result.cause, sizeof result.cause, "other");
}

static void judge(bool over, bool gone)
{
	bool whole = true, open = true, both_um = sides[0].player == &um_player && sides[1].player == &um_player;
	for (int l = 0; l < LINK_COUNT; l++)
		if (plan->links[l].wanted) {
			whole = whole && is_whole(l);
			open = open && links[l].opened[0] && links[l].opened[1];
		}
	result.outcome = wrong ? WRONG : over && !gone ? (whole ? WHOLE : EARLY) : gone ? (open ? GIVEN_UP : NOT_OPENED) : STANDS_STILL;
	if (result.outcome <= EARLY)
		return;
	find_cause();
	if (both_um && result.outcome >= STANDS_STILL)
		say_fault("two ends of um stand still", MOBILE, 0);
	if (both_um && !plan->loss && !plan->sigma)
		say_fault("gives up without a loss", MOBILE, 0);
}

static void begin(const struct player *const players[2])
{
	memset(links, 0, sizeof links);
	memset(&result, 0, sizeof result);
	wrong = false;
	for (int r = 0; r < 2; r++) {
		struct side *s = &sides[r];
		memset(s, 0, sizeof *s);
		s->player = players[r];
		s->role = r == MOBILE ? UM_MOBILE : UM_NETWORK;
		s->on = plan->on;
		s->alone = !plan->links[LINK0].wanted;
		s->polled = plan->polled;
		s->t200 = plan->t200[r];
		s->report = report;
		s->player->begin(s);
	}
}

struct result run_session(const struct plan *planned, const struct player *const players[2], bool tell)
{
	plan = planned;
	trace = tell;
	begin(players);
	bool over = false, gone = false;
	long last = 0, left = AFTER_END;
	for (slot = 0; slot < SLOTS && slot - last < QUIET && !over && left > 0 && !wrong; slot++) {
		now += plan->on == UM_SACCH ? 102 : 51;
		for (int r = 0; r < 2; r++)
			sides[r].player->timers(&sides[r]);
		for (int l = 0; l < LINK_COUNT; l++)
			if (plan->links[l].wanted) {
				layer_3(l);
				close_in_time(l);
			}
		if (air())
			last = slot;
		over = true;
		for (int l = 0; l < LINK_COUNT; l++)
			if (plan->links[l].wanted) {
				over = over && is_over(0, &links[l]) && is_over(1, &links[l]);
				gone = gone || gave_up(0, &links[l]) || gave_up(1, &links[l]);
			}
		left -= gone;
	}
	judge(over, gone);
	for (int r = 0; r < 2; r++)
		sides[r].player->end(&sides[r]);
	return result;
}
