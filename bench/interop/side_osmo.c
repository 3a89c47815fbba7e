/* The LAPDm entities of libosmogsm as a side. Its timers run on libosmocore's own clock, which is set to `now`. */
#include "side.h"
#include <osmocom/core/application.h>
#include <osmocom/core/logging.h>
#include <osmocom/core/msgb.h>
#include <osmocom/core/timer.h>
#include <osmocom/gsm/lapdm.h>
#include <osmocom/gsm/prim.h>
#include <osmocom/gsm/rsl.h>
#include <osmocom/gsm/protocol/gsm_08_58.h>
#include <stdio.h>
#include <stdlib.h>
#include <string.h>

enum { SDCCH8 = 0x41, ON_SACCH = 0x40 }; /* a channel number of 3GPP TS 48.058, 9.3.1; the bit of SACCH in a link identifier, 9.3.2 */

void quiet_osmo(void)
{
	static struct log_info info;
	osmo_init_logging2(NULL, &info);
	log_set_log_level(osmo_stderr_target, LOGL_FATAL);
}

static void set_clock(void)
{
	long long microseconds = 1000000 + (long long)now * 60000 / 13;
	osmo_gettimeofday_override = true;
	osmo_gettimeofday_override_time.tv_sec = microseconds / 1000000;
	osmo_gettimeofday_override_time.tv_usec = microseconds % 1000000;
}

static struct lapdm_entity *entity(struct side *s)
{
	struct lapdm_channel *c = s->own;
	return s->on == UM_SACCH ? &c->lapdm_acch : &c->lapdm_dcch;
}

static uint8_t link_id(struct side *s, int link)
{
	return (link == LINK3 ? 3 : 0) | (s->on == UM_SACCH ? ON_SACCH : 0);
}

static void block_of(struct msgb *m, uint8_t block[23])
{
	const uint8_t *frame = m->l2h ? m->l2h : m->data;
	size_t count = m->tail - frame;
	memset(block, 0x2b, 23);
	memcpy(block, frame, count > 23 ? 23 : count);
	msgb_free(m);
}

static int to_air(struct osmo_prim_hdr *prim, void *context)
{
	uint8_t block[23];
	if (prim->primitive == PRIM_PH_DATA && prim->msg) {
		block_of(prim->msg, block);
		line_add(context, block);
	}
	return 0;
}

/* The elements of a message of 3GPP TS 48.058 that lapdm.c makes: information with a length of two octets, a cause with one, and such
 * of one octet. */
struct elements { const uint8_t *info; int count, cause; };
static struct elements elements_of(struct msgb *m)
{
	struct elements e = { NULL, 0, 0 };
	const uint8_t *at = ((struct abis_rsl_rll_hdr *)msgb_l2(m))->data;
	while (at < m->tail)
		if (*at == RSL_IE_L3_INFO) {
			e.count = at[1] << 8 | at[2];
			e.info = at + 3;
			at += 3 + e.count;
		} else if (*at == RSL_IE_RLM_CAUSE) {
			e.cause = at[2];
			at += 2 + at[1];
		} else
			at += 2;
	return e;
}

static int to_layer_3(struct msgb *m, struct lapdm_entity *le, void *context)
{
	struct side *s = context;
	struct abis_rsl_rll_hdr *h = msgb_l2(m);
	struct elements e = elements_of(m);
	int link = (h->link_id & 7) == 3 ? LINK3 : LINK0;
	(void)le;
	switch (h->c.msg_type) {
	case RSL_MT_EST_IND:
	case RSL_MT_EST_CONF: s->report(s, link, OPENED, e.info, e.count); break;
	case RSL_MT_DATA_IND: s->report(s, link, GOT, e.info, e.count); break;
	case RSL_MT_UNIT_DATA_IND: s->report(s, link, UNIT, e.info, e.count); break;
	case RSL_MT_REL_IND:
	case RSL_MT_REL_CONF: s->report(s, link, CLOSED, NULL, BY_RELEASE); break;
	case RSL_MT_ERROR_IND: s->report(s, link, ERROR, NULL, e.cause); break;
	default: fprintf(stderr, "a message %d of 3GPP TS 48.058\n", h->c.msg_type);
	}
	msgb_free(m);
	return 0;
}

static void begin(struct side *s)
{
	struct lapdm_channel *c = calloc(1, sizeof *c);
	int milliseconds = (int)(s->t200 * 60 / 13);
	const int t200[2] = { milliseconds, milliseconds };
	s->own = c;
	set_clock();
	lapdm_channel_init3(c, s->role == UM_MOBILE ? LAPDM_MODE_MS : LAPDM_MODE_BTS, t200, t200, GSM_LCHAN_SDCCH, NULL);
	lapdm_channel_set_flags(c, s->polled ? LAPDM_ENT_F_POLLING_ONLY : 0);
	lapdm_channel_set_l1(c, to_air, s);
	lapdm_channel_set_l3(c, to_layer_3, s);
}

static bool asked(struct side *s, int link, uint8_t kind, const um_message *m)
{
	struct msgb *request = msgb_alloc_headroom(512, 128, "request");
	request->l3h = msgb_put(request, m->count);
	memcpy(request->l3h, m->octets, m->count);
	if (m->count && kind != RSL_MT_REL_REQ)
		rsl_rll_push_l3(request, kind, SDCCH8, link_id(s, link), 1);
	else
		rsl_rll_push_hdr(request, kind, SDCCH8, link_id(s, link), 0);
	return lapdm_rslms_recvmsg(request, s->own) == 0;
}

static bool open_link(struct side *s, int link, const um_message *info)
{
	return asked(s, link, RSL_MT_EST_REQ, info);
}

static bool send(struct side *s, int link, const um_message *m)
{
	return asked(s, link, RSL_MT_DATA_REQ, m);
}

/* Its answer is -EBUSY also where the unit was taken. */
static bool unit(struct side *s, int link, const um_message *m)
{
	asked(s, link, RSL_MT_UNIT_DATA_REQ, m);
	return true;
}

static bool close_link(struct side *s, int link)
{
	static const um_message normal = { 2, { RSL_IE_RELEASE_MODE, 0 } };
	return asked(s, link, RSL_MT_REL_REQ, &normal);
}

static bool resume(struct side *s, const um_message *m)
{
	return asked(s, LINK0, RSL_MT_RECON_REQ, m);
}

static void take(struct side *s, const uint8_t block[23])
{
	struct osmo_phsap_prim prim;
	struct msgb *m = msgb_alloc_headroom(128, 64, "block");
	m->l2h = msgb_put(m, 23);
	memcpy(m->l2h, block, 23);
	memset(&prim, 0, sizeof prim);
	osmo_prim_init(&prim.oph, SAP_GSM_PH, PRIM_PH_DATA, PRIM_OP_INDICATION, m);
	prim.u.data.chan_nr = SDCCH8;
	prim.u.data.link_id = s->on == UM_SACCH ? ON_SACCH : 0;
	lapdm_phsap_up(&prim.oph, entity(s));
}

/* The fill frame that osmo-bts and a mobile send: a UI without information. */
static void fill(struct side *s, uint8_t block[23])
{
	static const uint8_t layer_1[2] = { 5, 1 };
	const uint8_t frame[3] = { s->role == UM_NETWORK ? 3 : 1, 3, 1 };
	size_t at = s->on == UM_SACCH ? 2 : 0;
	memset(block, 0x2b, 23);
	memcpy(block, layer_1, at);
	memcpy(block + at, frame, 3);
}

static bool next(struct side *s, uint8_t block[23])
{
	struct osmo_phsap_prim prim;
	if (line_next(s, block))
		return true;
	if (s->polled && lapdm_phsap_dequeue_prim(entity(s), &prim) >= 0) {
		block_of(prim.oph.msg, block);
		return true;
	}
	fill(s, block);
	return false;
}

static void timers(struct side *s)
{
	(void)s;
	set_clock();
	osmo_timers_update();
}

static void end(struct side *s)
{
	lapdm_channel_exit(s->own);
	free(s->own);
}

const struct player osmo_player = { "libosmogsm", begin, open_link, send, unit, close_link, resume, take, next, timers, end };
