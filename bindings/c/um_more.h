/* um_more.h - what programs write over um.h: the names of its numbers, whether bits are hard, whether T200 runs, and saved states. All
 * is static inline and C of our own: tested, not proved. */
#ifndef UM_MORE_H
#define UM_MORE_H
#include "um.h"
#include <stddef.h>
#include <string.h>

#ifdef __cplusplus
#ifdef __GNUC__
#pragma GCC diagnostic push
#pragma GCC diagnostic ignored "-Wold-style-cast" /* this is C */
#endif
extern "C" {
#endif

/* Names. They are the words of the program's script lines where it has one. A number that is none of its enum is "unknown". */

#define UM_NAME(names, number) ((number) < sizeof(names) / sizeof *(names) ? (names)[number] : "unknown")

/* A um_kind, such as um_frame's. */
static inline const char *um_kind_name(unsigned kind)
{
	static const char *const names[] = { "i", "rr", "rnr", "rej", "sabm", "dm", "ui", "disc", "ua" };
	return UM_NAME(names, kind);
}

/* A um_channel or um_common_channel. */
static inline const char *um_channel_name(unsigned channel)
{
	static const char *const names[] = { "sdcch", "sacch", "bcch", "ccch", "fcch", "sch", "rach", "facch" };
	return UM_NAME(names, channel);
}

/* A um_role. */
static inline const char *um_role_name(unsigned role)
{
	static const char *const names[] = { "mobile", "network" };
	return UM_NAME(names, role);
}

/* A um_establishment. */
static inline const char *um_establishment_name(unsigned establishment)
{
	static const char *const names[] = { "contention", "normal" };
	return UM_NAME(names, establishment);
}

/* A um_state. */
static inline const char *um_state_name(unsigned state)
{
	static const char *const names[] = { "idle", "opening", "open", "closing", "closed" };
	return UM_NAME(names, state);
}

/* A um_notice_kind. */
static inline const char *um_notice_name(unsigned kind)
{
	static const char *const names[] = { "none", "opened", "got", "unit", "acked", "oversize", "closed" };
	return UM_NAME(names, kind);
}

/* A um_reason: why a link was closed. */
static inline const char *um_reason_name(unsigned reason)
{
	static const char *const names[] = { "contention", "failed", "refused", "released" };
	return UM_NAME(names, reason);
}

/* A um_fault. */
static inline const char *um_fault_name(unsigned fault)
{
	static const char *const names[] = { "none", "nr", "ua", "dm" };
	return UM_NAME(names, fault);
}

/* A um_answer: why a call of an endpoint was refused. */
static inline const char *um_answer_name(unsigned answer)
{
	static const char *const names[] = {
		"ok", "notidle", "notopen", "notrunning", "empty", "toolong", "full", "noend", "nocall", "noframe", "free"
	};
	return UM_NAME(names, answer);
}

/* A um_reading: why octets are not a frame. */
static inline const char *um_reading_name(unsigned reading)
{
	static const char *const names[] = { "frame", "lpd", "ea", "control", "el", "length", "empty", "more", "nochannel" };
	return UM_NAME(names, reading);
}

/* A um_repaired. */
static inline const char *um_repaired_name(unsigned repaired)
{
	static const char *const names[] = { "holds", "repaired", "norepair", "nobits" };
	return UM_NAME(names, repaired);
}

/* A um_combination. */
static inline const char *um_combination_name(unsigned combination)
{
	static const char *const names[] = { "bcch_ccch", "bcch_ccch_sdcch4", "sdcch8", "tch_f", "tch_h" };
	return UM_NAME(names, combination);
}

/* A um_direction. */
static inline const char *um_direction_name(unsigned direction)
{
	static const char *const names[] = { "downlink", "uplink" };
	return UM_NAME(names, direction);
}

/* A um_placing. */
static inline const char *um_placing_name(unsigned placing)
{
	static const char *const names[] = { "placed", "unplaced", "noplace" };
	return UM_NAME(names, placing);
}

/* A um_taken: why a receiver of a time slot refused a frame. */
static inline const char *um_taken_name(unsigned taken)
{
	static const char *const names[] = { "taken", "block", "nosoft", "noslot", "noframe", "doubled", "late" };
	return UM_NAME(names, taken);
}

/* A um_traffic_channel. */
static inline const char *um_traffic_channel_name(unsigned channel)
{
	static const char *const names[] = { "full_rate", "half_rate_0", "half_rate_1" };
	return UM_NAME(names, channel);
}

/* A um_traffic_kind. */
static inline const char *um_traffic_kind_name(unsigned kind)
{
	static const char *const names[] = { "sacch", "facch", "stolen", "speech" };
	return UM_NAME(names, kind);
}

/* A um_heard: why a receiver of a traffic channel refused a frame. */
static inline const char *um_heard_name(unsigned heard)
{
	static const char *const names[] = { "taken", "block", "earlier", "nosoft", "notraffic", "noframe", "doubled", "late" };
	return UM_NAME(names, heard);
}

/* A um_sending: what a sender of a traffic channel answers. */
static inline const char *um_sending_name(unsigned sending)
{
	static const char *const names[] = { "burst", "nothing", "unplaced", "nosender", "noframe", "late" };
	return UM_NAME(names, sending);
}

#undef UM_NAME

/* Whether values that should be soft bits are hard bits: all are 0 or 1, and one is 1. Test all values of a call at once, such as the 592
 * of a block. The calls of um.h decode them: a hard 1 is then a weak 0. */
static inline bool um_are_hard_bits(const int8_t *values, size_t count)
{
	bool is_one = false;
	for (size_t i = 0; i < count; i++) {
		if (values[i] != 0 && values[i] != 1)
			return false;
		is_one = is_one || values[i] == 1;
	}
	return is_one;
}

/* Whether a frame of this endpoint awaits an answer, so that T200 runs. */
static inline bool um_end_timer_runs(const um_end *end)
{
	um_end copy = *end;
	um_effects effects;
	return um_end_timer(&copy, &effects) == UM_END_DONE;
}

/* Whether a frame of the link of this SAPI awaits an answer. */
static inline bool um_side_timer_runs(const um_side *side, uint8_t sapi)
{
	um_side copy = *side;
	um_effects effects;
	return um_side_timer(&copy, sapi, &effects) == UM_END_DONE;
}

/* The um_establishment of a data link: how its link of SAPI 0 is opened. */
static inline uint8_t um_datalink_establishment(const um_datalink *link)
{
	return link->link0.end.sapi == 3 ? UM_NORMAL : UM_BY_CONTENTION;
}

/* Whether nothing of a data link waits for a slot and no frame awaits an answer, so that each next slot is free until a call or a block
 * changes it. False of a struct that is no data link. */
static inline bool um_datalink_idle(const um_datalink *link)
{
	return um_datalink_valid(link) && !link->link0.owed && !link->link3.owed && !um_end_timer_runs(&link->link0.end) &&
	       !um_end_timer_runs(&link->link3.end);
}

/* Saved states: the form that all languages read (docs/LIBRARY.md, Save a state). It is the head "umE1", "umS1", "umT2", "umC1",
 * "umO1" or "umL2", then the fields in the order of um.h without padding, each number least significant octet first. */

enum { UM_HEAD_OCTETS = 4, UM_FIELD_OCTETS = 2581 };
#define UM_END_OCTETS 2585
#define UM_SIDE_OCTETS 5166
#define UM_SLOT_OCTETS 611
#define UM_TRAFFIC_OCTETS 1809
#define UM_TRAFFIC_SENDER_OCTETS 1790
#define UM_DATALINK_OCTETS 5224

static inline void um_end_save_fields(const um_end *end, uint8_t *octets)
{
	for (int i = 0; i < 8; i++)
		octets[i] = (uint8_t)(end->done >> 8 * i);
	memcpy(octets + 8, (const uint8_t *)end + offsetof(um_end, role), UM_FIELD_OCTETS - 8);
}

/* False: no endpoint has this state. */
static inline bool um_end_restore_fields(um_end *end, const uint8_t *octets)
{
	um_effects effects;
	memset(end, 0, sizeof *end);
	for (int i = 0; i < 8; i++)
		end->done |= (uint64_t)octets[i] << 8 * i;
	memcpy((uint8_t *)end + offsetof(um_end, role), octets + 8, UM_FIELD_OCTETS - 8);
	return um_end_idle(end, &effects) == UM_END_DONE;
}

/* Saves an endpoint. */
static inline void um_end_to_bytes(const um_end *end, uint8_t octets[UM_END_OCTETS])
{
	memcpy(octets, "umE1", UM_HEAD_OCTETS);
	um_end_save_fields(end, octets + UM_HEAD_OCTETS);
}

/* Restores an endpoint. False: the octets are not a saved endpoint of this version, or no endpoint has this state; nothing is written. */
static inline bool um_end_from_bytes(um_end *end, const uint8_t octets[UM_END_OCTETS])
{
	um_end restored;
	if (memcmp(octets, "umE1", UM_HEAD_OCTETS) != 0 || !um_end_restore_fields(&restored, octets + UM_HEAD_OCTETS))
		return false;
	*end = restored;
	return true;
}

/* Saves a side. */
static inline void um_side_to_bytes(const um_side *side, uint8_t octets[UM_SIDE_OCTETS])
{
	memcpy(octets, "umS1", UM_HEAD_OCTETS);
	um_end_save_fields(&side->link0, octets + UM_HEAD_OCTETS);
	um_end_save_fields(&side->link3, octets + UM_HEAD_OCTETS + UM_FIELD_OCTETS);
}

/* Restores a side. False: the octets are not a saved side of this version, or no side has this state; nothing is written. */
static inline bool um_side_from_bytes(um_side *side, const uint8_t octets[UM_SIDE_OCTETS])
{
	um_side restored;
	um_effects effects;
	if (memcmp(octets, "umS1", UM_HEAD_OCTETS) != 0 || !um_end_restore_fields(&restored.link0, octets + UM_HEAD_OCTETS) ||
	    !um_end_restore_fields(&restored.link3, octets + UM_HEAD_OCTETS + UM_FIELD_OCTETS) ||
	    um_side_idle(&restored, &effects) != UM_END_DONE)
		return false;
	*side = restored;
	return true;
}

static inline void um_save_frame(uint32_t frame, uint8_t octets[4])
{
	for (int i = 0; i < 4; i++)
		octets[i] = (uint8_t)(frame >> 8 * i);
}

static inline uint32_t um_restore_frame(const uint8_t octets[4])
{
	return octets[0] | (uint32_t)octets[1] << 8 | (uint32_t)octets[2] << 16 | (uint32_t)octets[3] << 24;
}

enum { UM_SLOT_FIELDS = UM_SLOT_OCTETS - UM_HEAD_OCTETS };

static inline void um_slot_save_fields(const um_slot *slot, uint8_t octets[UM_SLOT_FIELDS])
{
	um_save_frame(slot->last, octets);
	um_save_frame(slot->first, octets + 4);
	memcpy(octets + 8, (const uint8_t *)slot + offsetof(um_slot, combination), UM_SLOT_FIELDS - 8);
}

static inline void um_slot_restore_fields(um_slot *slot, const uint8_t octets[UM_SLOT_FIELDS])
{
	memset(slot, 0, sizeof *slot);
	slot->last = um_restore_frame(octets);
	slot->first = um_restore_frame(octets + 4);
	memcpy((uint8_t *)slot + offsetof(um_slot, combination), octets + 8, UM_SLOT_FIELDS - 8);
}

/* Saves a receiver of a time slot. */
static inline void um_slot_to_bytes(const um_slot *slot, uint8_t octets[UM_SLOT_OCTETS])
{
	memcpy(octets, "umT2", UM_HEAD_OCTETS);
	um_slot_save_fields(slot, octets + UM_HEAD_OCTETS);
}

/* Restores a receiver of a time slot. False: the octets are not a saved one of this version, or none has this state; nothing is written. */
static inline bool um_slot_from_bytes(um_slot *slot, const uint8_t octets[UM_SLOT_OCTETS])
{
	um_slot restored, copy;
	um_slot_block block;
	if (memcmp(octets, "umT2", UM_HEAD_OCTETS) != 0)
		return false;
	um_slot_restore_fields(&restored, octets + UM_HEAD_OCTETS);
	copy = restored; /* a call tests the state */
	if (um_slot_miss(&copy, (restored.last + 1) % UM_FRAMES, &block) == UM_SLOT_NONE)
		return false;
	*slot = restored;
	return true;
}

/* Saves a receiver of a traffic channel. */
static inline void um_traffic_to_bytes(const um_traffic *traffic, uint8_t octets[UM_TRAFFIC_OCTETS])
{
	uint8_t *after = octets + UM_SLOT_OCTETS;
	memcpy(octets, "umC1", UM_HEAD_OCTETS);
	um_slot_save_fields(&traffic->sacch, octets + UM_HEAD_OCTETS);
	um_save_frame(traffic->first, after);
	memcpy(after + 4, (const uint8_t *)traffic + offsetof(um_traffic, channel), UM_TRAFFIC_OCTETS - UM_SLOT_OCTETS - 4);
}

/* Restores a receiver of a traffic channel. False: the octets are not a saved one of this version, or none has this state; nothing is
 * written. */
static inline bool um_traffic_from_bytes(um_traffic *traffic, const uint8_t octets[UM_TRAFFIC_OCTETS])
{
	const uint8_t *after = octets + UM_SLOT_OCTETS;
	um_traffic restored, copy;
	um_traffic_block block;
	if (memcmp(octets, "umC1", UM_HEAD_OCTETS) != 0)
		return false;
	memset(&restored, 0, sizeof restored);
	um_slot_restore_fields(&restored.sacch, octets + UM_HEAD_OCTETS);
	restored.first = um_restore_frame(after);
	memcpy((uint8_t *)&restored + offsetof(um_traffic, channel), after + 4, UM_TRAFFIC_OCTETS - UM_SLOT_OCTETS - 4);
	copy = restored; /* a call tests the state */
	if (um_traffic_end(&copy, &block) == UM_TRAFFIC_NONE)
		return false;
	*traffic = restored;
	return true;
}

/* Saves a sender of a traffic channel. */
static inline void um_traffic_sender_to_bytes(const um_traffic_sender *sender, uint8_t octets[UM_TRAFFIC_SENDER_OCTETS])
{
	memcpy(octets, "umO1", UM_HEAD_OCTETS);
	um_save_frame(sender->first, octets + 4);
	memcpy(octets + 8, (const uint8_t *)sender + offsetof(um_traffic_sender, channel), UM_TRAFFIC_SENDER_OCTETS - 8);
}

/* Restores a sender of a traffic channel. False: the octets are not a saved one of this version, or none has this state; nothing is
 * written. */
static inline bool um_traffic_sender_from_bytes(um_traffic_sender *sender, const uint8_t octets[UM_TRAFFIC_SENDER_OCTETS])
{
	um_traffic_sender restored, copy;
	uint8_t burst[148];
	if (memcmp(octets, "umO1", UM_HEAD_OCTETS) != 0)
		return false;
	memset(&restored, 0, sizeof restored);
	restored.first = um_restore_frame(octets + 4);
	memcpy((uint8_t *)&restored + offsetof(um_traffic_sender, channel), octets + 8, UM_TRAFFIC_SENDER_OCTETS - 8);
	copy = restored; /* a call tests the state */
	if (um_traffic_sender_burst(&copy, 0, burst) == UM_SENDING_NONE)
		return false;
	*sender = restored;
	return true;
}

enum { UM_AFTER_END_OCTETS = 28, UM_TIMED_OCTETS = UM_FIELD_OCTETS + UM_AFTER_END_OCTETS };

static inline void um_timed_end_save_fields(const um_timed_end *link, uint8_t *octets)
{
	um_end_save_fields(&link->end, octets);
	memcpy(octets + UM_FIELD_OCTETS, (const uint8_t *)link + offsetof(um_timed_end, t200), UM_AFTER_END_OCTETS);
}

static inline bool um_timed_end_restore_fields(um_timed_end *link, const uint8_t *octets)
{
	memset(link, 0, sizeof *link);
	memcpy((uint8_t *)link + offsetof(um_timed_end, t200), octets + UM_FIELD_OCTETS, UM_AFTER_END_OCTETS);
	return um_end_restore_fields(&link->end, octets);
}

/* Saves a data link. */
static inline void um_datalink_to_bytes(const um_datalink *link, uint8_t octets[UM_DATALINK_OCTETS])
{
	memcpy(octets, "umL2", UM_HEAD_OCTETS);
	um_timed_end_save_fields(&link->link0, octets + UM_HEAD_OCTETS);
	um_timed_end_save_fields(&link->link3, octets + UM_HEAD_OCTETS + UM_TIMED_OCTETS);
	octets[UM_DATALINK_OCTETS - 2] = link->heard0;
	octets[UM_DATALINK_OCTETS - 1] = link->main;
}

/* Restores a data link. False: the octets are not a saved one of this version (such as the form "umL1", which has no `heard`), or none has
 * this state; nothing is written. */
static inline bool um_datalink_from_bytes(um_datalink *link, const uint8_t octets[UM_DATALINK_OCTETS])
{
	um_datalink restored;
	memset(&restored, 0, sizeof restored);
	if (memcmp(octets, "umL2", UM_HEAD_OCTETS) != 0 || !um_timed_end_restore_fields(&restored.link0, octets + UM_HEAD_OCTETS) ||
	    !um_timed_end_restore_fields(&restored.link3, octets + UM_HEAD_OCTETS + UM_TIMED_OCTETS))
		return false;
	restored.heard0 = octets[UM_DATALINK_OCTETS - 2];
	restored.main = octets[UM_DATALINK_OCTETS - 1];
	if (!um_datalink_valid(&restored))
		return false;
	*link = restored;
	return true;
}

#ifdef __cplusplus
}
#ifdef __GNUC__
#pragma GCC diagnostic pop
#endif
#endif
#endif
