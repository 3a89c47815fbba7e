/* Tests the calls of um.h for traffic channels and for ciphering.
 *
 *   traffic TRAFFIC.OUT FACCH.OUT      the repository's vectors: osmo-bts's tables, and blocks of FACCH recorded of it */
#include "um.h"
#include "um_soft.h"
#include <stddef.h>
#include <stdio.h>
#include <stdlib.h>
#include <string.h>

static int failed;

static void check(bool holds, const char *what)
{
	if (!holds) {
		printf("traffic: %s\n", what);
		failed = 1;
	}
}

/* osmo-bts's tables: of each traffic channel the frames of a 26-multiframe, and of each direction the blocks of FACCH by their frames. */
static int frames_of[3][24], count_of[3], blocks_of[3][2][6][8], blocks_count[3][2];

static int bursts_of(int channel)
{
	return channel == UM_FULL_RATE ? 8 : 6;
}

/* Frame `i` of block `k` modulo 26, or -1 if there is no such block. */
static int frame_of(int channel, int direction, int k, int i)
{
	return k < blocks_count[channel][direction] ? blocks_of[channel][direction][k][i] : -1;
}

static int index_of(int channel, uint32_t frame)
{
	for (int i = 0; i < count_of[channel]; i++)
		if (frames_of[channel][i] == (int)(frame % 26))
			return i;
	return -1;
}

static bool is_traffic(int channel, uint32_t frame)
{
	return index_of(channel, frame) >= 0;
}

/* Notes the block whose burst number `at` is in a frame; the blocks are numbered by their first frames. */
static void note_block(int channel, int direction, int frame, int at)
{
	int n = count_of[channel], k = blocks_count[channel][direction]++, first = (index_of(channel, (uint32_t)frame) + n - at) % n;
	int (*blocks)[8] = blocks_of[channel][direction];

	check(index_of(channel, (uint32_t)frame) >= 0 && k < 6, "a block is in frames of its channel");
	for (; k > 0 && blocks[k - 1][0] > frames_of[channel][first]; k--)
		memcpy(blocks[k], blocks[k - 1], sizeof blocks[k]);
	for (int i = 0; i < bursts_of(channel); i++)
		blocks[k][i] = frames_of[channel][(first + i) % n];
}

/* Compares SACCH with a line of 104 words: in time slots 0 and 7 in all frames, else in the first and last cycles of the hyperframe. */
static void sacch(uint8_t direction, uint8_t timeslot, char (*words)[16])
{
	for (uint32_t frame = 0; frame < UM_FRAMES; frame++) {
		if (timeslot % 7 && frame == 520)
			frame = UM_FRAMES - 520;
		um_place place;
		uint8_t answer = um_place_frame(UM_TCH_H, direction, timeslot, frame, &place);
		const char *word = words[frame % 104];
		if (word[0] != 's')
			check(answer == UM_UNPLACED, "traffic and idle frames have no place");
		else
			check(answer == UM_PLACED && place.channel == UM_SACCH && place.subchannel == word[6] - '0' && place.burst == word[8] - '0'
				&& place.first == (frame + UM_FRAMES - 26u * place.burst) % UM_FRAMES, "the SACCH of TCH/H is where osmo-bts has it");
	}
}

static void tables(const char *name)
{
	FILE *in = fopen(name, "r");
	char kind[8], way[12], words[104][16], text[16];
	int timeslot, frame, lines = 0;

	check(in != NULL, "the tables open");
	for (; in && fscanf(in, "%7s %11s", kind, way) == 2; lines++) {
		if (!strcmp(kind, "facch_h")) {
			int direction = !strcmp(way, "ends") ? UM_UPLINK : UM_DOWNLINK;
			check(fscanf(in, "%11s", text) == 1, "a direction");
			for (int i = 0; i < 6 && fscanf(in, "%d", &frame) == 1; i++)
				note_block(is_traffic(UM_HALF_RATE_0, (uint32_t)frame) ? UM_HALF_RATE_0 : UM_HALF_RATE_1, direction, frame,
					direction == UM_UPLINK ? 5 : 0);
			continue;
		}
		check(fscanf(in, "%d", &timeslot) == 1, "a time slot");
		for (int i = 0; i < 104; i++)
			check(fscanf(in, "%15s", words[i]) == 1, "a word for each frame");
		if (!strcmp(kind, "tch_h"))
			sacch(way[0] == 'u', (uint8_t)timeslot, words);
		for (int i = 0; i < 26 && timeslot == 0 && way[0] == 'u'; i++)
			if (words[i][0] == 't') {
				int channel = !strcmp(kind, "tch_f") ? UM_FULL_RATE : words[i][4] == '0' ? UM_HALF_RATE_0 : UM_HALF_RATE_1;
				frames_of[channel][count_of[channel]++] = i;
			}
		/* at full rate each group of four bursts begins a block */
		for (int i = 0; i < 26 && timeslot == 0 && way[0] == 'u' && !strcmp(kind, "tch_f"); i++)
			if (!strcmp(words[i], "tch.0.0")) {
				note_block(UM_FULL_RATE, UM_UPLINK, i, 0);
				note_block(UM_FULL_RATE, UM_DOWNLINK, i, 0);
			}
	}
	check(lines == 34 && count_of[0] == 24 && count_of[1] == 12 && count_of[2] == 12, "there are tables of three traffic channels");
	for (int channel = 0; channel < 3; channel++)
		for (int direction = 0; direction < 2; direction++)
			check(blocks_count[channel][direction] == (channel ? 3 : 6), "and of their blocks");
	if (in)
		fclose(in);
}

/* Every frame of the hyperframe. */
static void places(int channel, int direction)
{
	um_traffic_place want[26], place;
	uint32_t ahead[26], first;

	for (int f = 0, count = 0; f < 26; count += is_traffic(channel, (uint32_t)f++)) {
		want[f] = (um_traffic_place){ (uint8_t)count, 255, 255 };
		ahead[f] = 26;
		for (int k = 0; k < blocks_count[channel][direction]; k++) {
			uint32_t gap = (uint32_t)(frame_of(channel, direction, k, 0) - f + 26) % 26;
			want[f].begins = gap == 0 ? (uint8_t)k : want[f].begins;
			want[f].ends = frame_of(channel, direction, k, bursts_of(channel) - 1) == f ? (uint8_t)k : want[f].ends;
			ahead[f] = gap < ahead[f] ? gap : ahead[f];
		}
	}
	for (uint32_t frame = 0; frame < UM_FRAMES; frame++) {
		uint8_t answer = um_place_traffic((uint8_t)channel, (uint8_t)direction, frame, &place);
		if (!is_traffic(channel, frame))
			check(answer == UM_UNPLACED, "a frame of SACCH, of the other half or idle has no traffic");
		else
			check(answer == UM_PLACED && !memcmp(&place, &want[frame % 26], sizeof place),
				"the traffic burst of a frame, and the blocks that begin and end with it, are osmo-bts's");
		check(um_next_facch((uint8_t)channel, (uint8_t)direction, frame, &first) && first == (frame + ahead[frame % 26]) % UM_FRAMES,
			"the next block of FACCH begins in the next frame that begins one");
	}
}

static int8_t noise(void)
{
	return (int8_t)(rand() % 255 - 127);
}

struct seen { uint32_t first; int came; int8_t bursts[8][148]; };

/* What a receiver should report of some frames: for each block of which a frame was taken or missed, in the order of the last bursts, the
 * bursts that came. `at` is the number of a frame without end, so that the hyperframe may begin anew. */
static int expected(int channel, int direction, const uint64_t *at, const bool *came, const int8_t (*burst)[148], int count,
	struct seen *blocks)
{
	int found = 0;
	for (uint64_t start = at[0] > 60 ? at[0] - 60 : 0; start <= at[count - 1]; start++)
		for (int k = 0; k < 6 && frame_of(channel, direction, k, 0) >= 0; k++) {
			if ((int)(start % 26) != frame_of(channel, direction, k, 0))
				continue;
			struct seen block = { (uint32_t)(start % UM_FRAMES), 0, { { 0 } } };
			bool any = false;
			uint64_t frame = start;
			for (int i = 0; i < bursts_of(channel); i++, frame++) {
				while ((int)(frame % 26) != frame_of(channel, direction, k, i))
					frame++;
				for (int j = 0; j < count; j++)
					if (at[j] == frame) {
						any = true;
						block.came += came[j];
						memcpy(block.bursts[i], burst[j], 148);
					}
			}
			if (any)
				blocks[found++] = block;
		}
	return found;
}

enum { EVENTS = 60 };

/* One receiver over random frames, against the blocks that the frames have. */
static void one_run(int channel, int direction, int most_gap)
{
	static struct seen want[EVENTS * 2];
	static int8_t bursts[EVENTS][148];
	uint64_t at[EVENTS];
	bool came[EVENTS];
	um_traffic traffic;
	um_traffic_block block;
	int seen = 0, wanted, n = bursts_of(channel);
	uint64_t start = rand() % 3 ? (uint64_t)rand() % UM_FRAMES : UM_FRAMES - 100 + (uint64_t)rand() % 100;

	check(um_traffic_new(&traffic, (uint8_t)channel, (uint8_t)direction, (uint8_t)(rand() % 8), 1, 0), "a receiver");
	for (int j = 0; j < EVENTS; j++) {
		at[j] = j ? at[j - 1] + 1 + (uint64_t)(rand() % most_gap) : start;
		while (!is_traffic(channel, (uint32_t)(at[j] % 26)))
			at[j]++;
		came[j] = rand() % 4 != 0;
		for (int i = 0; i < 148; i++)
			bursts[j][i] = came[j] ? noise() : 0;
	}
	wanted = expected(channel, direction, at, came, (const int8_t (*)[148])bursts, EVENTS, want);
	for (int j = 0; j <= EVENTS; j++) {
		for (;;) {
			uint32_t frame = (uint32_t)(at[j < EVENTS ? j : 0] % UM_FRAMES);
			enum um_heard heard = j == EVENTS ? um_traffic_end(&traffic, &block)
				: came[j] ? um_traffic_take(&traffic, frame, bursts[j], &block) : um_traffic_miss(&traffic, frame, &block);
			if (heard != UM_TRAFFIC_TAKEN) {
				check(heard == UM_TRAFFIC_BLOCK || heard == UM_TRAFFIC_EARLIER, "a frame is taken");
				check(seen < wanted && block.block.first == want[seen].first && block.block.heard == want[seen].came
					&& block.block.channel == UM_FACCH, "each block of which a frame came is reported once, in order");
				if (seen < wanted) {
					check(!memcmp(traffic.bursts, want[seen].bursts, (size_t)n * 148), "with the bursts that came");
					for (int b = 0; b < 4; b++)
						for (int p = 0; p < 148; p++)
							check(block.bursts[b][p] == want[seen].bursts[p % 2 || b + 4 >= n ? b : b + 4][p],
								"joined by the parity of the places");
				}
				seen++;
			}
			if (heard == UM_TRAFFIC_TAKEN || heard == UM_TRAFFIC_BLOCK)
				break;
		}
	}
	check(seen == wanted, "and no other block");
}

static void sends_recorded(int channel, const uint8_t octets[23], const uint32_t *frames, const uint8_t (*bits)[148]);

/* Recorded blocks of osmo-bts: received with the octets that libosmocoding found, and as stolen, but no FACCH, if their coded bits are
 * noise. */
static void recorded(const char *name)
{
	static const char *const names[] = { "full", "half0", "half1" };
	FILE *in = fopen(name, "r");
	char line[256], kind[8], text[64], bits[160];
	int timeslot, count = 0;
	unsigned long frame, first;

	check(in != NULL, "the recorded blocks open");
	while (in && fgets(line, sizeof line, in)) {
		uint8_t octets[23], sent[8][148], channel = 0;
		uint32_t frames[8];
		um_traffic traffic;
		um_traffic_block block;
		bool given = false;
		if (sscanf(line, "block %7s %d %63s", kind, &timeslot, text) != 3)
			continue;
		while (strcmp(kind, names[channel]))
			channel++;
		for (int i = 0; i < 23; i++)
			octets[i] = (uint8_t)strtoul((char[]){ text[2 * i], text[2 * i + 1], 0 }, NULL, 16);
		check(um_traffic_new(&traffic, channel, UM_DOWNLINK, (uint8_t)timeslot, 1, 0), "a receiver");
		first = 0;
		for (int b = 0; b < bursts_of(channel); b++) {
			int8_t soft[148];
			check(fgets(line, sizeof line, in) && sscanf(line, "%lu %159s", &frame, bits) == 2 && strlen(bits) == 148, "a burst");
			first = b ? first : frame;
			frames[b] = (uint32_t)frame;
			for (int i = 0; i < 148; i++) {
				sent[b][i] = bits[i] == '1';
				soft[i] = sent[b][i] ? -127 : 127;
			}
			enum um_heard heard = um_traffic_take(&traffic, (uint32_t)frame, soft, &block);
			check(heard == UM_TRAFFIC_TAKEN || heard == UM_TRAFFIC_BLOCK, "a frame is taken");
			given = heard == UM_TRAFFIC_BLOCK && block.block.first == first;
		}
		check(given && block.kind == UM_TRAFFIC_FACCH && block.block.report.accepted && !memcmp(block.block.report.octets, octets, 23)
			&& block.block.report.tsc == 5 && block.flags == -1016 && block.block.heard == bursts_of(channel),
			"a recorded block of FACCH is received as libosmocoding receives it");
		sends_recorded(channel, octets, frames, (const uint8_t (*)[148])sent);
		count++;
	}
	check(count == 52, "there are 52 recorded blocks");
	if (in)
		fclose(in);
}

/* Any frames, in any order: SACCH as a um_slot beside it reports it, refusals as that one's, and states that no caller wrote. */
static void beside_a_slot(int channel, int direction)
{
	static um_traffic traffic, before;
	static um_traffic_block block, untouched;
	um_slot slot;
	um_slot_block alone;
	uint8_t timeslot = (uint8_t)(rand() % 8);
	uint32_t frame = (uint32_t)rand() % UM_FRAMES;
	int blocks = 0;

	check(um_traffic_new(&traffic, (uint8_t)channel, (uint8_t)direction, timeslot, 1, 0) && um_slot_new(&slot, UM_TCH_F,
		(uint8_t)direction, channel == UM_FULL_RATE ? timeslot : (uint8_t)((timeslot & 6) + channel - UM_HALF_RATE_0), 1, 0), "two receivers");
	memset(&untouched, 0x5a, sizeof untouched);
	for (int event = 0; event < 1500; event++) {
		int8_t burst[148];
		enum um_heard heard;
		frame = (frame + (uint32_t)(rand() % 20 == 0 ? UM_FRAMES - 3 : rand() % 3)) % UM_FRAMES;
		for (int i = 0; i < 148; i++)
			burst[i] = noise();
		if (rand() % 50 == 0)
			burst[rand() % 148] = -128;
		do {
			before = traffic;
			block = untouched;
			heard = um_traffic_take(&traffic, frame, burst, &block);
			if (heard > UM_TRAFFIC_EARLIER)
				check(!memcmp(&traffic, &before, sizeof traffic) && !memcmp(&block, &untouched, sizeof block), "a refusal writes nothing");
		} while (heard == UM_TRAFFIC_EARLIER);
		uint8_t taken = um_slot_take(&slot, frame, burst, &alone);
		check(heard > UM_TRAFFIC_EARLIER ? (int)taken == (int)heard - 1 : taken <= UM_SLOT_BLOCK, "it is refused as by a um_slot");
		check(!memcmp(&traffic.sacch, &slot, sizeof slot), "its receiver of SACCH is that um_slot");
		if (taken == UM_SLOT_BLOCK) {
			blocks++;
			check(heard == UM_TRAFFIC_BLOCK && block.kind == UM_TRAFFIC_SACCH && block.block.first == alone.first
				&& block.block.report.metric == alone.report.metric && block.block.heard == alone.heard
				&& !memcmp(block.block.report.word, alone.report.word, 228), "and so is what it reports");
		}
		if (event % 100 == 99) { /* a hostile state: refused, or a receiver */
			um_traffic hostile = traffic;
			((uint8_t *)&hostile)[rand() % 30 ? (int)offsetof(um_traffic, first) + rand() % 24 : rand() % 14] = (uint8_t)rand();
			before = hostile;
			for (int i = 0; i < 40; i++)
				if (um_traffic_miss(&hostile, (frame + 1 + (uint32_t)i) % UM_FRAMES, &block) == UM_TRAFFIC_NONE)
					check(i > 0 || !memcmp(&hostile, &before, sizeof before), "a state that is not valid stays");
		}
	}
	check(blocks > 2, "there are blocks of SACCH");
}

/* FACCH, stolen and speech by flags and CRC; SACCH by the same call. */
static void kinds(void)
{
	uint8_t octets[23] = { 3, 3, 1, 43 }, bits[4][148];
	int8_t soft[148];
	um_traffic traffic, before;
	um_traffic_block block;
	static const int kind_of[3] = { UM_TRAFFIC_FACCH, UM_TRAFFIC_STOLEN, UM_TRAFFIC_SPEECH };
	int sacch = 0;

	check(um_send_block(octets, 3, bits), "a block");
	for (int kind = 0; kind < 3; kind++) {
		check(um_traffic_new(&traffic, UM_FULL_RATE, UM_UPLINK, 4, 16, 4), "a receiver");
		traffic.sacch.limit = 18;
		for (uint32_t frame = 0; frame < 8; frame++) {
			check(um_soft_from_bits(bits[frame % 4], soft, 148), "soft bits");
			for (int i = 3; i < 145 && kind > 0; i++) /* all coded bits, and of speech the flags too */
				if ((i < 60 || i > 87) || (kind == 2 && (i == 60 || i == 87)))
					soft[i] = i == 60 || i == 87 ? 127 : noise();
			enum um_heard heard = um_traffic_take(&traffic, frame, soft, &block);
			check(heard == (frame % 4 == 3 ? UM_TRAFFIC_BLOCK : UM_TRAFFIC_TAKEN), "each fourth frame completes a block");
		}
		check(block.block.first == 0 && block.kind == kind_of[kind] && (block.flags < 0) == (kind < 2)
			&& block.block.report.accepted == (kind == 0), "FACCH, stolen and speech");
	}
	/* SACCH of TCH/H, the second of time slot 4: where TCH/F of time slot 5 has it, from frame 12 + 13 * 5 on */
	check(um_traffic_new(&traffic, UM_HALF_RATE_1, UM_DOWNLINK, 4, 1, 0), "a receiver at half rate");
	for (uint32_t frame = 70; frame < 280; frame++) {
		bool its = (frame + 104 - 77) % 26 == 0;
		check(um_soft_from_bits(bits[(frame + 104 - 77) / 26 % 4], soft, 148), "soft bits");
		enum um_heard heard = its ? um_traffic_take(&traffic, frame, soft, &block) : um_traffic_miss(&traffic, frame, &block);
		if (heard == UM_TRAFFIC_BLOCK && block.kind == UM_TRAFFIC_SACCH) {
			sacch++;
			check(block.block.first % 104 == 77 && block.block.channel == UM_SACCH && block.block.report.accepted
				&& !memcmp(block.block.report.octets, octets, 23) && frame == block.block.first + 78, "a block of SACCH by the same call");
		}
	}
	check(sacch == 2, "there are two");
	/* refusals change nothing */
	before = traffic;
	int8_t worst[148] = { -128 };
	check(um_traffic_take(&traffic, 280, worst, &block) == UM_TRAFFIC_NO_SOFT
		&& um_traffic_take(&traffic, 279, soft, &block) == UM_TRAFFIC_DOUBLED
		&& um_traffic_take(&traffic, 270, soft, &block) == UM_TRAFFIC_LATE
		&& um_traffic_miss(&traffic, UM_FRAMES, &block) == UM_TRAFFIC_NO_FRAME
		&& !memcmp(&traffic, &before, sizeof traffic), "refused frames change nothing");
	check(um_traffic_restart(&traffic) && traffic.sacch.last == UM_FRAMES && traffic.first == UM_FRAMES && traffic.channel == UM_HALF_RATE_1
		&& um_traffic_take(&traffic, 3, soft, &block) == UM_TRAFFIC_TAKEN, "a receiver begins again with its settings");
	traffic.channel = 3;
	check(um_traffic_miss(&traffic, 9, &block) == UM_TRAFFIC_NONE && um_traffic_end(&traffic, &block) == UM_TRAFFIC_NONE
		&& !um_traffic_restart(&traffic), "there is no fourth traffic channel");
	check(!um_traffic_new(&traffic, 3, 0, 0, 1, 0) && !um_traffic_new(&traffic, 0, 2, 0, 1, 0) && !um_traffic_new(&traffic, 0, 0, 8, 1, 0)
		&& !um_traffic_new(&traffic, 0, 0, 0, 65, 0) && !um_traffic_new(&traffic, 0, 0, 0, 1, 5), "numbers out of range make no receiver");
}

/* A key stream on bits and soft bits. */
static void ciphers(void)
{
	uint8_t octets[23] = { 9 }, bits[4][148], sent[148], stream[114];
	int8_t soft[148], before[148];

	check(um_send_block(octets, 1, bits), "a block");
	for (int round = 0; round < 100; round++) {
		for (int i = 0; i < 114; i++)
			stream[i] = (uint8_t)(rand() & 1);
		memcpy(sent, bits[round % 4], 148);
		check(um_cipher_bits(sent, stream), "a burst is ciphered");
		for (int i = 0; i < 148; i++) {
			int k = i >= 3 && i < 60 ? stream[i - 3] : i >= 88 && i < 145 ? stream[i - 31] : 0;
			check(sent[i] == (bits[round % 4][i] ^ k), "in its 114 coded bits");
		}
		check(um_soft_from_bits(sent, soft, 148) && um_soft_cipher(soft, stream) && um_soft_from_bits(bits[round % 4], before, 148)
			&& !memcmp(soft, before, 148), "sent, ciphered, deciphered and received is sent and received");
	}
	memcpy(before, soft, 148);
	stream[113] = 2;
	check(!um_soft_cipher(soft, stream) && !um_cipher_bits(sent, stream), "a stream has bits");
	stream[113] = 1;
	soft[5] = before[5] = -128;
	sent[147] = 7;
	check(!um_soft_cipher(soft, stream) && !um_cipher_bits(sent, stream) && !memcmp(soft, before, 148), "soft bits and bits are refused");
}

enum { SENT_FRAMES = 500 };

struct given { uint64_t first; uint8_t kind, bits[4][148]; };

/* Which burst a frame carries of the block that begins in frame `first`, by osmo-bts's tables; -1 if none. */
static int burst_in(int channel, int direction, uint64_t first, uint64_t frame)
{
	for (int k = 0; k < blocks_count[channel][direction]; k++) {
		uint64_t at = first;
		if (frame_of(channel, direction, k, 0) != (int)(first % 26))
			continue;
		for (int i = 0; i < bursts_of(channel); i++, at++) {
			while ((int)(at % 26) != frame_of(channel, direction, k, i))
				at++;
			if (at == frame)
				return i;
		}
	}
	return -1;
}

/* Adds the half, or halves, that a frame's burst has of a block: the odd places in its first four bursts, the even ones in those after
 * these. At half rate no bursts come after the last two of four, which have both. */
static bool add_half(int channel, int index, const struct given *block, uint8_t burst[148])
{
	if (index < 0)
		return false;
	for (int p = 0; p < 148; p++)
		if ((p >= 61 && p <= 86) || p < 3 || p > 144 || (index < 4 ? p % 2 || index + 4 >= bursts_of(channel) : p % 2 == 0))
			burst[p] = block->bits[index % 4][p];
	return true;
}

/* A sender that is asked for frames with gaps, and given FACCH and speech at any time: each burst has the halves of the blocks that the
 * tables have in its frame. */
static void senders(int channel, int direction)
{
	static struct given blocks[SENT_FRAMES];
	struct given waiting = { 0, 0, { { 0 } } };
	um_traffic_sender sender, before;
	uint64_t frame = rand() % 2 ? (uint64_t)(rand() % 200) : UM_FRAMES - 200 + (uint64_t)(rand() % 100);
	int count = 0, bursts = 0, silent = 0;

	check(um_traffic_sender_new(&sender, (uint8_t)channel, (uint8_t)direction, 5), "a sender");
	for (int event = 0; event < SENT_FRAMES; event++, frame += rand() % 8 ? 1 : 1 + (uint64_t)(rand() % 9)) {
		uint8_t octets[23], bits[4][148], wanted[148] = { 0 }, burst[148], again[148];
		for (int i = 0; i < 23; i++)
			octets[i] = (uint8_t)rand();
		check(um_send_block(octets, 5, bits), "a block");
		int kind = rand() % 12 == 0 ? 2 : rand() % 5 == 0 ? 1 : 0;
		for (int b = 0; kind == 1 && b < 4; b++)
			bits[b][60] = bits[b][87] = 0;
		if (kind) {
			bool taken = kind == 2 ? um_traffic_sender_facch(&sender, octets)
				: um_traffic_sender_speech(&sender, (const uint8_t (*)[148])bits);
			check(taken == (waiting.kind != 2), "FACCH that waits is not replaced");
			if (taken) {
				waiting.kind = (uint8_t)kind;
				memcpy(waiting.bits, bits, sizeof bits);
			}
		}
		if (waiting.kind && burst_in(channel, direction, frame, frame) == 0) {
			waiting.first = frame;
			blocks[count++] = waiting;
			waiting.kind = 0;
		}
		bool any = false;
		for (int i = count > 2 ? count - 2 : 0; i < count; i++)
			any |= add_half(channel, burst_in(channel, direction, blocks[i].first, frame), &blocks[i], wanted);
		enum um_sending want = !is_traffic(channel, (uint32_t)(frame % 26)) ? UM_SENDING_UNPLACED : any ? UM_SENDING_BURST : UM_SENDING_NOTHING;
		memset(burst, 7, sizeof burst);
		check(um_traffic_sender_burst(&sender, (uint32_t)(frame % UM_FRAMES), burst) == want, "a burst is sent where a block has a half");
		check(any ? !memcmp(burst, wanted, 148) : burst[0] == 7, "it has the halves of the blocks that the tables have there");
		before = sender;
		check(um_traffic_sender_burst(&sender, (uint32_t)(frame % UM_FRAMES), again) == want && (!any || !memcmp(again, wanted, 148))
			&& !memcmp(&sender, &before, sizeof sender), "asked again, it writes the same burst");
		bursts += any;
		silent += want == UM_SENDING_NOTHING;
	}
	check(bursts > 50 && silent > 5, "there are bursts, and silence");
	before = sender;
	uint8_t burst[148];
	check(um_traffic_sender_burst(&sender, (uint32_t)((frame + UM_FRAMES - 60) % UM_FRAMES) / 26 * 26 + (channel == UM_HALF_RATE_1), burst)
		== UM_SENDING_LATE && um_traffic_sender_burst(&sender, UM_FRAMES, burst) == UM_SENDING_NO_FRAME
		&& !memcmp(&sender, &before, sizeof sender), "refused frames change nothing");
}

/* The recorded blocks again, sent: the halves are those that osmo-bts sent. Refusals. */
static void sends_recorded(int channel, const uint8_t octets[23], const uint32_t *frames, const uint8_t (*bits)[148])
{
	um_traffic_sender sender;
	uint8_t burst[148], twice[148];

	check(um_traffic_sender_new(&sender, (uint8_t)channel, UM_DOWNLINK, 5) && um_traffic_sender_facch(&sender, octets), "a sender");
	for (int b = 0; b < bursts_of(channel); b++) {
		check(um_traffic_sender_burst(&sender, frames[b], burst) == UM_SENDING_BURST, "each burst of the block is sent");
		memcpy(twice, bits[b], 148);
		for (int p = 0; p < 148; p++)
			if ((p >= 61 && p <= 86) || p < 3 || p > 144 || (b < 4 ? p % 2 || b + 4 >= bursts_of(channel) : p % 2 == 0))
				twice[p] = burst[p];
			else
				check(burst[p] == 0, "the other half is zeros");
		check(!memcmp(twice, bits[b], 148), "its halves are those that osmo-bts sent");
	}
}

static void no_senders(void)
{
	um_traffic_sender sender, before;
	uint8_t octets[23] = { 0 }, bits[4][148] = { { 0 } }, burst[148];

	check(!um_traffic_sender_new(&sender, 3, 0, 0) && !um_traffic_sender_new(&sender, 0, 2, 0) && !um_traffic_sender_new(&sender, 0, 0, 8),
		"numbers out of range make no sender");
	check(um_traffic_sender_new(&sender, UM_HALF_RATE_0, UM_DOWNLINK, 7), "a sender");
	before = sender;
	bits[3][147] = 2;
	check(!um_traffic_sender_speech(&sender, (const uint8_t (*)[148])bits) && !memcmp(&sender, &before, sizeof sender), "2 is no bit");
	sender.tsc = 8;
	check(!um_traffic_sender_facch(&sender, octets) && um_traffic_sender_burst(&sender, 0, burst) == UM_SENDING_NONE, "no sequence 8");
	sender.tsc = 7;
	sender.first = 1;
	check(um_traffic_sender_burst(&sender, 0, burst) == UM_SENDING_NONE, "no block begins with burst 1 in the downlink");
}

int main(int argc, char **argv)
{
	check(argc == 3, "the files of tables and of recorded blocks are named");
	tables(argc > 1 ? argv[1] : "");
	srand(26);
	for (int channel = UM_FULL_RATE; channel <= UM_HALF_RATE_1; channel++)
		for (int direction = UM_DOWNLINK; direction <= UM_UPLINK; direction++) {
			places(channel, direction);
			for (int run = 0; run < 300; run++)
				one_run(channel, direction, run % 3 == 0 ? 1 : run % 3 == 1 ? 4 : 40);
			beside_a_slot(channel, direction);
			for (int run = 0; run < 40; run++)
				senders(channel, direction);
		}
	no_senders();
	um_traffic_place place;
	uint32_t first;
	check(um_place_traffic(3, 0, 0, &place) == UM_NO_PLACE && um_place_traffic(0, 2, 0, &place) == UM_NO_PLACE
		&& um_place_traffic(0, 0, UM_FRAMES, &place) == UM_NO_PLACE && !um_next_facch(0, 0, UM_FRAMES, &first),
		"numbers out of range have no place");
	recorded(argc > 2 ? argv[2] : "");
	kinds();
	ciphers();
	return failed;
}
