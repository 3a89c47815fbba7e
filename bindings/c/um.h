/* um.h - GSM's dedicated signalling link: blocks, bursts, LAPDm frames and endpoints. The results of every call are proved.
 *
 * Link with libum.a or libum.so.0 from dist/x86_64-linux or dist/aarch64-linux. `rt lib` in crates/um_c proves and builds the same
 * archive as out/libum_c.a. The library needs only memcpy, memmove and memset. On x86-64 Linux it runs on every processor, and from level
 * v2 on (SSE4.2, POPCNT; 2009 or later) takes two thirds of the time; on Windows and macOS it needs that level.
 *
 * One header for all calls, so that there is one to include and to copy; um_more.h, um_soft.h and um_osmo.h stand beside it.
 *
 * Conventions
 *   A hard bit is an octet, 0 or 1 (libosmocore's ubit_t). Arrays of bits are in transmission order. A soft bit is a signed octet,
 *   from -127 (certainly 1) to 127 (certainly 0); 0 means unknown (libosmocore's sbit_t). -128 is refused.
 *   A block is 23 octets, each sent least significant bit first.
 *   No call allocates memory, keeps state between calls, blocks or prints. Every call is thread-safe, but two threads must not use
 *   the same um_end, um_side, um_slot, um_traffic, um_traffic_sender or um_datalink at the same time.
 *   um_traffic_take, um_traffic_miss, um_traffic_end, um_receive_facch_f_erasing and um_receive_facch_h_erasing take at most 36 KB of
 *   stack, um_receive_block_erasing, um_slot_take, um_slot_miss and um_slot_end 32 KB, um_receive_block_among 18 KB, every other call at
 *   most 10 KB.
 *   Pointers must not be null (gcc and clang warn where they can tell), must point to as many elements as the type says, and must be
 *   aligned for that type. Output must not overlap any other argument. The library cannot test this; a call that breaks it has
 *   undefined behaviour.
 *   A call that refuses its arguments writes nothing.
 *   The caller owns all state: a um_end holds one endpoint, a um_side the endpoints of both links of a channel.
 *   To process several blocks, call in a loop.
 *   Before C23, C does not convert `int8_t soft[4][148]` to a pointer to const rows, and -Wpedantic warns; the cast
 *   `(const int8_t (*)[148])soft` is correct there. C++ and C23 need no cast. */
#ifndef UM_H
#define UM_H
#include <stdbool.h>
#include <stdint.h>

#define UM_VERSION "0.3.0~dev"
#define UM_VERSION_MAJOR 0
#define UM_VERSION_MINOR 3
#define UM_VERSION_PATCH 0
#define UM_VERSION_NUMBER (1000000 * UM_VERSION_MAJOR + 1000 * UM_VERSION_MINOR + UM_VERSION_PATCH)

/* UM_CALL marks a call whose answer must not be ignored: what it writes is not written if it refuses. The calls _new, which refuse only
 * settings, lack the mark. In gcc and clang an enum that a call returns has one octet, so that -Wswitch and debuggers know the answer;
 * elsewhere the answer is a uint8_t. The library sets all four octets of it, for languages that take an enum of this header to have
 * four. */
#if defined __GNUC__
#define UM_NONNULL __attribute__((__nonnull__))
#define UM_CALL __attribute__((__nonnull__, __warn_unused_result__))
#define UM_OCTET __attribute__((__packed__))
#define UM_ENUM(name) enum name
#else
#define UM_NONNULL
#define UM_CALL
#define UM_OCTET
#define UM_ENUM(name) uint8_t
#endif

#ifdef __cplusplus
extern "C" {
#endif

/* Returns the version of the library as one number, 1000000 * major + 1000 * minor + patch; that of this header is UM_VERSION_NUMBER. They
 * differ if the program runs with another shared library than it was compiled for. */
uint32_t um_version(void);

/* Blocks: SACCH, SDCCH, BCCH, PCH and AGCH use the same coding (3GPP TS 45.003, 4.1). */

typedef struct um_block_report {
	int32_t metric;          /* path metric: sum of the soft bits, each negated where the word's bit is 1; at most 57912 */
	uint32_t wrong_training; /* bit errors in the 104 training bits; a soft bit of 0 counts as an error */
	uint32_t wrong_coded;    /* bit errors in the 456 coded bits, against the word re-encoded; a soft bit of 0 counts as an error */
	uint8_t tsc;             /* the detected training sequence, 0 to 7 */
	uint8_t accepted;        /* 1 if the CRC holds, else 0 */
	uint8_t octets[23];      /* the block if accepted, else zeros */
	uint8_t word[228];       /* the decoded word, one octet per bit: data 184, CRC 40, tail 4; um_receive_block writes the most likely one */
} um_block_report;

/* Encodes a block into four normal bursts with training sequence tsc, 0 to 7. False: tsc is above 7. */
bool um_send_block(const uint8_t octets[23], uint8_t tsc, uint8_t bursts[4][148]) UM_CALL;

/* Decodes four normal bursts by maximum likelihood: the word with the greatest metric, and of equal ones the lexicographically first.
 * False: a soft bit is -128. */
bool um_receive_block(const int8_t bursts[4][148], um_block_report *report) UM_CALL;

/* Decodes four normal bursts by list decoding: tries the `most` words with the greatest metrics (1 to 64) in descending order and
 * takes the first whose CRC holds. No other word with a matching CRC has a greater metric. If none matches, the report is that of
 * um_receive_block. Writes the word's rank, 1 for the greatest metric. The CRC of a random word holds once in 2^40 words; in noise
 * about one in 10^8 of the blocks that cannot be saved is accepted wrongly. False: a soft bit is -128, or most is 0 or above 64. */
bool um_receive_block_among(const int8_t bursts[4][148], uint32_t most, um_block_report *report, uint32_t *rank) UM_CALL;

typedef struct um_erasure {
	uint8_t erased;            /* the burst that was set to zeros, 0 to 3, or 4: none */
	uint8_t wrong_training[4]; /* bit errors in the 26 training bits of each burst as received, against the sequence detected in all four */
} um_erasure;

/* Decodes four normal bursts as um_receive_block_among does. If no word's CRC holds, erases bursts: decodes the block again with one
 * burst set to zeros, for each of at most `erasures` bursts (0 to 4) in turn, the burst with the most wrong training bits first and of
 * equal ones the earlier, until the CRC of a word holds. The report and the rank are those of um_receive_block_among for the bursts with
 * that burst set to zeros, so its counts include that burst's 26 training and 114 coded bits; if no word's CRC holds, those for the bursts
 * as received. With 0 erasures it is um_receive_block_among.
 * False: a soft bit is -128, most is 0 or above 64, or erasures is above 4. */
bool um_receive_block_erasing(const int8_t bursts[4][148], uint32_t most, uint8_t erasures, um_block_report *report, uint32_t *rank,
	um_erasure *erasure) UM_CALL;

/* Detects the training sequence of four normal bursts without decoding them, and counts the wrong training bits of each burst. Writes the
 * training sequence, 0 to 7, that um_receive_block would report. The sum of the counts is its wrong_training; docs/RECEIVING.md has what
 * it was for blocks and for random bits. False: a soft bit is -128. */
bool um_detect_training(const int8_t bursts[4][148], uint8_t *tsc, uint8_t wrong_training[4]) UM_CALL;

typedef struct um_margin_report {
	int32_t margin;    /* the word's metric minus the next word's; 0 if and only if another word has the same metric */
	uint8_t word[228]; /* the most likely word, as um_receive_block reports it */
	uint8_t next[228]; /* the second most likely word, the first of several */
} um_margin_report;

/* Decodes four normal bursts and reports the margin between the two most likely words. False: a soft bit is -128. */
bool um_margin_block(const int8_t bursts[4][148], um_margin_report *report) UM_CALL;

/* FACCH: a block in stolen halves of the bursts of a traffic channel (3GPP TS 45.003, 4.2 and 4.3), of eight at full rate (_f) and of six
 * at half rate (_h). The block is that of um_send_block: of its four bursts the bits at odd positions (even-numbered coded bits, and the
 * stealing flag hu at 87) are sent in the first four, those at even positions (odd-numbered coded bits, and hl at 60) in bursts 4, 5, 6, 7,
 * or at half rate in 4, 5, 2, 3. um_traffic joins them by frame numbers. */

/* Writes a block into the bursts that carry it: its halves of their coded bits and flags, the tail bits and the training sequence. The
 * other halves stay as they are: they are of other blocks, of FACCH or of speech. False: an octet of `block` or `bursts` is neither 0 nor
 * 1. */
bool um_steal_facch_f(const uint8_t block[4][148], uint8_t bursts[8][148]) UM_CALL;
bool um_steal_facch_h(const uint8_t block[4][148], uint8_t bursts[6][148]) UM_CALL;

/* Joins the halves of received bursts to the four bursts of a block, for um_receive_block and all other calls on four bursts. Of the tail
 * bits and the training sequences it takes half of each. False: a soft bit is -128. */
bool um_join_facch_f(const int8_t bursts[8][148], int8_t block[4][148]) UM_CALL;
bool um_join_facch_h(const int8_t bursts[6][148], int8_t block[4][148]) UM_CALL;

typedef struct um_facch_erasure {
	uint8_t erased;            /* the burst that was set to zeros, 0 to 7, at half rate 0 to 5; or 8: none */
	uint8_t wrong_training[8]; /* bit errors in the 26 training bits of each burst as received, against the sequence detected in all of
	                            * them; at half rate the last two are 0 */
} um_facch_erasure;

/* Receives a block from the bursts that carry it: joins their halves and decodes them as um_receive_block_among does. If no word's CRC
 * holds, decodes again with one of these bursts set to zeros, for each of at most `erasures` bursts (0 to 8, at half rate 0 to 6) in turn,
 * the burst with the most wrong training bits first and of equal ones the earlier, until the CRC of a word holds. A burst of a joined block
 * is of two that were sent: where one of eight was lost, this saves far more blocks than um_receive_block_erasing on the joined block. The
 * report is that of the joined block, but tsc and wrong_training are of all training bits of these bursts, 208 or at half rate 156.
 * False: a soft bit is -128, most is 0 or above 64, or there are fewer bursts than erasures. */
bool um_receive_facch_f_erasing(const int8_t bursts[8][148], uint32_t most, uint8_t erasures, um_block_report *report, uint32_t *rank,
	um_facch_erasure *erasure) UM_CALL;
bool um_receive_facch_h_erasing(const int8_t bursts[6][148], uint32_t most, uint8_t erasures, um_block_report *report, uint32_t *rank,
	um_facch_erasure *erasure) UM_CALL;

/* Writes the sum of a joined block's eight stealing flags, -1016 to 1016, negative if they rather say FACCH, and how many of them do not
 * say so (a soft bit of 0 does not). False: a soft bit is -128. */
bool um_stealing_flags(const int8_t block[4][148], int32_t *sum, uint8_t *wrong) UM_CALL;

enum UM_OCTET um_repaired {
	UM_HOLDS,     /* the CRC holds already */
	UM_REPAIRED,  /* the word was corrected; the report is written */
	UM_NO_REPAIR, /* no codeword is that near */
	UM_NO_BITS    /* an octet is neither 0 nor 1 */
};

typedef struct um_repair_report {
	uint8_t first;     /* index of the first wrong bit */
	uint8_t span;      /* number of bits from the first wrong one to the last, both included; at most 12 */
	uint8_t word[224]; /* the corrected codeword */
} um_repair_report;

/* Corrects a block's word: data 184 and CRC 40, one octet per bit (the first 224 of um_block_report's word). It corrects every error
 * burst of at most 12 bits; at most one codeword is that near. Returns a um_repaired. */
UM_ENUM(um_repaired) um_repair(const uint8_t word[224], um_repair_report *report) UM_CALL;

/* Access bursts: RACH (3GPP TS 45.003, 4.6). */

typedef struct um_access_report {
	int32_t metric;          /* at most 4572 */
	uint32_t wrong_training; /* bit errors in the 41 synchronisation bits */
	uint32_t wrong_coded;    /* bit errors in the 36 coded bits */
	uint8_t accepted;        /* 1 if the CRC holds for this bsic, else 0 */
	uint8_t info[8];         /* the data if accepted, one octet per bit, else zeros */
	uint8_t word[18];        /* data 8, CRC 6 XORed with the BSIC, tail 4 */
} um_access_report;

/* Encodes the eight bits of RA, least significant first, into an access burst for the base station whose identity code is bsic, most
 * significant bit first. False: an octet is neither 0 nor 1. */
bool um_send_access(const uint8_t info[8], const uint8_t bsic[6], uint8_t burst[88]) UM_CALL;

/* Decodes an access burst. False: a soft bit is -128, or an octet of bsic is neither 0 nor 1. */
bool um_receive_access(const int8_t burst[88], const uint8_t bsic[6], um_access_report *report) UM_CALL;

/* Synchronisation bursts: SCH (3GPP TS 45.003, 4.7). */

typedef struct um_sync_report {
	int32_t metric;          /* at most 9906 */
	uint32_t wrong_training; /* bit errors in the 64 training bits */
	uint32_t wrong_coded;    /* bit errors in the 78 coded bits */
	uint8_t accepted;        /* 1 if the CRC holds, else 0 */
	uint8_t info[25];        /* the data if accepted, one octet per bit, else zeros */
	uint8_t word[39];        /* data 25, CRC 10, tail 4 */
} um_sync_report;

/* Encodes 25 bits into a synchronisation burst. In frame FN, with s = FN / 1326, m = FN % 26 and r = (FN % 51 - 1) / 10, they are bits 9
 * and 10 of s, BSIC, bits 1 to 8 of s, bits 1 and 2 of r, m, bit 0 of s, and bit 0 of r, each field least significant bit first
 * (3GPP TS 44.018, 9.1.30). False: an octet is neither 0 nor 1. */
bool um_send_sync(const uint8_t info[25], uint8_t burst[148]) UM_CALL;

/* Decodes a synchronisation burst. False: a soft bit is -128. */
bool um_receive_sync(const int8_t burst[148], um_sync_report *report) UM_CALL;

/* TDMA frames, SCH and channels (3GPP TS 45.002, 3.3.2, 4.3.3, 6.4 and 7; TS 44.018, 9.1.30). */

#define UM_FRAMES 2715648 /* the frames of a hyperframe: frame numbers are 0 to UM_FRAMES - 1 */

typedef struct um_time {
	uint16_t t1; /* frame number / 1326: 0 to 2047 */
	uint8_t t2;  /* frame number % 26 */
	uint8_t t3;  /* frame number % 51 */
} um_time;

/* Splits a frame number into T1, T2 and T3. False: there is no such frame number. */
bool um_time_of_frame(uint32_t frame, um_time *time) UM_CALL;

/* Finds the frame number with this T1, T2 and T3. False: T1 is above 2047, T2 above 25 or T3 above 50. */
bool um_frame_of_time(const um_time *time, uint32_t *frame) UM_CALL;

typedef struct um_sch {
	uint32_t frame; /* the frame number; its T3 is 1, 11, 21, 31 or 41 */
	uint8_t bsic;   /* the base station identity code, 0 to 63: 8 * ncc + bcc */
	uint8_t ncc;    /* the network colour code, 0 to 7 */
	uint8_t bcc;    /* the base station colour code, 0 to 7: the training sequence of BCCH and CCCH */
} um_sch;

/* Reads the 25 data bits of a synchronisation burst (um_sync_report's info). False: an octet is neither 0 nor 1, or no frame number has
 * these bits: T2 is above 25 or T3' above 4. */
bool um_read_sch(const uint8_t info[25], um_sch *sch) UM_CALL;

/* Writes the 25 data bits for um_send_sync. False: bsic is above 63, or the frame number does not exist or has no SCH. */
bool um_write_sch(uint8_t bsic, uint32_t frame, uint8_t info[25]) UM_CALL;

/* Writes an access burst's RA (the octet of CHANNEL REQUEST) as the eight data bits of um_send_access, least significant bit first. */
void um_write_ra(uint8_t ra, uint8_t info[8]) UM_NONNULL;

/* Reads RA from the data bits of um_access_report. False: an octet is neither 0 nor 1. */
bool um_read_ra(const uint8_t info[8], uint8_t *ra) UM_CALL;

/* Writes a BSIC as the six bits of um_send_access and um_receive_access, most significant bit first. False: bsic is above 63. */
bool um_write_bsic(uint8_t bsic, uint8_t bits[6]) UM_CALL;

/* Reads a BSIC from six bits. False: an octet is neither 0 nor 1. */
bool um_read_bsic(const uint8_t bits[6], uint8_t *bsic) UM_CALL;

/* The channels of a time slot. UM_TCH_F and UM_TCH_H have only the SACCH of traffic channels: um_place_traffic has their other frames. */
enum um_combination {
	UM_BCCH_CCCH,        /* FCCH, SCH, BCCH, CCCH; uplink RACH */
	UM_BCCH_CCCH_SDCCH4, /* the same with SDCCH/4 and its SACCH */
	UM_SDCCH8,           /* SDCCH/8 and its SACCH */
	UM_TCH_F,            /* SACCH of TCH/F; all other frames carry traffic or are idle */
	UM_TCH_H             /* SACCH of the two TCH/H of a time slot, subchannels 0 and 1, burst by burst in turn; all other frames carry
	                      * traffic. A um_slot has blocks one after another: for that of subchannel s it is set to UM_TCH_F, in the time slot
	                      * (timeslot & 6) + s */
};
enum um_direction { UM_DOWNLINK, UM_UPLINK };
enum um_common_channel { UM_BCCH = 2, UM_CCCH, UM_FCCH, UM_SCH, UM_RACH, UM_FACCH }; /* after um_channel, UM_SDCCH and UM_SACCH */

typedef struct um_place {
	uint32_t first;     /* the frame number of the block's first burst; for FCCH, SCH and RACH that of the burst */
	uint8_t channel;    /* um_channel or um_common_channel */
	uint8_t subchannel; /* of SDCCH and SACCH; for CCCH the number of the block in the multiframe, 0 to 8; else 0 */
	uint8_t burst;      /* which burst of the block, 0 to 3; for FCCH, SCH and RACH 0 */
} um_place;

enum UM_OCTET um_placing {
	UM_PLACED,   /* the place is written */
	UM_UNPLACED, /* the frame has none of these channels: it is idle, or carries traffic */
	UM_NO_PLACE  /* no such combination, direction, time slot (0 to 7) or frame number */
};

/* Finds the channel and the burst that a frame of a time slot carries. The time slot matters only for UM_TCH_F and UM_TCH_H. Returns a
 * um_placing. */
UM_ENUM(um_placing) um_place_frame(uint8_t combination, uint8_t direction, uint8_t timeslot, uint32_t frame, um_place *place) UM_CALL;

/* Finds the first frame number, at or after `frame`, of a block (or burst) of this channel and subchannel. False: the combination has no
 * such channel in this direction, or there is no such combination, direction, time slot or frame number. */
bool um_next_block(uint8_t combination, uint8_t direction, uint8_t timeslot, uint8_t channel, uint8_t subchannel, uint32_t frame,
	uint32_t *first) UM_CALL;

/* Traffic channels: full rate, and the two of a time slot at half rate. */
enum um_traffic_channel { UM_FULL_RATE, UM_HALF_RATE_0, UM_HALF_RATE_1 };

typedef struct um_traffic_place {
	uint8_t burst;  /* the number of the traffic burst in the 26-multiframe: 0 to 23, at half rate 0 to 11 */
	uint8_t begins; /* the number of the block of FACCH that begins with it: 0 to 5, at half rate 0 to 2; 255: none */
	uint8_t ends;   /* the number of the block of FACCH that ends with it; 255: none */
} um_traffic_place;

/* Finds the traffic burst that a frame carries, and the blocks of FACCH that begin and end with it. A block has eight bursts at full rate
 * and six at half rate, and each fourth burst begins one; at half rate the two directions begin theirs in different frames. Returns a
 * um_placing: UM_UNPLACED if the frame is of SACCH, of the other half, or idle. */
UM_ENUM(um_placing) um_place_traffic(uint8_t channel, uint8_t direction, uint32_t frame, um_traffic_place *place) UM_CALL;

/* Finds the first frame number, at or after `frame`, in which a block of FACCH begins. False: no such channel, direction or frame
 * number. */
bool um_next_facch(uint8_t channel, uint8_t direction, uint32_t frame, uint32_t *first) UM_CALL;

/* A receiver of one time slot: collects the bursts of each block by their frame numbers, and decodes the block.
 *
 * The bursts come in the order of their frame numbers, modulo a hyperframe. Frames may be left out: a burst that never came is zeros. A
 * block is decoded with its fourth burst, or with the first later frame that is of another block; um_slot_end ends the last one at once. A
 * call reports one block: a fourth burst that is also the first later frame of another block reports that one, and its own block comes with
 * the first later frame of a third. A block of which no frame was taken or missed is not reported. The bursts of FCCH, SCH, RACH, traffic
 * and idle frames are ignored, but such a frame keeps the order.
 *
 * Doubled and late frames are to be ignored. After one false frame number, or a pause of more than half a hyperframe, all true frames are
 * late for up to 104 minutes: after several late frames in a row (8, say) call um_slot_restart, and take the frame again.
 *
 * The state is plain numbers and arrays: it can be copied, or saved and restored. Each call tests it; a soft bit of -128 in it counts as
 * -127. */
typedef struct um_slot {
	uint32_t last;        /* the frame number taken last, or UM_FRAMES: none yet */
	uint32_t first;       /* the frame number of the first burst of the block being collected, or UM_FRAMES: none */
	uint8_t combination;  /* um_combination, not UM_TCH_H */
	uint8_t direction;    /* um_direction */
	uint8_t timeslot;     /* 0 to 7 */
	uint8_t words;        /* words to try, 1 to 64: um_receive_block_erasing's `most` */
	uint8_t erasures;     /* bursts to erase, 0 to 4 */
	uint8_t heard;        /* bursts of the block that came */
	int8_t bursts[4][148];/* the bursts of the block; zeros where none came */
	uint8_t limit;        /* 0 to 78; um_slot_new sets 78, no limit. If the CRC of a block's first word fails, more words and erasures are
	                       * tried only if its three bursts with the fewest wrong training bits (um_detect_training) have at most so many
	                       * together. An idle channel then costs what one word costs; 20 lost none of 18,716 blocks measured */
} um_slot;

typedef struct um_slot_block {
	um_block_report report; /* what um_receive_block_erasing reports of the block's four bursts */
	uint32_t rank;
	uint32_t first;         /* the frame number of the first burst */
	uint8_t channel;        /* um_channel or um_common_channel: UM_SDCCH, UM_SACCH, UM_BCCH or UM_CCCH */
	uint8_t subchannel;     /* as in um_place */
	uint8_t heard;          /* bursts that came, 0 to 4 */
	um_erasure erasure;     /* 4 if none was erased, and the wrong training bits of each burst; 26 in one that never came */
} um_slot_block;

enum UM_OCTET um_taken {
	UM_SLOT_TAKEN,    /* the frame was taken; no block is complete */
	UM_SLOT_BLOCK,    /* the frame was taken; a block is complete and written */
	UM_SLOT_NO_SOFT,  /* a soft bit is -128; this answer and all below write nothing */
	UM_SLOT_NONE,     /* the state is not valid */
	UM_SLOT_NO_FRAME, /* there is no such frame number */
	UM_SLOT_DOUBLED,  /* this frame was taken last */
	UM_SLOT_LATE      /* this frame is before the one taken last: more than half a hyperframe after it */
};

/* Initialises a receiver. words is 1 to 64, erasures 0 to 4: with 1 and 0 each report is um_receive_block's. False: no such combination,
 * direction, time slot, number of words or of erasures, or it is UM_TCH_H. */
bool um_slot_new(um_slot *slot, uint8_t combination, uint8_t direction, uint8_t timeslot, uint8_t words, uint8_t erasures) UM_NONNULL;

/* Takes the burst of a frame. Returns a um_taken; the first that applies, in the order of the enum. */
UM_ENUM(um_taken) um_slot_take(um_slot *slot, uint32_t frame, const int8_t burst[148], um_slot_block *block) UM_CALL;

/* Takes a frame whose burst did not come. */
UM_ENUM(um_taken) um_slot_miss(um_slot *slot, uint32_t frame, um_slot_block *block) UM_CALL;

/* Forgets the frames taken and the block being collected; the settings stay. False: a setting is out of range. */
bool um_slot_restart(um_slot *slot) UM_CALL;

/* Ends the block being collected, at the end of a recording. UM_SLOT_BLOCK: it is written. UM_SLOT_TAKEN: none was being collected.
 * UM_SLOT_NONE: the state is not valid. */
UM_ENUM(um_taken) um_slot_end(um_slot *slot, um_slot_block *block) UM_CALL;

/* A receiver of a traffic channel: collects the bursts of FACCH and of SACCH by their frame numbers, and decodes their blocks.
 *
 * The frames come as those of a um_slot do, traffic and SACCH alike; doubled and late frames are refused alike. A traffic burst carries
 * halves of two blocks of FACCH, so each fourth traffic frame completes one. If its last bursts never came, the first traffic frame past it
 * ends it: UM_TRAFFIC_EARLIER, and the frame is not taken yet. So call until a frame is taken:
 *
 *   while ((taken = um_traffic_take(&traffic, frame, burst, &block)) == UM_TRAFFIC_EARLIER)
 *     use(&block);
 *
 * A block is decoded as FACCH whatever its stealing flags say, since a CRC of 40 bits tells more than eight flags: with one word, and with
 * more words and erasures only if the flags rather say FACCH. What is not FACCH is the caller's: at full rate the joined block has the bits
 * of a speech frame in the places of um_send_block; at half rate the bursts as they came are in `bursts` of the receiver until the next
 * call. */
typedef struct um_traffic {
	um_slot sacch;         /* the receiver of the SACCH; its last frame, direction, words, erasures and limit are also those of FACCH */
	uint32_t first;        /* the first burst of the block being collected, counted in traffic bursts of the hyperframe; UM_FRAMES: none */
	uint8_t channel;       /* um_traffic_channel */
	uint8_t ended;         /* whether that block was reported; any value but 0 means yes */
	uint8_t came[8];       /* of each burst of the block 0, 1 if its frame was missed, or 2 if it came */
	int8_t bursts[8][148]; /* the bursts of the block, at half rate six; zeros where none came */
} um_traffic;

enum um_traffic_kind {
	UM_TRAFFIC_SACCH,  /* a block of SACCH */
	UM_TRAFFIC_FACCH,  /* a block of FACCH whose CRC holds */
	UM_TRAFFIC_STOLEN, /* no CRC holds, but the flags rather say FACCH: nothing for a speech codec */
	UM_TRAFFIC_SPEECH  /* no CRC holds, and the flags do not say FACCH: other traffic */
};

typedef struct um_traffic_block {
	um_slot_block block;   /* of SACCH as um_slot writes it; else the report of um_receive_facch_f_erasing or of um_receive_facch_h_erasing,
	                        * with UM_FACCH as channel and no erasure: `erasure` below has it */
	int32_t flags;         /* the sum of the eight stealing flags, negative if they rather say FACCH; not written of SACCH */
	uint8_t kind;          /* um_traffic_kind */
	int8_t bursts[4][148]; /* the halves joined to a block of four normal bursts, as um_send_block makes them; not written of SACCH */
	um_facch_erasure erasure; /* which of the bursts was erased, and the wrong training bits of each; not written of SACCH */
} um_traffic_block;

enum UM_OCTET um_heard {
	UM_TRAFFIC_TAKEN,    /* the frame was taken; no block is complete */
	UM_TRAFFIC_BLOCK,    /* the frame was taken; a block is complete and written */
	UM_TRAFFIC_EARLIER,  /* a block that ended before this frame is written; the frame is not taken yet */
	UM_TRAFFIC_NO_SOFT,  /* a soft bit is -128; this answer and all below write nothing */
	UM_TRAFFIC_NONE,     /* the state is not valid */
	UM_TRAFFIC_NO_FRAME, /* there is no such frame number */
	UM_TRAFFIC_DOUBLED,  /* this frame was taken last */
	UM_TRAFFIC_LATE      /* this frame is before the one taken last: more than half a hyperframe after it */
};

/* Initialises a receiver, with the time slot that both halves of TCH/H have. words is 1 to 64, erasures 0 to 4. False: no such traffic
 * channel, direction, time slot, number of words or of erasures. */
bool um_traffic_new(um_traffic *traffic, uint8_t channel, uint8_t direction, uint8_t timeslot, uint8_t words, uint8_t erasures)
	UM_NONNULL;

/* Takes the burst of a frame. Returns a um_heard; the first that applies from UM_TRAFFIC_NO_SOFT on, else one of the first three. */
UM_ENUM(um_heard) um_traffic_take(um_traffic *traffic, uint32_t frame, const int8_t burst[148], um_traffic_block *block) UM_CALL;

/* Takes a frame whose burst did not come. */
UM_ENUM(um_heard) um_traffic_miss(um_traffic *traffic, uint32_t frame, um_traffic_block *block) UM_CALL;

/* Forgets the frames taken and the blocks being collected; the settings stay. False: a setting is out of range. */
bool um_traffic_restart(um_traffic *traffic) UM_CALL;

/* Ends the blocks of FACCH being collected, at the end of a recording, one a call. UM_TRAFFIC_EARLIER: one is written. UM_TRAFFIC_TAKEN:
 * none is left. UM_TRAFFIC_NONE: the state is not valid. um_slot_end of `sacch` ends the block of SACCH. */
UM_ENUM(um_heard) um_traffic_end(um_traffic *traffic, um_traffic_block *block) UM_CALL;

/* A sender of a traffic channel: makes of blocks the bursts of FACCH and speech, by their frame numbers.
 *
 * Each fourth traffic burst begins a block of four joined bursts, as um_send_block makes them: one of FACCH, or one of speech, whose
 * stealing flags are 0. At full rate that is a frame of speech, at half rate two of them, which FACCH steals both. The block that was given
 * last waits for the next such frame; FACCH goes before speech. A burst carries halves of two blocks, and none where neither has one there:
 * nothing is to be sent then. SACCH is the caller's.
 *
 *   if (um_datalink_next(&link, ..) == UM_END_DONE) um_traffic_sender_facch(&sender, octets);
 *   else if (there is speech) um_traffic_sender_speech(&sender, block);
 *   if (um_traffic_sender_burst(&sender, frame, burst) == UM_SENDING_BURST) transmit(burst); */
typedef struct um_traffic_sent {
	uint8_t kind;           /* 0 no block, 1 speech, 2 FACCH */
	uint8_t bursts[4][148]; /* the joined bursts */
} um_traffic_sent;

typedef struct um_traffic_sender {
	uint32_t first;          /* the burst with which `begun` began, counted in traffic bursts of the hyperframe; UM_FRAMES: none */
	uint8_t channel;         /* um_traffic_channel */
	uint8_t direction;       /* um_direction */
	uint8_t tsc;             /* the training sequence code of FACCH */
	um_traffic_sent waiting; /* the block that begins next */
	um_traffic_sent begun;   /* the block that began last */
	um_traffic_sent before;  /* the block before it */
} um_traffic_sender;

enum UM_OCTET um_sending {
	UM_SENDING_BURST,      /* the burst is written */
	UM_SENDING_NOTHING,    /* no block has a half in it: nothing is to be sent; this answer and all below write no burst */
	UM_SENDING_UNPLACED,   /* the frame is none of the traffic channel: of SACCH, of the other half or idle */
	UM_SENDING_NONE,       /* the state is not valid */
	UM_SENDING_NO_FRAME,   /* there is no such frame number */
	UM_SENDING_LATE        /* this frame is before those of the blocks being sent: more than half a hyperframe after them */
};

/* Initialises a sender that has no block. False: no such traffic channel or direction, or tsc is above 7. */
bool um_traffic_sender_new(um_traffic_sender *sender, uint8_t channel, uint8_t direction, uint8_t tsc) UM_NONNULL;

/* Gives a block of FACCH, in place of speech that waits. False: a block of FACCH waits, or tsc of the sender is above 7. */
bool um_traffic_sender_facch(um_traffic_sender *sender, const uint8_t octets[23]) UM_CALL;

/* Gives a block of speech, in place of one that waits. False: a block of FACCH waits, which steals its place, or an octet is neither 0 nor
 * 1. */
bool um_traffic_sender_speech(um_traffic_sender *sender, const uint8_t block[4][148]) UM_CALL;

/* Writes the burst of a frame. If a block may begin in this frame, the one that waits begins; the halves of no block are zeros. Asked for a
 * frame again, it writes the same burst. */
UM_ENUM(um_sending) um_traffic_sender_burst(um_traffic_sender *sender, uint32_t frame, uint8_t burst[148]) UM_CALL;

/* Ciphering (3GPP TS 43.020, C.1): the 114 coded bits of a normal burst, places 3 to 59 and 88 to 144, by a key stream that the caller has
 * (libosmogsm's osmo_a5). Stealing flags, training sequence and tail bits are not ciphered. What is ciphered twice is as it was. */

/* Ciphers or deciphers the bits of a burst. False: an octet of burst or stream is neither 0 nor 1. */
bool um_cipher_bits(uint8_t burst[148], const uint8_t stream[114]) UM_CALL;

/* Deciphers soft bits: changes the sign where the stream has 1. False: a soft bit is -128, or an octet of stream is neither 0 nor 1. */
bool um_soft_cipher(int8_t burst[148], const uint8_t stream[114]) UM_CALL;

/* LAPDm frames, formats A and B (3GPP TS 44.006). */

enum um_kind { UM_I, UM_RR, UM_RNR, UM_REJ, UM_SABM, UM_DM, UM_UI, UM_DISC, UM_UA };
enum um_channel { UM_SDCCH, UM_SACCH };
enum UM_OCTET um_reading {
	UM_FRAME,     /* the octets are a frame */
	UM_LPD,       /* another link protocol */
	UM_EA,        /* the address field continues: EA is 0 */
	UM_CONTROL,   /* an undefined control octet */
	UM_EL,        /* the length field continues: EL is 0 */
	UM_LENGTH,    /* more information than fits, or than the kind carries */
	UM_EMPTY,     /* an I frame without information */
	UM_MORE,      /* M is set in a frame other than I */
	UM_NO_CHANNEL /* no such channel */
};

typedef struct um_frame {
	uint8_t kind;     /* um_kind */
	uint8_t sapi;     /* 0 to 7 */
	uint8_t cr;       /* command/response */
	uint8_t pf;       /* poll or final */
	uint8_t ns, nr;   /* 0 to 7 if the kind has them, else 0 */
	uint8_t more;     /* M of an I frame, else 0 */
	uint8_t count;    /* octets of information: at most 20 on SDCCH, 18 on SACCH; 0 in RR, RNR, REJ, DM and DISC */
	uint8_t info[20]; /* the information, followed by zeros */
} um_frame;

/* Decodes the frame in a block on a channel. Returns a um_reading. On SACCH the two layer 1 octets at the start are ignored. */
UM_ENUM(um_reading) um_read_frame(const uint8_t octets[23], uint8_t channel, um_frame *frame) UM_CALL;

/* Encodes a frame into its canonical block: layer 1 octets 00, fill octets 2b. In a field of one bit any value but 0 means 1. Fields
 * that the kind does not have are ignored. False: the fields describe no frame that fits the channel. */
bool um_write_frame(const um_frame *frame, uint8_t channel, uint8_t octets[23]) UM_CALL;

/* Format B4: the network's UI frames of SAPI 0 on SACCH, with system information, have 19 octets and no length octet. The octets do not
 * tell the format: call um_read_b4 first for each block of SACCH from a network, and um_datalink_take or um_read_frame if it is false. */

/* Reads the 19 octets of a frame of format B4 in a block; the layer 1 octets and P may have any value. False: the address octet is not 03, or
 * the control octet is neither 03 nor 13. */
bool um_read_b4(const uint8_t octets[23], uint8_t info[19]) UM_CALL;

/* Writes a block with a frame of format B4, with P = 0. System information begins with its L2 pseudo length: 49 for 5, 2d for 6. */
void um_write_b4(const uint8_t layer1[2], const uint8_t info[19], uint8_t octets[23]) UM_NONNULL;

/* Endpoints: one end of a LAPDm link in acknowledged mode (3GPP TS 44.006, 5), the mobile's or the network's.
 *
 * An endpoint does no I/O and has no timer. The caller sends the frames that each call writes into a um_effects, in order, passes
 * each received block to um_end_take, and calls um_end_timer on T200 expiry. T200 restarts whenever a SABM, DISC or I frame goes on
 * the air, and stops when no frame awaits an answer (um_end_timer then returns UM_END_NOT_RUNNING).
 *
 * The state is plain numbers and arrays: it can be copied, or saved and restored. Each call tests it. If the state is not valid, the
 * call returns UM_END_NONE and writes nothing. In what it writes, each call writes zeros after each count. A count of 252 to 255 octets
 * is refused: a message is then too long, a state invalid. The test also accepts some states that no sequence of calls reaches:
 * `retries` above 5 and `repeats` above 23 on SDCCH or 5 on SACCH (N200), where um_end_timer then closes the link, and `rejecting` set
 * before the link is open. Two states that calls wrote have the same 2581 octets (the rest is padding) if they are states of the same
 * endpoint. Callers need not read the state: the effects report everything. */

enum um_role { UM_MOBILE, UM_NETWORK };
enum um_state { UM_IDLE, UM_OPENING, UM_OPEN, UM_CLOSING, UM_CLOSED };
enum um_part { UM_PART_OPEN, UM_PART_WHOLE, UM_PART_OVER };

typedef struct um_message {
	uint8_t count;       /* number of octets */
	uint8_t octets[255]; /* the octets; those from index count on are ignored on input and zeros on output */
} um_message;

typedef struct um_end {
	uint64_t done;      /* number of messages completely acknowledged */
	uint8_t role;       /* um_role */
	uint8_t sapi;       /* 0 signalling, 3 short messages */
	uint8_t channel;    /* um_channel */
	uint8_t state;      /* um_state */
	uint8_t retries;    /* retransmissions of the SABM or DISC that awaits an answer */
	uint8_t vs, va, vr; /* V(S), V(A), V(R): 0 to 7 */
	uint8_t repeats;    /* retransmissions of the outstanding I frame */
	uint8_t rejecting;  /* whether a REJ was sent and no I frame accepted since; any value but 0 means yes */
	uint8_t place;      /* index of the outstanding segment, or of the next one, in the first message held */
	uint8_t held_count; /* number of messages held, at most 8 */
	uint8_t part;       /* um_part: what `joined` is */
	um_message kept;    /* the information of the SABM sent, or of the one that opened the link */
	um_message joined;  /* the segments received so far of a message, or the last complete message */
	um_message held[8]; /* the messages not yet completely acknowledged, in the order of the um_end_send calls */
} um_end;

enum um_notice_kind {
	UM_NO_NOTICE,
	UM_OPENED,   /* the link is open; message: the information of the SABM */
	UM_GOT,      /* a message was received completely */
	UM_UNIT,     /* a message was received in a UI frame */
	UM_ACKED,    /* a message is completely acknowledged; number: 1 for the first message sent */
	UM_OVERSIZE, /* a received message was too long and is discarded */
	UM_ENDED     /* the link is closed; reason: why */
};
enum um_reason {
	UM_CONTENTION, /* the network answered another mobile: contention is lost */
	UM_FAILED,     /* N200 retransmissions without an answer, or the peer has no link */
	UM_REFUSED,    /* the peer refused to open the link */
	UM_RELEASED    /* one of the endpoints closed the link */
};

typedef struct um_notice {
	uint64_t number;    /* for UM_ACKED, else 0 */
	uint8_t kind;       /* um_notice_kind */
	uint8_t reason;     /* for UM_ENDED: um_reason, else 0 */
	um_message message; /* for UM_OPENED, UM_GOT and UM_UNIT, else empty */
} um_notice;

typedef struct um_effects {
	um_notice notices[3];  /* the notices in order; zeros from notice_count on */
	uint8_t notice_count;
	uint8_t frame_count;
	uint8_t frames[2][23]; /* the blocks to send, in order; zeros from frame_count on */
} um_effects;

enum UM_OCTET um_answer {
	UM_END_DONE,        /* the state and the effects are written; every other answer writes nothing */
	UM_END_NOT_IDLE,    /* the link was opened already; um_datalink_establish: it is being opened or released */
	UM_END_NOT_OPEN,    /* the link is not open */
	UM_END_NOT_RUNNING, /* no frame awaits an answer */
	UM_END_EMPTY,       /* the message is empty; um_datalink_unacked: there is no such message */
	UM_END_TOO_LONG,    /* the message is too long */
	UM_END_FULL,        /* eight messages are not completely acknowledged yet */
	UM_END_NONE,        /* the state is not valid */
	UM_END_NO_CALL,     /* this call cannot open the link: wrong SAPI, or SAPI 0 at the network */
	UM_END_NO_FRAME,    /* the octets are not a frame; um_read_frame returns the reason */
	UM_END_FREE         /* um_datalink_next: nothing is to be sent in this slot, and the block written is the fill frame */
};

/* Initialises an endpoint. False: no such role, SAPI (0 or 3) or channel. */
bool um_end_new(um_end *end, uint8_t role, uint8_t sapi, uint8_t channel) UM_NONNULL;

/* Opens the link of SAPI 0, at the mobile, with contention resolution: info, 1 to 20 octets (18 on SACCH), identifies the mobile.
 * Returns a um_answer, as the other calls do. If several apply, UM_END_NONE and UM_END_NO_CALL come first, then the order of the
 * enum decides. */
UM_ENUM(um_answer) um_end_open(um_end *end, const um_message *info, um_effects *effects) UM_CALL;

/* Opens the link of SAPI 3, at either end. */
UM_ENUM(um_answer) um_end_open_bare(um_end *end, um_effects *effects) UM_CALL;

/* Sends a message of 1 to 251 octets over the open link, in as many I frames as it needs. Each follows once the one before it is
 * acknowledged. */
UM_ENUM(um_answer) um_end_send(um_end *end, const um_message *message, um_effects *effects) UM_CALL;

/* Sends 1 to 20 octets (18 on SACCH) in one UI frame, unacknowledged, in any state. */
UM_ENUM(um_answer) um_end_unit(const um_end *end, const um_message *message, um_effects *effects) UM_CALL;

/* Releases the link. Messages not acknowledged are discarded. */
UM_ENUM(um_answer) um_end_close(um_end *end, um_effects *effects) UM_CALL;

/* T200 has expired: retransmits the frame that awaits an answer, or gives the link up after N200 retransmissions.
 *
 * T200 counts from the time at which the block goes on the air, not from the call that wrote it. It must exceed the round trip,
 * including everything that the peer sends before the answer. A retransmission replaces a copy that is still queued. If T200 expires
 * while the answer is in transit, messages stay intact, but from then on each I frame is sent twice and every second answer is a REJ,
 * until the endpoint has nothing left to send. If T200 always expires too early, links fail although no frame is lost. To end the
 * doubling, pass each REJ to um_end_take as an RR with the same N(R); delivery is still guaranteed.
 * A um_datalink (below) manages T200 for both links of a channel. */
UM_ENUM(um_answer) um_end_timer(um_end *end, um_effects *effects) UM_CALL;

/* Writes the fill frame, for a block in which nothing else is to be sent. */
UM_ENUM(um_answer) um_end_idle(const um_end *end, um_effects *effects) UM_CALL;

/* Processes a received block. */
UM_ENUM(um_answer) um_end_take(um_end *end, const uint8_t octets[23], um_effects *effects) UM_CALL;

/* Sides: both links of a mobile, or of the network, on one channel: SAPI 0 for signalling and SAPI 3 for short messages. Each call
 * acts on the endpoint of its SAPI as the um_end call of the same name does, and leaves the other one unchanged. Each link has its
 * own T200.
 *
 * The answers are those of the um_end calls. In addition, UM_END_NONE means that link0 and link3 do not match (wrong SAPI, or
 * different roles or channels), and UM_END_NO_CALL that the SAPI is neither 0 nor 3. */
typedef struct um_side {
	um_end link0; /* the endpoint of the SAPI 0 link */
	um_end link3; /* the endpoint of the SAPI 3 link */
} um_side;

/* Initialises a side. False: no such role or channel. */
bool um_side_new(um_side *side, uint8_t role, uint8_t channel) UM_NONNULL;

/* Opens the link of SAPI 0, at the mobile, as um_end_open does. */
UM_ENUM(um_answer) um_side_open(um_side *side, const um_message *info, um_effects *effects) UM_CALL;

/* Opens the link of SAPI 3, at either side. */
UM_ENUM(um_answer) um_side_open_bare(um_side *side, um_effects *effects) UM_CALL;

/* Sends a message of 1 to 251 octets over the open link of this SAPI. */
UM_ENUM(um_answer) um_side_send(um_side *side, uint8_t sapi, const um_message *message, um_effects *effects) UM_CALL;

/* Sends 1 to 20 octets (18 on SACCH) in one UI frame of this SAPI, unacknowledged, in any state. */
UM_ENUM(um_answer) um_side_unit(const um_side *side, uint8_t sapi, const um_message *message, um_effects *effects) UM_CALL;

/* Releases the link of this SAPI. Messages not acknowledged are discarded. */
UM_ENUM(um_answer) um_side_close(um_side *side, uint8_t sapi, um_effects *effects) UM_CALL;

/* T200 of the link of this SAPI has expired. */
UM_ENUM(um_answer) um_side_timer(um_side *side, uint8_t sapi, um_effects *effects) UM_CALL;

/* Writes the fill frame, for a block in which nothing else is to be sent. */
UM_ENUM(um_answer) um_side_idle(const um_side *side, um_effects *effects) UM_CALL;

/* Processes a received block at the endpoint of its SAPI, and writes that SAPI, 0 or 3, to *sapi. A frame of another SAPI is ignored:
 * *sapi is then 0, and the effects are empty. UM_END_NO_FRAME: the octets are not a frame. */
UM_ENUM(um_answer) um_side_take(um_side *side, const uint8_t octets[23], uint8_t *sapi, um_effects *effects) UM_CALL;

/* Data links: one side of a channel WITH its loop. A data link holds both ends of the side, SAPI 0 and SAPI 3, and decides what goes
 * into each slot. A slot is the time of one block each way (51 TDMA frames on SDCCH, 102 on SACCH). In each slot call um_datalink_take
 * with what arrived, if anything did, then the calls of layer 3, then um_datalink_next for the block to send:
 *
 *   um_datalink link;
 *   if (!um_datalink_new(&link, UM_MOBILE, UM_SDCCH, 4, 6) || um_datalink_open(&link, &info) != UM_END_DONE) ..
 *   for (;;) {
 *           if (received(block) && um_datalink_take(&link, block, &report) == UM_END_DONE) ..      // handle report
 *           if (um_datalink_next(&link, layer1, block, &report) != UM_END_NONE) ..                // handle report, transmit block
 *   }
 *
 * After the notice UM_ENDED go on: the answer to the other side's release goes out in the next slot. Go on until the link is idle
 * (um_datalink_idle of um_more.h), and for two T200 more where blocks are lost: the other side repeats a release that is not answered.
 *
 * There is no queue and no timer: the frame that awaits an answer is made in its slot, and T200 counts slots. T200 is at least 2 + 2d,
 * where a block arrives d slots later than the slot after it was sent, and the same at both sides; 4 serves d = 0 and 1. For SAPI 3 take
 * two slots more.
 *
 * um_datalink_next and um_datalink_take write only the link that sends, is given up or takes a frame other than UI; of the other they
 * write at most `clock`. The other calls write both links.
 *
 * UI frames stay outside: if um_datalink_next returns UM_END_FREE, the slot is free, and um_datalink_unit makes a block for it.
 *
 * The two layer 1 octets of a block on SACCH are the caller's: um_datalink_take ignores them, and um_datalink_next and
 * um_datalink_unit write the two of `layer1` (on SDCCH they ignore `layer1`).
 *
 * The SABM of the other side opens again a link that is open here, once an I, RR, RNR or REJ was received; before that, it is a repeat. At
 * a network a SABM without information opens the link of SAPI 0 again at once if the mobile had opened it with some: the mobile returns.
 * So a second UM_OPENED without UM_ENDED between says that the other side has opened the link again. What was not acknowledged is gone, and
 * so is what the other side sent before and this side did not receive. Layer 3 sends again what it still wants to send. A SABM that
 * arrives while the link is being released here is refused: the other side reports UM_ENDED, UM_REFUSED, and may open again.
 *
 * At a mobile, a frame of SAPI 3 is dropped while SAPI 0 is not established: on SDCCH the data link knows; on SACCH the caller says it
 * with um_datalink_main. */
typedef struct um_timed_end {
	um_end end;
	uint8_t t200;       /* T200 in slots, not 0 */
	uint8_t sent;       /* whether the frame that awaits an answer was sent; any value but 0 means yes */
	uint8_t clock;      /* slots until that frame is due, at most t200; 0: due */
	uint8_t owed;       /* whether `answer` waits for its slot; any value but 0 means yes */
	uint8_t answer[23]; /* a block with a UA, DM, RR or REJ, as calls write it; zeros if none is owed */
	uint8_t heard;      /* whether an I, RR, RNR or REJ was received in UM_OPEN; any value but 0 means yes */
} um_timed_end;

typedef struct um_datalink {
	um_timed_end link0; /* SAPI 0 */
	um_timed_end link3; /* SAPI 3 */
	uint8_t heard0;     /* whether a frame of SAPI 0 other than UI was taken since um_datalink_next; any value but 0 means yes */
	uint8_t main;       /* what um_datalink_main said last; any value but 0 means yes */
} um_datalink;

typedef struct um_report {
	um_notice notices[3];   /* the notices in order; zeros from notice_count on */
	uint8_t sapis[3];       /* the SAPI of each notice, 0 or 3; zeros from notice_count on */
	uint8_t notice_count;
} um_report;

/* How the link of SAPI 0 is established: by the mobile, with contention resolution (UM_BY_CONTENTION), or by either side without
 * information, as SAPI 3 is (UM_NORMAL). UM_NORMAL is for the channel of an assignment or a handover. A mobile that returns to the old
 * channel calls um_datalink_establish on the data link that it kept. With UM_NORMAL `link0.end.sapi` in the struct is 3, and so is the
 * SAPI in `link0.answer`; the blocks that go out carry SAPI 0. */
enum um_establishment { UM_BY_CONTENTION, UM_NORMAL };

/* The calls return a um_answer. Unless it is UM_END_DONE, or UM_END_FREE of um_datalink_next, nothing is written. UM_END_NONE: the
 * struct is no data link; this comes first. UM_END_NO_CALL: the SAPI is neither 0 nor 3, or the call is um_datalink_open at the network or
 * on a data link of normal establishment. */

/* Initialises a data link whose SAPI 0 is established with contention resolution. t200 of SAPI 0 and t200_sapi3 of SAPI 3 are in slots.
 * False: no such role or channel, or a T200 of 0. */
bool um_datalink_new(um_datalink *link, uint8_t role, uint8_t channel, uint8_t t200, uint8_t t200_sapi3) UM_NONNULL;

/* Initialises a data link with this um_establishment of SAPI 0. False: as um_datalink_new, or there is no such um_establishment. */
bool um_datalink_new_for(um_datalink *link, uint8_t role, uint8_t channel, uint8_t establishment, uint8_t t200,
                         uint8_t t200_sapi3) UM_NONNULL;

/* Whether the struct is a data link (one that was stored and read back, say). All other calls test it too. */
bool um_datalink_valid(const um_datalink *link) UM_CALL;

/* Opens the link of SAPI 0, at the mobile, with contention resolution: info, 1 to 20 octets (18 on SACCH), identifies the mobile. */
UM_ENUM(um_answer) um_datalink_open(um_datalink *link, const um_message *info) UM_CALL;

/* Opens the link of this SAPI without information, at either side. UM_END_NOT_IDLE: it is being opened or released. If it is closed or
 * open, its end starts afresh: what was not acknowledged is gone (read it before by um_datalink_unacked). The end of the other
 * side starts afresh too when the SABM arrives, if it is closed, or if it is open and has received an I, RR, RNR or REJ; it reports
 * UM_OPENED again.
 * At the side that calls, SAPI 0 of UM_BY_CONTENTION becomes SAPI 0 of UM_NORMAL. So it does at a network that receives this SABM while
 * its link is open: the mobile returns to this channel. Otherwise a side of UM_BY_CONTENTION does not take the SABM: a mobile answers with
 * a DM while its link is idle or closed. */
UM_ENUM(um_answer) um_datalink_establish(um_datalink *link, uint8_t sapi) UM_CALL;

/* um_datalink_establish of SAPI 3. */
UM_ENUM(um_answer) um_datalink_open_bare(um_datalink *link) UM_CALL;

/* Sends a message of 1 to 251 octets over the open link of this SAPI. The link holds at most eight messages that are not acknowledged;
 * then UM_END_FULL. */
UM_ENUM(um_answer) um_datalink_send(um_datalink *link, uint8_t sapi, const um_message *message) UM_CALL;

/* Writes one of the messages that were passed to um_datalink_send and are not completely acknowledged: that with this index, from 0 for the
 * oldest. Layer 3 sends them again, in order, over the next channel or opening; the other side may have received the first of them. They
 * can still be read after UM_ENDED; a new opening and um_datalink_close_local drop them. UM_END_EMPTY: no message has this index. */
UM_ENUM(um_answer) um_datalink_unacked(const um_datalink *link, uint8_t sapi, uint8_t index, um_message *message) UM_CALL;

/* Writes a UI frame with 1 to 20 octets (18 on SACCH) to `block`, for a slot in which um_datalink_next returned UM_END_FREE. */
UM_ENUM(um_answer) um_datalink_unit(const um_datalink *link, uint8_t sapi, const um_message *message, const uint8_t layer1[2],
                                    uint8_t block[23]) UM_CALL;

/* Releases the link of this SAPI. Messages not acknowledged are discarded. */
UM_ENUM(um_answer) um_datalink_close(um_datalink *link, uint8_t sapi) UM_CALL;

/* Local end release: the end of this SAPI starts afresh (idle, nothing held). Nothing is sent and nothing reported. */
UM_ENUM(um_answer) um_datalink_close_local(um_datalink *link, uint8_t sapi) UM_CALL;

/* At a mobile on SACCH: says whether SAPI 0 of the main channel is established (not said: no). On SDCCH and at the network it has no
 * effect. */
UM_ENUM(um_answer) um_datalink_main(um_datalink *link, bool established) UM_CALL;

/* Processes a received block. UM_END_NO_FRAME: the octets are not a frame. */
UM_ENUM(um_answer) um_datalink_take(um_datalink *link, const uint8_t block[23], um_report *report) UM_CALL;

/* Writes the block for this slot. UM_END_DONE: a frame of SAPI 0 or 3. UM_END_FREE: nothing is to be sent, and the block is the fill
 * frame. The report has the links that were given up (UM_ENDED, UM_FAILED). */
UM_ENUM(um_answer) um_datalink_next(um_datalink *link, const uint8_t layer1[2], uint8_t block[23], um_report *report) UM_CALL;

/* What a block shows of the other side, if that breaks the rules. */
enum UM_OCTET um_fault {
	UM_NO_FAULT, /* nothing; also if the octets are not a frame, or the struct is no data link */
	UM_FAULT_NR, /* an N(R) on the open link that is outside V(A) to V(S) */
	UM_FAULT_UA, /* a UA on the open link */
	UM_FAULT_DM  /* a DM with F = 1 on the open link that answers no repeat with P = 1 */
};

/* The um_fault of a block that arrived. Call it before um_datalink_take, which takes the block in any case: nothing follows from a fault. */
UM_ENUM(um_fault) um_datalink_fault(const um_datalink *link, const uint8_t block[23]) UM_CALL;

/* An answer said twice: an RR that is lost costs the other side a T200, and one that comes twice changes nothing there. */
typedef struct um_said {
	uint8_t waits;     /* whether `block` waits for a free slot; any value but 0 means yes. A struct of zeros: nothing was said */
	uint8_t block[23]; /* a block with an RR with F = 0 */
} um_said;

/* After um_datalink_next, which returned `next` and wrote `block`: an RR with F = 0 goes once more into the next slot, if that is free. It
 * returns UM_END_DONE if `block` has a frame now, UM_END_FREE if it has the fill frame. UM_END_NONE: there is no such channel, or `next` is
 * neither of these two; nothing is written then. */
UM_ENUM(um_answer) um_say_again(um_said *said, uint8_t channel, uint32_t next, uint8_t block[23]) UM_CALL;

#ifdef __cplusplus
}
#endif
#endif
