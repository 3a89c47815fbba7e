/* Decodes LAPDm frames from blocks of SDCCH and SACCH. On SACCH two layer 1 octets come first: power level and timing advance.
 *
 *   cc -Ibindings/c examples/c/frames.c dist/$(uname -m)-linux/libum.a -o frames && ./frames */
#include "um_more.h"
#include <stdio.h>
#include <string.h>

/* The first octets of each block; fill octets 2b follow. */
static const struct { uint8_t channel; const char *first; } blocks[] = {
	{ UM_SDCCH, "013f250524110333198105f4" },                       /* a mobile asks for service */
	{ UM_SDCCH, "0173250524110333198105f4" },                       /* the network's answer */
	{ UM_SDCCH, "03200d063501" },                                   /* ciphering mode command */
	{ UM_SDCCH, "032101" },                                         /* its acknowledgement */
	{ UM_SACCH, "0803030349061d0102030405060708090a0b0c0d0e0f10" }, /* system information 5 */
	{ UM_SDCCH, "0803030349061d0102030405060708090a0b0c0d0e0f10" }, /* the same, read as SDCCH: the address field seems to continue */
	{ UM_SDCCH, "15062100012b" },                                   /* paging on CCCH is not an LAPDm frame, but can look like one */
};

static void read_octets(const char *digits, uint8_t octets[23])
{
	memset(octets, 0x2b, 23);
	for (size_t i = 0; i < strlen(digits) / 2; i++) {
		unsigned octet = 0;
		sscanf(digits + 2 * i, "%2x", &octet);
		octets[i] = (uint8_t)octet;
	}
}

int main(void)
{
	for (size_t i = 0; i < sizeof blocks / sizeof *blocks; i++) {
		uint8_t octets[23], channel = blocks[i].channel;
		um_frame frame;
		read_octets(blocks[i].first, octets);
		printf("%s: ", channel == UM_SACCH ? "SACCH" : "SDCCH");
		enum um_reading reading = um_read_frame(octets, channel, &frame);
		if (reading != UM_FRAME) {
			printf("not a frame (%s)\n", um_reading_name(reading));
			continue;
		}
		if (channel == UM_SACCH)
			printf("power level %u, timing advance %u, ", octets[0] & 31u, octets[1]);
		printf("%s sapi %u cr %u pf %u ns %u nr %u more %u info ", um_kind_name(frame.kind), frame.sapi, frame.cr, frame.pf, frame.ns,
			frame.nr, frame.more);
		for (int k = 0; k < frame.count; k++)
			printf("%02x", frame.info[k]);
		printf("%s\n", frame.count ? "" : "-");
	}
	return 0;
}
