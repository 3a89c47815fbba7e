/* UI frames of format B4 on SACCH: libosmogsm's network sends 19 octets and um reads them, um writes them and libosmogsm's mobile hands
 * them up.
 *
 *   b4 COUNT SEED */
#include "side.h"
#include "draw.h"
#include <stdio.h>
#include <stdlib.h>
#include <string.h>

static uint8_t got[64];
static int got_count;

static void report(struct side *s, int link, enum event event, const uint8_t *octets, int number)
{
	(void)s;
	got_count = -1;
	if (link == LINK0 && event == UNIT && number <= (int)sizeof got) {
		got_count = number;
		memcpy(got, octets, (size_t)number);
	}
}

int main(int argc, char **argv)
{
	if (argc != 3)
		return 2;
	int count = atoi(argv[1]), passed = 0;
	uint64_t seed = strtoull(argv[2], NULL, 10);
	quiet_osmo();
	struct side sides[2];
	memset(sides, 0, sizeof sides);
	for (int r = 0; r < 2; r++) {
		sides[r].player = &osmo_player, sides[r].role = (uint8_t)r, sides[r].on = UM_SACCH, sides[r].polled = true;
		sides[r].t200 = 8 * 102, sides[r].report = report;
		osmo_player.begin(&sides[r]);
	}
	for (int i = 0; i < count; i++) {
		um_message info = { .count = 19 };
		uint8_t block[23], layer1[2], read[19];
		for (int k = 0; k < 21; k++)
			*(k < 19 ? &info.octets[k] : &layer1[k - 19]) = (uint8_t)drawn(seed, (uint64_t)i, (uint64_t)k);
		osmo_player.unit(&sides[UM_NETWORK], LINK0, &info);
		bool down = osmo_player.next(&sides[UM_NETWORK], block) && um_read_b4(block, read) && !memcmp(read, info.octets, 19);
		got_count = 0;
		um_write_b4(layer1, info.octets, block);
		osmo_player.take(&sides[UM_MOBILE], block);
		passed += down && got_count == 19 && !memcmp(got, info.octets, 19);
	}
	printf("b4: %d passed, %d failed\n", passed, count - passed);
	for (int r = 0; r < 2; r++)
		osmo_player.end(&sides[r]);
	return passed != count;
}
