/* Prints frames.out: 1,000 frame numbers with T1, T2 and T3 by libosmocore, random but for the first and the last.
 *
 *   cc frames.c -losmogsm -losmocore -o frames && ./frames >frames.out */
#include <osmocom/gsm/gsm_utils.h>
#include <stdio.h>
#include <stdlib.h>

int main(void)
{
	srand(26);
	for (int i = 0; i < 1000; i++) {
		struct gsm_time time;
		uint32_t frame = i == 0 ? 0 : i == 999 ? GSM_MAX_FN - 1 : (uint32_t)(((uint64_t)rand() << 16 ^ (uint64_t)rand()) % GSM_MAX_FN);
		gsm_fn2gsmtime(&time, frame);
		if (gsm_gsmtime2fn(&time) != frame)
			return 1;
		printf("%u %u %u %u\n", frame, time.t1, time.t2, time.t3);
	}
	return 0;
}
