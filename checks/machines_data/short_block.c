/* A caller that breaks the contract: a block that is 92 octets short. AddressSanitizer must find it in the library. */
#include "um.h"
#include <stdlib.h>
int main(void)
{
	int8_t *block = calloc(500, 1);
	um_block_report report;
	return !block || !um_receive_block((const int8_t(*)[148])block, &report);
}
