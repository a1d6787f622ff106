/* Which version is linked. It is not proved. */
#include "dmclock.h"

uint32_t dmc_version(void) { return DMC_VERSION; }
