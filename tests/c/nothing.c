/* The header twice, and nothing of it used. */
#include "zones.h"
#include "zones.h"

int nothing(void);

int nothing(void) { return 0; }
