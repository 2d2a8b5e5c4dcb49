/* version: what the library says of itself. It is compiled with a line as VERSION. */
#include "vemiktag.h"

const char vemiktag_version[] = VERSION;
