/* A file that only includes the header, twice. */
#include "st9.h"
#include "st9.h"
