/* The calls as C has them, and short names for the numbers that they take and hand back. */
#pragma once

#include "../../include/ravelbeam.h"

typedef uint64_t word;
typedef uint32_t number;
typedef uint16_t entry;
typedef size_t size;
