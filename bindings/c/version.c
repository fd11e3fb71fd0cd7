/* The version of the library, for callers that were built with another header. Part of each library of the package. */
#include "dsa_planner.h"

uint32_t dsa_planner_version(void)
{
    return DSA_PLANNER_VERSION;
}
