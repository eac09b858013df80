/* The version: the library answers the header's number, by a name that ends in it. */
#include "check.h"

#define NAME(version) planner_version_##version
#define NAMED(version) NAME(version)

void check_version(void) {
    begin("PLANNER_VERSION: planner_version_5 answers it, and its name ends in it");
    same((long)planner_version_5(), PLANNER_VERSION);
    same((long)NAMED(PLANNER_VERSION)(), PLANNER_VERSION);
}
