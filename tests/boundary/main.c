/* The C boundary: version, sizes, offsets and constants of include/planner.h are those of the library, and its word on the stack is true. Linked with
 * libplanner_c.a.
 * The library cannot tell its layout, so the checks find it by what the calls do. Last line: 'N passed, M failed'. */
#include "check.h"

int main(void) {
    check_version();
    check_layout();
    check_fields();
    check_answers();
    check_refusals();
    check_limits();
    check_texts();
    check_judge();
    check_threads();
    check_stack();
    return counted();
}
