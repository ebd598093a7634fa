/* test.c: the tests of whichever library is linked under the kn_ names. */
#include "check.h"

int main(void)
{
    check_begin();
    test_face();
    test_edges();
    test_clauses();
    test_walks();
    test_tell();
    test_damage();
    test_runs();
    test_doors();
    test_drawn_walks();
    return check_report();
}
