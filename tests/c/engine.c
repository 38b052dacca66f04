/* Tests of what libengine.a and libplay.a export. */
#include "check.h"
#include "tests.h"

int main(void)
{
    test_form();
    test_format();
    test_cases();
    test_audit();
    test_count();
    test_views();
    test_refusals();
    test_lists();
    test_changes();
    test_alike();
    test_restore();
    test_retire();
    test_convert();
    test_convert_2_3();
    test_play();
    return check_report();
}
