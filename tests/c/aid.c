/* Tests of what an aid uses: libwriter.a, and what the header has by itself. A box reads what it
 * wrote. */
#include "check.h"
#include "tests.h"

int main(void)
{
    test_sizes();
    test_texts();
    test_writer();
    test_pieces();
    return check_report();
}
