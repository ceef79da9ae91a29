/* The header as C and as C++: that it compiles, twice included, is the test. */
#include <fanthrig/lc3.h>
#include <fanthrig/lc3.h>

int main(void) { return 0; }
