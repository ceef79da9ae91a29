/* A host that links the shared library: header and library have one version. */
#include <fanthrig/lc3.h>

#include <stdio.h>

int main(void) {
    printf("version: %d in the header, %u in the library\n", LC3_VERSION, (unsigned)lc3_version());
    return lc3_version() != LC3_VERSION;
}
