/* A program that uses Debian's liblc3, a codec, and the LC-3 side by side. */
#include <fanthrig/lc3.h>
#include <lc3.h>
#include <stdio.h>

int main(void) {
    printf("%u %d\n", (unsigned)lc3_version(), lc3_frame_samples(10000, 48000));
    return 0;
}
