/* A bare pass of the eexec cipher over so many bytes, written in chunks of 4,096: the least processor time of 25 of them, in
 * seconds, on standard error. */
#include <stdio.h>
#include <stdlib.h>
#include <time.h>
#include <unistd.h>

static unsigned char chunk[4096];

int main(int count, char **words) {
    long bytes = count > 1 ? atol(words[1]) : 0;
    double best = 1e9;
    unsigned char *plain = calloc(bytes ? bytes : 1, 1);
    if (!plain)
        return 1;
    for (int run = 0; run < 25; run++) {
        struct timespec from, to;
        unsigned short key = 55665;
        long in_chunk = 0;
        clock_gettime(CLOCK_PROCESS_CPUTIME_ID, &from);
        for (long at = 0; at < bytes; at++) {
            unsigned char byte = plain[at] ^ (key >> 8);
            key = (byte + key) * 52845u + 22719u;
            chunk[in_chunk++] = byte;
            if (in_chunk == 4096 || at + 1 == bytes) {
                if (write(1, chunk, in_chunk) != in_chunk)
                    return 1;
                in_chunk = 0;
            }
        }
        clock_gettime(CLOCK_PROCESS_CPUTIME_ID, &to);
        double seconds = to.tv_sec - from.tv_sec + (to.tv_nsec - from.tv_nsec) * 1e-9;
        if (seconds < best)
            best = seconds;
    }
    fprintf(stderr, "%.9f", best);
    return 0;
}
