/*
 * Has each number of millivolts from 0 to 255 given its step, by the name of the kind, scd or ocd, and prints the steps. The same text is
 * linked with the port's library and with the Rust's; what the two print must be the same before anything is counted.
 */
#include "calls.h"
#include <stdio.h>
#include <string.h>

int main(int argc, char **argv) {
    int scd = argc == 2 && strcmp(argv[1], "scd") == 0;
    if (!scd && (argc != 2 || strcmp(argv[1], "ocd") != 0)) return 2;
    for (int mv = 0; mv < 256; mv++) printf("%d\n", scd ? bench_scd_from_mv((uint8_t)mv) : bench_ocd_from_mv((uint8_t)mv));
    return 0;
}
