/* The writes and syncs of `ncc extend` on a file of one short record variable with a 4-byte count: a sync, and N records
   of SIZE bytes from offset PLACE on, the first of them counted as FIRST + 1. */
#include <fcntl.h>
#include <stdio.h>
#include <stdlib.h>
#include <string.h>
#include <unistd.h>

int main(int argc, char **argv) {
    if (argc != 6) return 2;
    int file = open(argv[1], O_RDWR);
    long times = atol(argv[2]), size = atol(argv[3]), place = atol(argv[4]), first = atol(argv[5]);
    char *record = malloc(size);
    if (file < 0 || !record) return 3;
    for (long i = 0; i < size; i += 2) {
        record[i] = (char)0x80;
        record[i + 1] = 1;
    }
    if (times > 0 && fsync(file)) return 3;
    for (long i = 0; i < times; i++) {
        unsigned count = first + i + 1;
        unsigned char field[4] = {count >> 24, count >> 16, count >> 8, count};
        if (pwrite(file, record, size, place + i * size) != size || fsync(file)) return 3;
        if (pwrite(file, field, 4, 4) != 4 || fsync(file)) return 3;
    }
    printf("records %ld\n", first + times);
    return 0;
}
