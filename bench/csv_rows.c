/* The rows of `ncc csv` for the files of bench/values.py, by a program that knows each file by heart:
 * `csv_rows FILE TYPE BEGIN RANK LENGTH.. STRIDE`, where TYPE is b, s, f or d, or F or D for floats and doubles
 * by printf with 9 and 17 digits, and STRIDE is that along the last dimension. It checks nothing. */
#include <stdint.h>
#include <stdio.h>
#include <stdlib.h>
#include <string.h>

static char out[1 << 16];
static size_t used;

static void flush(void) {
    fwrite(out, 1, used, stdout);
    used = 0;
}

static void decimal(uint64_t n) {
    char digits[20];
    int count = 0;
    do {
        digits[count++] = '0' + n % 10;
        n /= 10;
    } while (n);
    while (count)
        out[used++] = digits[--count];
}

static void signed_decimal(int64_t n) {
    if (n < 0)
        out[used++] = '-';
    decimal(n < 0 ? -n : n);
}

static void hexadecimal(const unsigned char *bytes, int size) {
    static const char digits[] = "0123456789abcdef";
    out[used++] = '0';
    out[used++] = 'x';
    for (int i = 0; i < size; i++) {
        out[used++] = digits[bytes[i] >> 4];
        out[used++] = digits[bytes[i] & 15];
    }
}

static void rounded(const unsigned char *bytes, int size) {
    uint64_t bits = 0;
    for (int i = 0; i < size; i++)
        bits = bits << 8 | bytes[i];
    if (size == 4) {
        uint32_t half = bits;
        float single;
        memcpy(&single, &half, 4);
        used += sprintf(out + used, "%.9g", single);
    } else {
        double wide;
        memcpy(&wide, &bits, 8);
        used += sprintf(out + used, "%.17g", wide);
    }
}

static void value(char type, const unsigned char *bytes) {
    switch (type) {
    case 'b':
        signed_decimal((int8_t)bytes[0]);
        break;
    case 's':
        signed_decimal((int16_t)(bytes[0] << 8 | bytes[1]));
        break;
    case 'f':
        hexadecimal(bytes, 4);
        break;
    case 'F':
        rounded(bytes, 4);
        break;
    case 'D':
        rounded(bytes, 8);
        break;
    default:
        hexadecimal(bytes, 8);
    }
}

int main(int argc, char **argv) {
    FILE *file = fopen(argv[1], "rb");
    char type = argv[2][0];
    int rank = atoi(argv[4]), size = type == 'b' ? 1 : type == 's' ? 2 : type == 'f' || type == 'F' ? 4 : 8;
    uint64_t lengths[8], index[8] = {0}, step = strtoull(argv[5 + rank], 0, 10);
    for (int i = 0; i < rank; i++)
        lengths[i] = strtoull(argv[5 + i], 0, 10);
    fseek(file, atol(argv[3]), SEEK_SET);
    uint64_t row = lengths[rank - 1];
    unsigned char *bytes = malloc(65536);
    uint64_t held = 0, at = 0;
    static const char *const names[] = {"time,lat,lon,v\n", "time,v\n"};
    used = strlen(strcpy(out, names[rank == 1]));
    for (;;) {
        for (uint64_t i = 0; i < row; i++) {
            if (at == held) {
                held = fread(bytes, 1, 65536, file);
                at = 0;
            }
            if (i % step == 0) {
                if (used > sizeof out - 200)
                    flush();
                for (int k = 0; k + 1 < rank; k++) {
                    decimal(index[k]);
                    out[used++] = ',';
                }
                decimal(i);
                out[used++] = ',';
                value(type, bytes + at);
                out[used++] = '\n';
            }
            at += size;
        }
        int k = rank - 2;
        while (k >= 0 && ++index[k] == lengths[k])
            index[k--] = 0;
        if (k < 0)
            break;
    }
    flush();
    return 0;
}
