/* Writes a small netCDF classic file by libncc_c, and then adds a record to it.

     write FILE

   The file has the record dimension `time`, the dimension `x` of length 3, an attribute, and two variables: depth(x) and
   temperature(time, x). The status is 0, 2 for a wrong command line, 3 where a call failed. */
#include "ncc.h"
#include <stdio.h>
#include <stdlib.h>
#include <string.h>
#include <unistd.h>

/* The names, and the values of attributes. */
static uint8_t text[256];
static size_t text_length;

static const ncc_dim *dims;
static const ncc_attr *attrs;
static const ncc_var *vars;
static const uint64_t ids[] = {1, 0, 1};

static uint64_t said(const char *words) {
    uint64_t at = text_length;
    size_t length = strlen(words);
    if (length > sizeof text - text_length) exit(3);
    memcpy(text + text_length, words, length);
    text_length += length;
    return at;
}

static void need(int holds) {
    if (holds) return;
    fputs("write: a call failed\n", stderr);
    exit(3);
}

static void describe(void) {
    static ncc_dim d[2];
    static ncc_attr a[2];
    static ncc_var v[2];
    d[0] = (ncc_dim){.name_at = said("time"), .name_length = 4, .length = 0};
    d[1] = (ncc_dim){.name_at = said("x"), .name_length = 1, .length = 3};
    a[0] = (ncc_attr){.name_at = said("title"), .name_length = 5, .xtype = 2, .count = 5, .values_at = said("a try")};
    a[1] = (ncc_attr){.name_at = said("units"), .name_length = 5, .xtype = 2, .count = 1, .values_at = said("K")};
    v[0] = (ncc_var){.name_at = said("depth"), .name_length = 5, .xtype = 4, .rank = 1, .attrs = 0};
    v[1] = (ncc_var){.name_at = said("temperature"), .name_length = 11, .xtype = 3, .rank = 2, .attrs = 1};
    dims = d, attrs = a, vars = v;
}

/* Puts a number's bytes, the high one first. */
static void put(uint8_t *out, uint64_t number, int size) {
    for (int k = 0; k < size; k++) out[k] = (uint8_t)(number >> 8 * (size - 1 - k));
}

static void write_at(FILE *out, uint64_t place, const void *bytes, size_t count) {
    need(!fseeko(out, (off_t)place, SEEK_SET) && fwrite(bytes, 1, count, out) == count);
}

static void sync_file(FILE *out) { need(!fflush(out) && !fsync(fileno(out))); }

/* The header, the values of `depth`, and one record of `temperature`, with the padding of zeros that it needs. */
static ncc_planned begin(FILE *out) {
    ncc_planned plan;
    ncc_place places[2];
    uint8_t header[1024], values[12], record[8] = {0};
    ncc_plan(1, 1, text, text_length, dims, 2, attrs, 2, vars, 2, ids, 3, places, 2, &plan);
    need(plan.state == NCC_PASSES && plan.record_size <= sizeof record);
    ncc_encode(1, 1, text, text_length, dims, 2, attrs, 2, vars, 2, ids, 3, header, sizeof header, &plan);
    need(plan.state == NCC_PASSES);
    for (int k = 0; k < 3; k++) put(values + 4 * k, (uint64_t)(10 * k), 4);
    for (int k = 0; k < 3; k++) put(record + 2 * k, (uint64_t)(271 + k), 2);
    write_at(out, 0, header, plan.header_length);
    write_at(out, places[0].begin, values, places[0].slab);
    write_at(out, places[1].begin, record, plan.record_size);
    sync_file(out);
    return plan;
}

/* One more record: its bytes, and only when they are on the disk the number of records. */
static void add(FILE *out, const ncc_planned *plan) {
    uint8_t header[1024], record[8] = {0}, count[8];
    ncc_recorded next;
    need(!fseeko(out, 0, SEEK_SET) && fread(header, 1, plan->header_length, out) == plan->header_length);
    ncc_record(header, plan->header_length, plan->file_length, NCC_LIMIT, count, sizeof count, &next);
    need(next.state == NCC_PASSES);
    for (int k = 0; k < 3; k++) put(record + 2 * k, (uint64_t)(281 + k), 2);
    write_at(out, next.place, record, plan->record_size);
    sync_file(out);
    write_at(out, next.count_at, count, next.count_width);
    sync_file(out);
}

int main(int count, char **words) {
    if (count != 2) return 2;
    FILE *out = fopen(words[1], "w+b");
    need(out != NULL);
    describe();
    ncc_planned plan = begin(out);
    add(out, &plan);
    need(!fclose(out));
    return 0;
}
