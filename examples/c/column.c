/* Checks a netCDF classic file by libncc_c and prints a variable, one value a line.

     column FILE              the verdict, and the names of the variables
     column FILE VARIABLE     the values of a variable of a type of at most 4 bytes, or double

   The status is that of `ncc check`: 0, 1 for a fault, 2 for a wrong command line, 3 where a call failed. */
#include "ncc.h"
#include <inttypes.h>
#include <stdio.h>
#include <stdlib.h>
#include <string.h>
#include <sys/stat.h>

typedef struct {
    FILE *in;
    uint64_t length;
    uint8_t *front;
    size_t front_length;
    ncc_verdict verdict;
} file;

typedef struct {
    ncc_dim *dims;
    ncc_attr *attrs;
    ncc_var *vars;
    uint64_t *ids;
    ncc_indexed counts;
} rows;

static void *room(size_t count, size_t size) {
    void *p = calloc(count ? count : 1, size); /* no pointer may be null */
    if (!p) exit(3);
    return p;
}

/* Reads more of the front, until it is settled what the file is. */
static void judge(file *f) {
    size_t want = 65536;
    f->front = NULL;
    do {
        f->front_length = want < f->length ? want : (size_t)f->length;
        free(f->front);
        f->front = room(f->front_length, 1);
        rewind(f->in);
        if (fread(f->front, 1, f->front_length, f->in) != f->front_length) exit(3);
        ncc_judge(f->front, f->front_length, f->length, NCC_LIMIT, &f->verdict);
        want *= 2;
    } while (f->verdict.state == NCC_MORE);
}

static int tell(const file *f) {
    uint8_t name[32];
    const ncc_verdict *v = &f->verdict;
    if (v->state == NCC_PASSES) {
        printf("ok CDF-%" PRIu64 " records %" PRIu64 " variables %" PRIu64 "\n", v->version, v->records, v->vars);
        return 0;
    }
    if (v->state == NCC_FAULT) {
        size_t length = ncc_fault_text(v->kind, name, sizeof name);
        printf("fault %.*s at %" PRIu64 "\n", (int)length, (char *)name, v->at);
        return 1;
    }
    puts("error memory");
    return 3;
}

/* Asks for the counts, then for the rows. */
static void index_rows(const file *f, rows *r) {
    ncc_dim no_dim;
    ncc_attr no_attr;
    ncc_var no_var;
    uint64_t no_id;
    ncc_index(f->front, f->front_length, f->length, NCC_LIMIT, &no_dim, 0, &no_attr, 0, &no_var, 0, &no_id, 0,
              &r->counts);
    if (r->counts.state != NCC_PASSES && r->counts.state != NCC_NO_ROOM) exit(3);
    r->dims = room(r->counts.dims, sizeof *r->dims);
    r->attrs = room(r->counts.attrs, sizeof *r->attrs);
    r->vars = room(r->counts.vars, sizeof *r->vars);
    r->ids = room(r->counts.ids, sizeof *r->ids);
    ncc_index(f->front, f->front_length, f->length, NCC_LIMIT, r->dims, r->counts.dims, r->attrs, r->counts.attrs,
              r->vars, r->counts.vars, r->ids, r->counts.ids, &r->counts);
    if (r->counts.state != NCC_PASSES) exit(3);
}

static uint64_t number(const uint8_t *bytes, uint64_t size) {
    uint64_t n = 0;
    for (uint64_t k = 0; k < size; k++) n = n << 8 | bytes[k];
    return n;
}

static void print_value(uint64_t xtype, uint64_t bits) {
    float single;
    double wide;
    uint32_t word = (uint32_t)bits;
    switch (xtype) {
    case 1: printf("%d\n", (int8_t)bits); break;
    case 3: printf("%d\n", (int16_t)bits); break;
    case 4: printf("%" PRId32 "\n", (int32_t)bits); break;
    case 5: memcpy(&single, &word, 4); printf("%.9g\n", single); break;
    case 6: memcpy(&wide, &bits, 8); printf("%.17g\n", wide); break;
    default: printf("%" PRIu64 "\n", bits);
    }
}

/* Reads the elements of one run, one after another. */
static void print_run(const file *f, const ncc_run *run, uint64_t size, uint64_t xtype) {
    uint8_t bytes[8];
    if (fseeko(f->in, (off_t)run->place, SEEK_SET)) exit(3);
    for (uint64_t k = 0; k < run->count; k++) {
        if (fread(bytes, 1, size, f->in) != size) exit(3);
        print_value(xtype, number(bytes, size));
    }
}

static void print_var(const file *f, const rows *r, uint64_t number_of_var, uint64_t first_id) {
    const ncc_var *var = &r->vars[number_of_var];
    uint64_t *shape = room(var->rank, 8), *start = room(var->rank, 8), *stride = room(var->rank, 8);
    for (uint64_t k = 0; k < var->rank; k++) {
        uint64_t length = r->dims[r->ids[first_id + k]].length;
        shape[k] = length ? length : f->verdict.records;
        stride[k] = 1;
    }
    ncc_run runs[64];
    ncc_stretched answer = {.next = 0};
    do {
        ncc_stretches(var, shape, var->rank, f->verdict.record_size, f->length, start, var->rank, shape, var->rank,
                      stride, var->rank, answer.next, runs, 64, &answer);
        if (answer.state != NCC_PASSES) exit(3);
        for (uint64_t k = 0; k < answer.written; k++) print_run(f, &runs[k], answer.size, var->xtype);
    } while (answer.written == 64);
    free(shape), free(start), free(stride);
}

int main(int count, char **words) {
    file f;
    rows r;
    struct stat is;
    if (count < 2 || count > 3) return 2;
    f.in = fopen(words[1], "rb");
    if (!f.in || fstat(fileno(f.in), &is)) return 3;
    f.length = (uint64_t)is.st_size;
    judge(&f);
    int status = tell(&f);
    if (status) return status;
    index_rows(&f, &r);
    uint64_t first_id = 0;
    for (uint64_t k = 0; k < r.counts.vars; first_id += r.vars[k++].rank) {
        const ncc_var *var = &r.vars[k];
        const char *name = (const char *)f.front + var->name_at;
        if (count == 2) printf("%.*s\n", (int)var->name_length, name);
        else if (strlen(words[2]) == var->name_length && !memcmp(name, words[2], var->name_length))
            print_var(&f, &r, k, first_id);
    }
    return 0;
}
