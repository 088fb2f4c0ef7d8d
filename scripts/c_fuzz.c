/* Calls libncc_c with random arguments: fronts of files with bytes changed, rows and selections of any numbers, and
   arrays of any length, each in memory of its own of exactly its size. scripts/c_fuzz.sh runs it under valgrind.

     c_fuzz CALLS SEED FILE... */
#include "ncc.h"
#include <stdio.h>
#include <stdlib.h>
#include <string.h>

static uint64_t state;

static uint64_t next_number(void) {
    state ^= state << 13, state ^= state >> 7, state ^= state << 17;
    return state;
}

static uint64_t below(uint64_t end) { return end ? next_number() % end : 0; }

/* A number near those at which something changes, or a small one. */
static uint64_t any_number(void) {
    static const uint64_t edges[] = {0, 1, 2, 3, 4, 5, 255, 256, UINT32_MAX, (uint64_t)1 << 32, (uint64_t)1 << 63, UINT64_MAX};
    if (below(3)) return below(12);
    return edges[below(sizeof edges / sizeof *edges)] - below(2);
}

static void *room(size_t count, size_t size) {
    size_t bytes = count * size;
    uint8_t *p = malloc(bytes ? bytes : 1); /* no pointer may be null */
    if (!p) exit(3);
    for (size_t k = 0; k < bytes; k++) p[k] = (uint8_t)next_number();
    return p;
}

static void need(int holds, const char *call) {
    if (holds) return;
    printf("failed: %s answered what it can't\n", call);
    exit(1);
}

typedef struct {
    uint8_t *bytes;
    size_t length;
    uint64_t file_length, limit;
} front;

/* A part of a file, with some bytes changed, and a length of the file that is often right. */
static front any_front(const uint8_t *file, size_t length) {
    front f;
    f.length = below(3) ? length : below(length + 1);
    f.bytes = room(f.length, 1);
    memcpy(f.bytes, file, f.length);
    for (uint64_t k = below(4); f.length && k; k--) f.bytes[below(f.length)] = (uint8_t)any_number();
    f.file_length = below(3) ? length : any_number() + below(length);
    f.limit = below(4) ? NCC_LIMIT : any_number() + below(length);
    return f;
}

static uint64_t *numbers(size_t count) {
    uint64_t *p = room(count, 8);
    for (size_t k = 0; k < count; k++) p[k] = any_number();
    return p;
}

static void notes(const front *f) {
    size_t count = below(4);
    ncc_note *out = room(count, sizeof *out);
    ncc_noted answer;
    ncc_notes(f->bytes, f->length, f->file_length, f->limit, out, count, &answer);
    need(answer.state <= NCC_MISUSED, "ncc_notes");
    free(out);
}

static void record(const front *f) {
    size_t count = below(10);
    uint8_t *out = room(count, 1);
    ncc_recorded answer;
    ncc_record(f->bytes, f->length, f->file_length, f->limit, out, count, &answer);
    need(answer.state <= NCC_NO_ROOM && (answer.state || answer.count_width <= count), "ncc_record");
    free(out);
}

static void select_from(const front *f) {
    size_t rank = below(5), starts = below(8) ? rank : below(5), counts = below(8) ? rank : below(5);
    uint64_t *var = numbers(sizeof(ncc_var) / 8), *shape = numbers(rank), *start = numbers(starts);
    uint64_t *count = numbers(counts), *stride = numbers(rank), *steps = numbers(rank);
    size_t runs = below(5);
    ncc_run *out = room(runs, sizeof *out);
    ncc_stepped stepped;
    ncc_stretched stretched;
    ((ncc_var *)var)->rank = below(8) ? rank : any_number();
    ncc_steps((ncc_var *)var, shape, rank, any_number(), f->file_length, start, starts, count, counts, stride, rank, steps,
              rank, &stepped);
    need(stepped.state <= NCC_NO_ROOM, "ncc_steps");
    ncc_stretches((ncc_var *)var, shape, rank, any_number(), f->file_length, start, starts, count, counts, stride, rank,
                  any_number(), out, runs, &stretched);
    need(stretched.state <= NCC_NO_ROOM && stretched.written <= runs, "ncc_stretches");
    free(var), free(shape), free(start), free(count), free(stride), free(steps), free(out);
}

/* Writes the header again by the rows of the index, some of which are changed. */
static void encode(const front *f, const ncc_indexed *n, ncc_dim *dims, ncc_attr *attrs, ncc_var *vars, uint64_t *ids) {
    static const uint64_t versions[] = {1, 2, 5, 1, 2, 5, 0, 257};
    uint64_t version = versions[below(8)], records = any_number();
    ncc_planned planned, encoded;
    if (n->dims && !below(4)) ((uint64_t *)dims)[below(n->dims * sizeof *dims / 8)] = any_number();
    if (n->attrs && !below(4)) ((uint64_t *)attrs)[below(n->attrs * sizeof *attrs / 8)] = any_number();
    if (n->vars && !below(4)) ((uint64_t *)vars)[below(n->vars * sizeof *vars / 8)] = any_number();
    if (n->ids && !below(4)) ids[below(n->ids)] = any_number();
    size_t places = n->vars + below(2);
    ncc_place *out = room(places, sizeof *out);
    ncc_plan(version, records, f->bytes, f->length, dims, n->dims, attrs, n->attrs, vars, n->vars, ids, n->ids, out, places,
             &planned);
    need(planned.state <= NCC_NO_ROOM && (planned.state || planned.vars == n->vars), "ncc_plan");
    size_t length = planned.state ? below(100) : planned.header_length - below(2);
    uint8_t *header = room(length, 1);
    ncc_encode(version, records, f->bytes, f->length, dims, n->dims, attrs, n->attrs, vars, n->vars, ids, n->ids, header,
               length, &encoded);
    need(encoded.state <= NCC_NO_ROOM, "ncc_encode");
    if (encoded.state == NCC_PASSES) {
        ncc_verdict verdict;
        ncc_judge(header, length, encoded.file_length, length, &verdict);
        need(verdict.state == NCC_PASSES && verdict.record_size == encoded.record_size, "ncc_judge after ncc_encode");
    }
    free(out), free(header);
}

/* One reading tells what two calls tell: of a header that passes also where there is no room for its rows. */
static void read_at_once(const front *f, const ncc_verdict *judged) {
    size_t dims = below(40), attrs = below(80), vars = below(40), ids = below(80);
    ncc_dim *d = room(dims, sizeof *d);
    ncc_attr *a = room(attrs, sizeof *a);
    ncc_var *v = room(vars, sizeof *v);
    uint64_t *i = room(ids, 8);
    ncc_opened n;
    ncc_read(f->bytes, f->length, f->file_length, f->limit, d, dims, a, attrs, v, vars, i, ids, &n);
    need(n.state == judged->state || (!judged->state && n.state == NCC_NO_ROOM), "ncc_read");
    need(n.kind == judged->kind && n.at == judged->at && n.version == judged->version, "ncc_read");
    need(n.header_length == judged->header_length && n.records == judged->records, "ncc_read");
    need(n.record_size == judged->record_size && n.global_attrs == judged->global_attrs, "ncc_read");
    need(n.dims == judged->dims && n.vars == judged->vars, "ncc_read");
    int is_short = dims < n.dims || attrs < n.attrs || vars < n.vars || ids < n.ids;
    need((n.state == NCC_NO_ROOM) == is_short, "ncc_read");
    free(d), free(a), free(v), free(i);
}

static void index_rows(const front *f) {
    ncc_indexed n;
    size_t less = below(8) == 0;
    ncc_dim no_dim;
    ncc_attr no_attr;
    ncc_var no_var;
    uint64_t no_id;
    ncc_index(f->bytes, f->length, f->file_length, f->limit, &no_dim, 0, &no_attr, 0, &no_var, 0, &no_id, 0, &n);
    need(n.state <= NCC_NO_ROOM, "ncc_index");
    if (n.state && n.state != NCC_NO_ROOM) return;
    ncc_dim *dims = room(n.dims, sizeof *dims);
    ncc_attr *attrs = room(n.attrs, sizeof *attrs);
    ncc_var *vars = room(n.vars, sizeof *vars);
    uint64_t *ids = room(n.ids, 8);
    ncc_index(f->bytes, f->length, f->file_length, f->limit, dims, n.dims, attrs, n.attrs, vars,
              n.vars - (n.vars ? less : 0), ids, n.ids, &n);
    need(n.state == NCC_PASSES || n.state == NCC_NO_ROOM, "ncc_index");
    if (n.state == NCC_PASSES) encode(f, &n, dims, attrs, vars, ids);
    free(dims), free(attrs), free(vars), free(ids);
}

static void try_one(const uint8_t *file, size_t length) {
    uint8_t *text = room(32, 1);
    front f = any_front(file, length);
    ncc_verdict verdict;
    ncc_judge(f.bytes, f.length, f.file_length, f.limit, &verdict);
    need(verdict.state <= NCC_MISUSED, "ncc_judge");
    read_at_once(&f, &verdict);
    notes(&f), record(&f), select_from(&f), index_rows(&f);
    need(ncc_fault_text((uint32_t)any_number(), text, below(33)) <= 32, "ncc_fault_text");
    free(f.bytes), free(text);
}

int main(int count, char **words) {
    if (count < 4) return 2;
    state = strtoull(words[2], NULL, 10) * 2 + 1;
    for (long tries = atol(words[1]) / 10; tries; tries--) {
        FILE *in = fopen(words[3 + below((uint64_t)count - 3)], "rb");
        uint8_t *file = malloc(1 << 16);
        if (!in || !file) return 3;
        size_t length = fread(file, 1, 1 << 16, in);
        try_one(file, length);
        free(file), fclose(in);
    }
    return 0;
}
