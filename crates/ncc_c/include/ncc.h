/* ncc.h: the C border of libncc_c.

   Every call is stateless: what it needs stands in the bytes of the header, and in rows of numbers that an earlier call
   put out or that the caller makes. No call keeps a pointer. The bytes of the file may lie anywhere: in memory, in a
   mapped file, on a server.

   What a caller promises:
   - Each pointer is valid, aligned and not null, also where the length is 0, and what is written overlaps with nothing.
   - `front` is the first bytes of the file, and `file_length` the length of the whole file. The answer is about every
     file of that length that begins with these bytes. They, `text` and the rows stay as they are during a call, and a
     mapped file isn't cut short. A file that changes between two calls voids what was said of it.
   - `limit` is the greatest length of a header that is read: NCC_LIMIT is that of the program `ncc`.
   - No call is made from a signal handler, or from a child that was forked from a process with several threads.

   NCC_MEMORY may come in place of any other state. Unless the state is NCC_PASSES, arrays hold anything; else what lies
   past the rows that were put does.

   Each contract in words is at its call. docs/C.md says what is proved and what is trusted. */
#ifndef NCC_H
#define NCC_H

#include <stddef.h>
#include <stdint.h>

#ifdef __cplusplus
extern "C" {
#endif

#define NCC_LIMIT 67108864u

/* What `state` says. */
enum {
    NCC_PASSES = 0,  /* it passed; all fields of the answer are filled */
    NCC_FAULT = 1,   /* the file's first fault: `kind`, at the offset `at` */
    NCC_MORE = 2,    /* the front ends inside the header, in the field at `at`: call again with more of the file */
    NCC_MEMORY = 3,  /* a request for memory was refused */
    NCC_MISUSED = 4, /* the arguments can't be: see each call */
    NCC_REFUSED = 5, /* the selection, record or schema is refused: `kind`, `at` */
    NCC_NO_ROOM = 6  /* the caller's arrays are too short: see each call */
};

/* Kinds of faults, as `ncc check` names them: of the header 1 to 11, of the layout 21 to 26. Notes are 41 to 48. */
enum {
    NCC_BAD_MAGIC = 1, NCC_BAD_VERSION = 2, NCC_NEGATIVE_COUNT = 3, NCC_BAD_TAG = 4, NCC_BAD_TYPE = 5,
    NCC_TWO_RECORD_DIMS = 6, NCC_BAD_DIM_ID = 7, NCC_RECORD_DIM_NOT_FIRST = 8, NCC_NEGATIVE_OFFSET = 9,
    NCC_HEADER_TOO_LONG = 10, NCC_ENDS_EARLY = 11,
    NCC_TOO_LARGE = 21, NCC_IN_HEADER = 22, NCC_OVERLAP = 23, NCC_RECORD_WINDOW = 24, NCC_FIXED_AFTER_RECORDS = 25,
    NCC_TRUNCATED = 26,
    NCC_VSIZE_FIELD = 41, NCC_HEADER_PADDING = 42, NCC_TAGGED_EMPTY = 43, NCC_NAME_RULE = 44, NCC_DUPLICATE_NAME = 45,
    NCC_UNALIGNED_BEGIN = 46, NCC_ORDER = 47, NCC_LARGE_COUNT = 48
};

/* Kinds of refusals (state NCC_REFUSED). */
enum {
    /* Of a selection, in the order in which they are looked for; `at` is the number of the first such dimension.
       61, NoVariable, is never answered. */
    NCC_RANK_MISMATCH = 62, /* not one start, count and stride for each dimension; `at` is 0 */
    NCC_ZERO_STRIDE = 63,   /* a stride is 0 */
    NCC_OUTSIDE = 64,       /* an index isn't below the length, or with a count of 0 the start is above it */
    /* Of one more record, in this order; `at` is 0. */
    NCC_NO_RECORD_VARIABLE = 71,
    NCC_NOT_PACKED = 72, /* the record variables don't stand one after another in their order, each with its padding, or
                            more than three bytes before the record are missing */
    NCC_STREAMING = 73,  /* the number of records is indeterminate */
    NCC_COUNT_FULL = 74, /* the number would be the streaming mark, or the file longer than 2^63 - 1 bytes */
    /* Of a schema; `at` is 0. NCC_DUPLICATE_NAME, NCC_TWO_RECORD_DIMS, NCC_BAD_DIM_ID and NCC_RECORD_DIM_NOT_FIRST are
       kinds of refused schemas too. */
    NCC_BAD_NAME = 81,         /* the name breaks the rule of names, or has more than 256 bytes */
    NCC_TYPE_FOR_VERSION = 82, /* the version doesn't have the type */
    NCC_COUNT_FOR_VERSION = 83, /* a length, or a number of items, values or records, has its top bit set (of 32 bits, in
                                   CDF-5 of 64) */
    NCC_OFFSET_FOR_VERSION = 84, /* a variable begins past what the version tells */
    NCC_SIZE_FOR_VERSION = 85 /* a size is more than the version tells, or the file longer than 2^63 - 1 bytes */
};

typedef struct {
    uint32_t state, kind;
    uint64_t at;
    uint64_t version;       /* 1, 2 or 5 */
    uint64_t header_length; /* bytes */
    uint64_t records;       /* of a file that is still written: what its length tells */
    uint64_t record_size;   /* bytes from one record to the next */
    uint64_t dims, global_attrs, vars, notes; /* how many there are */
} ncc_verdict;

/* Judges a file of this length that begins with these bytes. NCC_PASSES, NCC_FAULT: what `ncc check` says of every such
   file. NCC_MORE: the front is shorter than the file and the limit, and ends inside the header. NCC_MISUSED exactly
   where the front is longer than the file. After `at` all is 0 unless the state is NCC_PASSES. */
void ncc_judge(const uint8_t *front, size_t front_length, uint64_t file_length, uint64_t limit, ncc_verdict *verdict);

typedef struct {
    uint32_t kind, reserved; /* `reserved` is 0 */
    uint64_t at;
} ncc_note;

typedef struct {
    uint32_t state, kind;
    uint64_t at;
    uint64_t notes; /* how many there are */
} ncc_noted;

/* The notes of a file that passes, by offset: the first of them, as many as there is room for. NCC_PASSES also where
   there isn't room for all. Else the state is that of ncc_judge. */
void ncc_notes(const uint8_t *front, size_t front_length, uint64_t file_length, uint64_t limit, ncc_note *notes,
               size_t notes_room, ncc_noted *answer);

/* Rows of an index. `name_at` and `values_at` are offsets into the front: the name is the `name_length` bytes there,
   and the values of an attribute are `count` numbers of the type `xtype` (1 byte, 2 char, 3 short, 4 int, 5 float,
   6 double, 7 ubyte, 8 ushort, 9 uint, 10 int64, 11 uint64), the high byte first. */
typedef struct {
    uint64_t name_at, name_length;
    uint64_t length; /* 0 for the record dimension */
} ncc_dim;

typedef struct {
    uint64_t name_at, name_length;
    uint64_t xtype, count, values_at;
} ncc_attr;

typedef struct {
    uint64_t name_at, name_length;
    uint64_t xtype;
    uint64_t begin;     /* the offset of the first byte */
    uint64_t slab;      /* bytes of a fixed variable, or of a record variable in one record, without padding */
    uint64_t rank;      /* how many dimensions */
    uint64_t attrs;     /* how many attributes */
    uint64_t is_record; /* 1 where the first dimension is the record dimension, else 0 */
} ncc_var;

typedef struct {
    uint32_t state, kind;
    uint64_t at;
    uint64_t dims, attrs, vars, ids; /* how many rows there are */
} ncc_indexed;

/* What the header of a file that passes says: a row for each dimension; for each attribute, first those of the file,
   then those of each variable in turn; for each variable; and the numbers of the dimensions of each variable in turn.
   NCC_NO_ROOM exactly where an array is shorter than the count of its rows: then the counts are told, and no row is:
   the arrays may hold anything.
   Call it with no room to get the counts; where there are no rows at all that is NCC_PASSES. Else the state is that of
   ncc_judge. */
void ncc_index(const uint8_t *front, size_t front_length, uint64_t file_length, uint64_t limit, ncc_dim *dims,
               size_t dims_room, ncc_attr *attrs, size_t attrs_room, ncc_var *vars, size_t vars_room, uint64_t *ids,
               size_t ids_room, ncc_indexed *answer);

typedef struct {
    uint32_t state, kind;
    uint64_t at;
    uint64_t dims, attrs, vars, ids; /* how many rows there are */
    uint64_t version;                /* 1, 2 or 5 */
    uint64_t header_length;
    uint64_t records;
    uint64_t record_size;            /* bytes from one record to the next */
    uint64_t global_attrs;           /* how many of the rows of attributes are those of the file */
} ncc_opened;

/* The rows of ncc_index, and the numbers of ncc_judge but that of the notes, which takes longer to find, in one call. A
   file passes where the state is NCC_PASSES, and also where it is NCC_NO_ROOM: exactly where an array is shorter than the
   count of its rows. Then all numbers are filled, and the arrays may hold anything. Else the state is that of ncc_judge,
   and all numbers are 0. NCC_MISUSED exactly where the front is longer than the file.
   A caller that doesn't know the counts can make room by the length of the front. For each row a header has at least,
   in CDF-1, CDF-2 and CDF-5: 8, 8, 16 bytes of a dimension; 12, 12, 20 of an attribute; 28, 32, 48 of a variable; 4, 4, 8
   of a number of a dimension. That these are enough isn't in the contract: look at the state. */
void ncc_read(const uint8_t *front, size_t front_length, uint64_t file_length, uint64_t limit, ncc_dim *dims,
              size_t dims_room, ncc_attr *attrs, size_t attrs_room, ncc_var *vars, size_t vars_room, uint64_t *ids,
              size_t ids_room, ncc_opened *answer);

typedef struct {
    uint32_t state, kind;
    uint64_t at;
    uint64_t base;  /* the place of the first selected element */
    uint64_t size;  /* bytes of an element */
    uint64_t total; /* how many elements are selected */
} ncc_stepped;

/* The steps of a selection: the element with the numbers k0, k1, .. in it (each below its count) lies at
   base + k0 * steps[0] + k1 * steps[1] + .., and all its bytes lie in the file. `var` is a row of an index; `shape` has
   the length of each of its dimensions, for the record dimension the number of records; `record_size` is the
   verdict's. A step is 0 where the count is 1. Where nothing is selected, base is the variable's begin, and all steps
   are 0. NCC_NO_ROOM: the selection isn't refused, and `steps` is shorter than the shape. NCC_MISUSED: no variable has
   this row and so many dimensions, its elements have 2^64 bytes or more in one record, 2^64 or more are selected, or
   the last selected one doesn't end in the file. A row that passes need not be one of this file. */
void ncc_steps(const ncc_var *var, const uint64_t *shape, size_t shape_length, uint64_t record_size,
               uint64_t file_length, const uint64_t *start, size_t starts, const uint64_t *count, size_t counts,
               const uint64_t *stride, size_t strides, uint64_t *steps, size_t steps_room, ncc_stepped *answer);

/* Elements that lie one after another: the offset of the first byte, and how many elements. */
typedef struct {
    uint64_t place, count;
} ncc_run;

typedef struct {
    uint32_t state, kind;
    uint64_t at;
    uint64_t size;    /* bytes of an element */
    uint64_t total;   /* how many elements are selected */
    uint64_t next;    /* the number of the first element after those written, at most `total`: the next `first` */
    uint64_t written; /* how many runs were written */
} ncc_stretched;

/* The bytes of a selection as runs of adjoining elements, in the order of the selection, from its element `first` on:
   as many as there is room for, each of one element or more: a run ends only where the next element doesn't adjoin it.
   Fewer than `room`: none is left. The other arguments are those of ncc_steps. */
void ncc_stretches(const ncc_var *var, const uint64_t *shape, size_t shape_length, uint64_t record_size,
                   uint64_t file_length, const uint64_t *start, size_t starts, const uint64_t *count, size_t counts,
                   const uint64_t *stride, size_t strides, uint64_t first, ncc_run *runs, size_t room,
                   ncc_stretched *answer);

typedef struct {
    uint32_t state, kind;
    uint64_t at;
    uint64_t count;       /* the number of records with this one */
    uint64_t place;       /* the offset of the record's first byte */
    uint64_t length;      /* the length of the file with it */
    uint64_t count_at;    /* the offset of the field that holds the number of records */
    uint64_t count_width; /* its bytes: 4, in CDF-5 8 */
} ncc_recorded;

/* Where one more record of a file that passes goes. The record has the verdict's `record_size` bytes: in it each record
   variable's part stands as far from the record's first byte as its `begin` stands from the least `begin` of them.
   `count_bytes` gets the number of records with this one, as the field at `count_at` holds it, in its first
   `count_width` bytes; those after them may be anything. To add the record to a file that is whole on the disk: write
   zeros up to `place`, if the file is shorter, and the record at `place`; sync; then write these bytes at `count_at`,
   in one call, and sync. If the disk does that one write whole or not at all, a stop at any moment leaves a file that
   passes, with the old records and with the new one or without it. For the record after it, the front must have the new
   number and `file_length` be the new length. NCC_NO_ROOM: the record can be added, and `count_bytes` is too short: 8
   bytes are always enough. NCC_REFUSED: no record can be added. Else the state is that of ncc_judge. After `at` all is
   0 unless the state is NCC_PASSES. */
void ncc_record(const uint8_t *front, size_t front_length, uint64_t file_length, uint64_t limit, uint8_t *count_bytes,
                size_t count_room, ncc_recorded *answer);

typedef struct {
    uint64_t begin; /* the offset of the first byte */
    uint64_t slab;  /* bytes of a fixed variable, or of a record variable in one record, without padding */
} ncc_place;

typedef struct {
    uint32_t state, kind;
    uint64_t at;
    uint64_t header_length; /* bytes */
    uint64_t record_size;   /* bytes from one record to the next */
    uint64_t file_length;   /* of the whole file, with all records */
    uint64_t vars;          /* how many there are */
} ncc_planned;

/* Where the variables of a file go that is to be written in this version (1, 2 or 5), with so many records: a place for
   each. The rows are as in an index, with offsets into `text`, which may be any bytes: also the front of a file with the
   rows of its index, so that the same schema is written in another version. Of a variable's row `begin`, `slab` and
   `is_record` aren't read. The attributes that no variable takes come first, and are those of the file.
   In a file the values of a variable follow one another in row-major order, the last index fastest, and those of record
   k stand k times `record_size` after those of record 0; ncc_steps tells where, for a row with this `begin`.
   NCC_NO_ROOM: nothing is refused, and there are more variables than room for places; the numbers are told.
   NCC_REFUSED: the first refusal, of the dimensions, the attributes of the file, each variable followed by its
   attributes, the number of records, the sizes, the offsets, in this order; of one item, of its name, then of a second
   record dimension or of its dimensions, then of its type, then of a number. After `at` all is 0 where it is refused or
   misused. NCC_MISUSED exactly where there is no such version or type, a name or values end after the
   text, or the variables take more attributes than there are, or not exactly all numbers of dimensions. */
void ncc_plan(uint64_t version, uint64_t records, const uint8_t *text, size_t text_length, const ncc_dim *dims,
              size_t dims_count, const ncc_attr *attrs, size_t attrs_count, const ncc_var *vars, size_t vars_count,
              const uint64_t *ids, size_t ids_count, ncc_place *places, size_t room, ncc_planned *answer);

/* The header's bytes of the same file. Each file of `file_length` bytes that begins with them passes, where the limit is
   no less than `header_length`, and its variables are at the places of ncc_plan. Padding after a slab is whatever is
   written there; `ncc` writes fill values.
   NCC_NO_ROOM: the header is longer than the room; the numbers are told. */
void ncc_encode(uint64_t version, uint64_t records, const uint8_t *text, size_t text_length, const ncc_dim *dims,
                size_t dims_count, const ncc_attr *attrs, size_t attrs_count, const ncc_var *vars, size_t vars_count,
                const uint64_t *ids, size_t ids_count, uint8_t *header, size_t room, ncc_planned *answer);

/* The name of a kind of fault, note or refusal, as `ncc` prints it: puts as much of it as there is room for, without a
   zero at the end, changes nothing after it, and returns its length; 0 for a number that is no kind. */
size_t ncc_fault_text(uint32_t kind, uint8_t *text, size_t room);

#ifdef __cplusplus
}
#endif

#endif
