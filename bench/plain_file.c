/* Plain C: the plan file in both versions, the three questions over a layout, and the family of a refusal. Numbers of checks are documents 01's and
 * 02's. The reader decodes the file into memory of its own, where the writer's checks look at it, and copies it to the caller when nothing is left to
 * refuse. */
#include "plain.h"
#include "plain_checks.h"
#include <string.h>

enum { NODES = NDP_MAX_NODES };

/* ---- little-endian numbers */

static uint16_t get16(const uint8_t *at) { return at[0] | at[1] << 8; }

static uint32_t get32(const uint8_t *at) { return get16(at) | (uint32_t)get16(at + 2) << 16; }

static void put16(uint8_t *at, uint16_t x) { at[0] = x & 255; at[1] = x >> 8; }

static void put32(uint8_t *at, uint32_t x) { put16(at, x & 65535); put16(at + 2, x >> 16); }

/* Whether this machine keeps the low byte of a number first, as the file does; then a list of numbers is copied whole. */
static int low_byte_first(void) {
    uint16_t one = 1;
    uint8_t first;
    memcpy(&first, &one, 1);
    return first == 1;
}

static void get_list(uint16_t *list, const uint8_t *at, size_t count) {
    if (count > 0 && low_byte_first()) memcpy(list, at, 2 * count);
    else for (size_t k = 0; k < count; k++) list[k] = get16(at + 2 * k);
}

static void put_list(uint8_t *at, const uint16_t *list, size_t count) {
    if (count > 0 && low_byte_first()) memcpy(at, list, 2 * count);
    else for (size_t k = 0; k < count; k++) put16(at + 2 * k, list[k]);
}

/* ---- reading */

static uint16_t file_order[NODES], file_sizes[NODES], file_parents[NODES], file_rows[NDP_MAX_SLOTS];
static uint32_t file_starts[NODES + 1];

/* What stands before the order, and where that begins. */
typedef struct {
    size_t unknowns, n, p, s;
    const uint8_t *order;
} Header;

/* The header in a file of version 1, which says nothing of the unknowns and means one, or of version 2, in which they stand before n. */
static Header decode_header(const uint8_t *file, uint16_t version) {
    const uint8_t *counts = file + (version == 1 ? 5 : 7);
    return (Header){version == 1 ? 1 : get16(file + 5), get32(counts), get32(counts + 4), get32(counts + 8), counts + 12};
}

/* Checks 10 to 12, 10 again for the bytes of the version's header, 28, 13 and 14, by a reader of the versions 1 to `newest`. The header is told where
 * the file is long enough for it. */
static uint32_t check_header(const uint8_t *file, size_t length, uint16_t newest, Header *header) {
    if (length < 17) return 10;
    if (memcmp(file, "NDP", 3) != 0) return 11;
    uint16_t version = get16(file + 3);
    if (version < 1 || version > newest) return 12;
    if (version == 2 && length < 19) return 10;
    *header = decode_header(file, version);
    if (!plain_unknowns_fit(header->unknowns)) return 28;
    if (!plain_counts_fit(header->n, header->p, header->s)) return 13;
    size_t before = header->order - file;
    return length == before + 4 * header->n + 4 * header->p + 2 * header->s ? 0 : 14;
}

/* The plan behind the header in a file that has passed check 14. */
static Plan decode(const Header *header) {
    size_t n = header->n, p = header->p, s = header->s;
    const uint8_t *order = header->order, *parts = order + 2 * n, *counts = parts + 4 * p, *rows = counts + 2 * n;
    get_list(file_order, order, n);
    for (size_t q = 0; q < p; q++) { file_sizes[q] = get16(parts + 4 * q); file_parents[q] = get16(parts + 4 * q + 2); }
    for (size_t j = 0; j < n; j++) file_starts[j + 1] = file_starts[j] + get16(counts + 2 * j);
    get_list(file_rows, rows, s);
    return (Plan){header->unknowns, n, p, s, file_order, file_sizes, file_parents, file_rows, file_starts};
}

static uint64_t multiplications(const Plan *plan) {
    uint64_t sum = 0;
    for (size_t j = 0; j < plan->n; j++) {
        uint64_t c = plan->column_starts[j + 1] - plan->column_starts[j];
        sum += c * (c + 3) / 2;
    }
    return sum;
}

/* Reads a file of the versions 1 to `newest`. */
static NdpPlan read_versions(uint16_t newest, const uint8_t *file, size_t file_length, uint16_t *order, size_t order_length, uint16_t *positions,
                             size_t positions_length, uint16_t *sizes, size_t sizes_length, uint16_t *parents, size_t parents_length,
                             uint32_t *column_starts, size_t column_starts_length, uint16_t *rows, size_t rows_length) {
    Header header;
    uint32_t refusal = check_header(file, file_length, newest, &header);
    if (refusal) return (NdpPlan){.refusal = refusal};
    Plan plan = decode(&header);
    size_t n = plan.n, p = plan.p, s = plan.s;
    refusal = plain_check_contents(&plan);
    if (refusal) return (NdpPlan){.refusal = refusal};
    if (order_length < n || positions_length < n || sizes_length < n || parents_length < n || column_starts_length < n + 1) refusal = 8;
    else if (rows_length < s) refusal = 9;
    if (refusal) return (NdpPlan){.refusal = refusal};
    memcpy(order, plan.order, n * sizeof *order);
    for (size_t i = 0; i < n; i++) positions[order[i]] = i;
    memcpy(sizes, plan.sizes, p * sizeof *sizes);
    memcpy(parents, plan.parents, p * sizeof *parents);
    memcpy(column_starts, plan.column_starts, (n + 1) * sizeof *column_starts);
    memcpy(rows, plan.rows, s * sizeof *rows);
    return (NdpPlan){0, n, p, s, plan.unknowns, multiplications(&plan)};
}

NdpPlan plain_read(const uint8_t *file, size_t file_length, uint16_t *order, size_t order_length, uint16_t *positions, size_t positions_length,
                   uint16_t *sizes, size_t sizes_length, uint16_t *parents, size_t parents_length,
                   uint32_t *column_starts, size_t column_starts_length, uint16_t *rows, size_t rows_length) {
    return read_versions(2, file, file_length, order, order_length, positions, positions_length, sizes, sizes_length, parents, parents_length,
                         column_starts, column_starts_length, rows, rows_length);
}

NdpPlan plain_read_version_1(const uint8_t *file, size_t file_length, uint16_t *order, size_t order_length, uint16_t *positions,
                             size_t positions_length, uint16_t *sizes, size_t sizes_length, uint16_t *parents, size_t parents_length,
                             uint32_t *column_starts, size_t column_starts_length, uint16_t *rows, size_t rows_length) {
    return read_versions(1, file, file_length, order, order_length, positions, positions_length, sizes, sizes_length, parents, parents_length,
                         column_starts, column_starts_length, rows, rows_length);
}

/* ---- writing */

/* The file of a plan, in version 2. */
static void encode(const Plan *plan, uint8_t *file) {
    size_t n = plan->n, p = plan->p, s = plan->s;
    uint8_t *order = file + NDP_FILE_HEADER, *parts = order + 2 * n, *counts = parts + 4 * p, *rows = counts + 2 * n;
    memcpy(file, "NDP", 3);
    put16(file + 3, NDP_FILE_VERSION);
    put16(file + 5, plan->unknowns);
    put32(file + 7, n);
    put32(file + 11, p);
    put32(file + 15, s);
    put_list(order, plan->order, n);
    for (size_t q = 0; q < p; q++) { put16(parts + 4 * q, plan->sizes[q]); put16(parts + 4 * q + 2, plan->parents[q]); }
    for (size_t j = 0; j < n; j++) put16(counts + 2 * j, plan->column_starts[j + 1] - plan->column_starts[j]);
    put_list(rows, plan->rows, s);
}

NdpWritten plain_write(size_t unknowns, size_t n, size_t p, size_t s, const uint16_t *order, size_t order_length, const uint16_t *sizes,
                       size_t sizes_length, const uint16_t *parents, size_t parents_length, const uint32_t *column_starts,
                       size_t column_starts_length, const uint16_t *rows, size_t rows_length, uint8_t *file, size_t file_length) {
    Plan plan = {unknowns, n, p, s, order, sizes, parents, rows, column_starts};
    uint32_t refusal = plain_check_plan(&plan, order_length, sizes_length, parents_length, column_starts_length, rows_length);
    if (refusal) return (NdpWritten){refusal, 0};
    size_t length = NDP_FILE_LENGTH(n, p, s);
    if (file_length < length) return (NdpWritten){8, 0};
    encode(&plan, file);
    return (NdpWritten){0, length};
}

/* ---- the questions */

/* 22: each column's rows ascend strictly, above the column and below n. They ascend, so the last is the greatest. */
static int rows_fit(size_t n, const uint32_t *column_starts, const uint16_t *rows) {
    for (size_t j = 0; j < n; j++) {
        size_t before = j;
        for (uint32_t k = column_starts[j]; k < column_starts[j + 1]; k++) {
            if (rows[k] <= before) return 0;
            before = rows[k];
        }
        if (before >= n) return 0;
    }
    return 1;
}

/* Checks 1 and 22. */
static uint32_t check_layout(size_t n, const uint32_t *column_starts, size_t column_starts_length, const uint16_t *rows, size_t rows_length) {
    if (n == 0 || n > NODES) return 1;
    if (column_starts_length != n + 1 || !plain_starts_fit(n, column_starts) || column_starts[n] > rows_length) return 22;
    return rows_fit(n, column_starts, rows) ? 0 : 22;
}

NdpSlot plain_slot(size_t n, const uint32_t *column_starts, size_t column_starts_length, const uint16_t *rows, size_t rows_length, size_t a,
                   size_t b) {
    uint32_t refusal = check_layout(n, column_starts, column_starts_length, rows, rows_length);
    if (!refusal && (a >= n || b >= n)) refusal = 21;
    if (refusal) return (NdpSlot){refusal, 0, 0};
    if (a == b) return (NdpSlot){0, NDP_DIAGONAL, 0};
    size_t column = a < b ? a : b, row = a < b ? b : a;
    uint32_t low = column_starts[column], high = column_starts[column + 1];
    while (low < high) {
        uint32_t middle = low + (high - low) / 2;
        if (rows[middle] < row) low = middle + 1; else high = middle;
    }
    if (low == column_starts[column + 1] || rows[low] != row) return (NdpSlot){0, NDP_NO_SLOT, 0};
    return (NdpSlot){0, NDP_SLOT, low};
}

NdpRows plain_rows(size_t n, const uint32_t *column_starts, size_t column_starts_length, const uint16_t *rows, size_t rows_length, size_t j) {
    uint32_t refusal = check_layout(n, column_starts, column_starts_length, rows, rows_length);
    if (!refusal && j >= n) refusal = 21;
    if (refusal) return (NdpRows){refusal, 0, 0};
    return (NdpRows){0, column_starts[j], column_starts[j + 1] - column_starts[j]};
}

/* The slot's column is the last one that starts at the slot or before it: columns without rows share their start with the next. Column 0 starts at
 * or before every slot, and column_starts[n] behind every slot, so the bisection keeps the answer from `low` up to, not including, `high`. */
NdpPair plain_pair(size_t n, const uint32_t *column_starts, size_t column_starts_length, const uint16_t *rows, size_t rows_length, size_t slot) {
    uint32_t refusal = check_layout(n, column_starts, column_starts_length, rows, rows_length);
    if (!refusal && slot >= column_starts[n]) refusal = 27;
    if (refusal) return (NdpPair){refusal, 0, 0};
    size_t low = 0, high = n;
    while (high - low > 1) {
        size_t middle = low + (high - low) / 2;
        if (column_starts[middle] <= slot) low = middle; else high = middle;
    }
    return (NdpPair){0, rows[slot], low};
}

/* ---- the family of a refusal */

uint32_t plain_family(uint32_t number) {
    if (number == 0 || number > 22) return NDP_NONE;
    return number <= 9 ? NDP_MESH : number <= 19 ? NDP_FILE : number == 20 ? NDP_PROGRAM : NDP_QUESTION;
}
