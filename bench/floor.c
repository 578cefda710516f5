/* The floor of bench/ingest.sh: what a plain C program needs for the work that akl does.
 *
 *   floor DIR <STREAM >ANSWERS
 *
 * It serves the store in the directory DIR, which `akl create` made, to one session, as `akl run DIR` does: it reads the
 * stream in pieces of 4096 bytes, answers a flush and a select, and flushes at the end. Its files are byte for byte those of
 * akl, and it writes the same blocks in the same order with the same syncs: leaves, inner nodes, the record of each view.
 *
 * What it leaves out:
 * - Refusals and damage. What akl would refuse, and a file that isn't as it should be, ends it with a line and status 1.
 *   A part may be longer than akl allows, and a name isn't looked at for UTF-8 and control characters.
 * - Puts into a store that already has series, so it reads no tree as it opens one.
 * - More than one session, the lock of the directory, want of memory, and all that a proof asks for.
 *
 * What it does in another way, since that costs less: a name is looked up as it is spelled, and all spellings are kept,
 * without bound; the points of an open leaf are kept as they are spelled; the summary of a leaf grows with each point; the
 * record is kept spelled, and only what changes in it is written anew. */
#define _GNU_SOURCE
#include <errno.h>
#include <fcntl.h>
#include <stdarg.h>
#include <stdint.h>
#include <stdio.h>
#include <stdlib.h>
#include <string.h>
#include <unistd.h>

#if __BYTE_ORDER__ != __ORDER_LITTLE_ENDIAN__
#error "The files have the lowest byte first, and this copies numbers as they stand in memory."
#endif

typedef unsigned char byte;
typedef __int128 wide;

enum {
    BLOCK = 4096,
    HEAD = 64,
    BODY = BLOCK - HEAD,
    LEVELS = 11,
    FAN_OUT = 32,
    REFERENCE = 104,
    /* A point is spelled before it is known whether it fits, in 20 bytes at most. */
    FRAME = BLOCK + 64,
    MOST_NAME = 512,
    MOST_TAGS = 32,
    MOST_METRICS = 32,
    MOST_VALUES = 64,
    FRONT = 16,
    NUMBERS = 40,
    PIECE = 4096,
};

#define NONE UINT64_MAX

static void stop(const char *form, ...) {
    va_list values;
    va_start(values, form);
    fputs("floor: ", stderr);
    vfprintf(stderr, form, values);
    fputc('\n', stderr);
    va_end(values);
    exit(1);
}

static void fail(const char *call) {
    stop("%s: %s", call, strerror(errno));
}

static void *room(void *old, size_t size) {
    void *new = realloc(old, size);
    if (new == NULL)
        stop("out of memory");
    return new;
}

static inline void put4(byte *to, uint32_t x) {
    memcpy(to, &x, 4);
}

static inline void put8(byte *to, uint64_t x) {
    memcpy(to, &x, 8);
}

static inline uint32_t get4(const byte *from) {
    uint32_t x;
    memcpy(&x, from, 4);
    return x;
}

static inline uint64_t get8(const byte *from) {
    uint64_t x;
    memcpy(&x, from, 8);
    return x;
}

/* Spellings of numbers. */

static inline byte *spell(byte *to, uint64_t x) {
    while (x >= 128) {
        *to++ = (byte)(x | 128);
        x >>= 7;
    }
    *to++ = (byte)x;
    return to;
}

static byte *spell_far(byte *to, wide difference) {
    unsigned __int128 x = difference >= 0 ? 2 * (unsigned __int128)difference : 2 * (unsigned __int128)-difference - 1;
    while (x >= 128) {
        *to++ = (byte)(x | 128);
        x >>= 7;
    }
    *to++ = (byte)x;
    return to;
}

static inline byte *spell_difference(byte *to, int64_t value, int64_t before) {
    int64_t d;
    if (__builtin_sub_overflow(value, before, &d))
        return spell_far(to, (wide)value - before);
    return spell(to, ((uint64_t)d << 1) ^ (uint64_t)(d >> 63));
}

static inline const byte *read_spelled(const byte *from, uint64_t *x, uint64_t *high) {
    uint64_t sum = 0;
    for (unsigned shift = 0; shift < 63; shift += 7) {
        sum |= (uint64_t)(*from & 127) << shift;
        if (*from++ < 128) {
            *x = sum;
            *high = 0;
            return from;
        }
    }
    *x = sum | (uint64_t)*from << 63;
    *high = *from >> 1;
    return from + 1;
}

/* The store. */

struct series {
    byte *block;
    uint32_t size, count;
    uint64_t begin, time;
    int64_t first, value, least, most;
    uint64_t least_at, most_at;
    wide sum;
    struct series *newer, *older;
    uint64_t leaves, last;
    uint64_t rescue[LEVELS];
    byte *levels[LEVELS];
    uint32_t waiting[LEVELS];
    uint32_t number, name_length;
    size_t at;
    char name[MOST_NAME];
};

static struct series **all;
static uint32_t series_count;

static uint32_t volumes, blocks, slot, pool, every, scale;
static uint32_t low, live;
static uint32_t *fills;
static int meta, *volume_files;
static byte *record;
static size_t record_size;
static uint64_t view_number, closed_since;
static int newest_half, other_open;
static int was_empty;

/* The frames of open leaves: those that are free, and the series that have the others, by their last put. */
static byte **free_frames;
static uint32_t free_count;
static struct series *newest_used, *oldest_used;

static void write_block(int file, uint64_t index, const byte *from) {
    if (pwrite(file, from, BLOCK, (off_t)index * BLOCK) != BLOCK)
        fail("write");
}

static void read_block(int file, uint64_t index, byte *to) {
    if (pread(file, to, BLOCK, (off_t)index * BLOCK) != BLOCK)
        fail("read");
}

static void sync_file(int file) {
    if (fsync(file) != 0)
        fail("sync");
}

static uint32_t newest_ordinal(void) {
    return low + live - 1;
}

static int newest_file(void) {
    return volume_files[newest_ordinal() % volumes];
}

static void write_gate(int half, byte first) {
    static byte gate[BLOCK];
    gate[0] = first;
    write_block(meta, (uint64_t)half, gate);
    sync_file(meta);
}

static void save(int file) {
    view_number++;
    closed_since = 0;
    put8(record, record_size - FRONT);
    put8(record + 8, view_number);
    byte *numbers = record + FRONT;
    put4(numbers + 28, low);
    put4(numbers + 32, live);
    put4(numbers + 36, series_count);
    for (uint32_t i = 0; i < volumes; i++)
        put4(numbers + NUMBERS + 4 * i, i < live ? fills[i] : 0);
    sync_file(file);
    int half = 1 - newest_half;
    if (other_open)
        write_gate(half, 0);
    /* The record's bytes behind its end are zeros. */
    uint64_t start = 2 + (uint64_t)half * slot;
    for (size_t done = 0; done < record_size; done += BLOCK)
        write_block(meta, start + done / BLOCK, record + done);
    sync_file(meta);
    write_gate(half, 1);
    newest_half = half;
    other_open = 1;
}

static void switch_volume(void) {
    int before = newest_file();
    if (live == volumes) {
        memmove(fills, fills + 1, 4 * (live - 1));
        low++;
    } else {
        live++;
    }
    fills[live - 1] = 0;
    save(before);
}

/* Trees. */

static uint32_t levels_filled(uint64_t leaf) {
    uint32_t levels = 0;
    for (uint64_t left = leaf + 1; levels < LEVELS - 1 && left % FAN_OUT == 0; left /= FAN_OUT)
        levels++;
    return levels;
}

static void write_head(byte *to, byte kind, byte level, uint32_t count, struct series *s, uint64_t number, uint64_t at,
                       uint64_t elder, uint32_t length) {
    memset(to, 0, HEAD);
    to[0] = kind;
    to[1] = level;
    to[2] = (byte)count;
    to[3] = (byte)(count >> 8);
    put4(to + 4, s->number);
    put8(to + 8, number);
    put8(to + 16, at);
    put8(to + 24, elder);
    put4(to + 32, length);
}

static void refer_to_leaf(byte *to, struct series *s, uint64_t at) {
    put8(to, at);
    put8(to + 8, at);
    put8(to + 16, s->count);
    put8(to + 24, s->begin);
    put8(to + 32, s->time);
    put8(to + 40, (uint64_t)s->first);
    put8(to + 48, (uint64_t)s->value);
    put8(to + 56, (uint64_t)s->least);
    put8(to + 64, s->least_at);
    put8(to + 72, (uint64_t)s->most);
    put8(to + 80, s->most_at);
    memcpy(to + 88, &s->sum, 16);
}

/* The reference to a node of these references: its first leaf, begin and first value are those of the first of them. */
static void refer_to_node(byte *to, const byte *children, uint32_t count, uint64_t at) {
    memcpy(to, children, REFERENCE);
    put8(to, at);
    uint64_t points = get8(children + 16);
    wide sum;
    memcpy(&sum, children + 88, 16);
    for (uint32_t i = 1; i < count; i++) {
        const byte *child = children + REFERENCE * i;
        points += get8(child + 16);
        wide part;
        memcpy(&part, child + 88, 16);
        sum += part;
        if ((int64_t)get8(child + 56) < (int64_t)get8(to + 56))
            memcpy(to + 56, child + 56, 16);
        if ((int64_t)get8(child + 72) > (int64_t)get8(to + 72))
            memcpy(to + 72, child + 72, 16);
    }
    const byte *last = children + REFERENCE * (count - 1);
    put8(to + 16, points);
    memcpy(to + 32, last + 32, 8);
    memcpy(to + 48, last + 48, 8);
    memcpy(to + 88, &sum, 16);
}

static byte *place_for(struct series *s, uint32_t level) {
    if (s->levels[level] == NULL)
        s->levels[level] = room(NULL, FAN_OUT * REFERENCE);
    return s->levels[level] + REFERENCE * s->waiting[level]++;
}

static void detach(struct series *s) {
    if (s->newer != NULL)
        s->newer->older = s->older;
    else
        newest_used = s->older;
    if (s->older != NULL)
        s->older->newer = s->newer;
    else
        oldest_used = s->newer;
}

static void put_first(struct series *s) {
    s->newer = NULL;
    s->older = newest_used;
    if (newest_used != NULL)
        newest_used->newer = s;
    else
        oldest_used = s;
    newest_used = s;
}

static void enter_in_record(struct series *s) {
    byte *to = record + s->at;
    put8(to, s->leaves);
    put8(to + 8, s->last);
    memcpy(to + 16, s->rescue, 8 * LEVELS);
}

static void close_leaf(struct series *s) {
    uint32_t others = levels_filled(s->leaves);
    if (fills[live - 1] + 1 + others > blocks)
        switch_volume();
    int file = newest_file();
    uint64_t index = fills[live - 1];
    uint64_t at = (uint64_t)newest_ordinal() << 32 | index;
    write_head(s->block, 1, 0, s->count, s, s->leaves, at, s->rescue[0], s->size);
    memset(s->block + HEAD + s->size, 0, BODY - s->size);
    write_block(file, index, s->block);
    byte reference[REFERENCE];
    refer_to_leaf(reference, s, at);
    uint64_t number = s->leaves;
    for (uint32_t level = 0; level < others; level++) {
        memcpy(place_for(s, level), reference, REFERENCE);
        uint32_t count = s->waiting[level];
        number /= FAN_OUT;
        static byte node[BLOCK];
        write_head(node, 2, (byte)(level + 1), count, s, number, at + level + 1, s->rescue[level + 1], REFERENCE * count);
        memcpy(node + HEAD, s->levels[level], REFERENCE * count);
        write_block(file, index + level + 1, node);
        refer_to_node(reference, s->levels[level], count, at + level + 1);
        s->waiting[level] = 0;
    }
    memcpy(place_for(s, others), reference, REFERENCE);
    for (uint32_t level = 0; level <= others; level++)
        s->rescue[level] = at + level;
    fills[live - 1] += 1 + others;
    s->leaves++;
    s->last = s->time;
    enter_in_record(s);
    detach(s);
    free_frames[free_count++] = s->block;
    s->block = NULL;
    closed_since++;
}

static void start_leaf(struct series *s, uint64_t time, int64_t value) {
    if (free_count == 0)
        close_leaf(oldest_used);
    s->block = free_frames[--free_count];
    put_first(s);
    byte *end = spell_difference(spell(s->block + HEAD, time), value, 0);
    s->size = (uint32_t)(end - s->block - HEAD);
    s->count = 1;
    s->begin = s->least_at = s->most_at = s->time = time;
    s->first = s->least = s->most = s->value = value;
    s->sum = value;
}

static inline int extend_leaf(struct series *s, uint64_t time, int64_t value) {
    byte *end = spell_difference(spell(s->block + HEAD + s->size, time - s->time), value, s->value);
    uint32_t size = (uint32_t)(end - s->block - HEAD);
    if (size > BODY)
        return 0;
    s->size = size;
    s->count++;
    s->time = time;
    s->value = value;
    s->sum += value;
    if (value < s->least) {
        s->least = value;
        s->least_at = time;
    }
    if (value > s->most) {
        s->most = value;
        s->most_at = time;
    }
    if (s != newest_used) {
        detach(s);
        put_first(s);
    }
    return 1;
}

static inline void append(struct series *s, uint64_t time, int64_t value) {
    if (s->block == NULL) {
        start_leaf(s, time, value);
    } else if (!extend_leaf(s, time, value)) {
        close_leaf(s);
        start_leaf(s, time, value);
    }
    if (closed_since >= every)
        save(newest_file());
}

static void flush(void) {
    for (uint32_t i = 0; i < series_count; i++)
        if (all[i]->block != NULL)
            close_leaf(all[i]);
    save(newest_file());
}

/* Names: a table of the spellings that were read, with the series that each names. */

struct spelling {
    uint32_t length, count;
    struct series **named;
    char text[];
};

struct cell {
    uint64_t hash;
    struct spelling *spelling;
};

static struct cell *cells;
static size_t cell_count, cells_used;

static inline uint64_t mixed(uint64_t hash, uint64_t word) {
    unsigned __int128 product = (unsigned __int128)(hash ^ word) * 0x9e3779b97f4a7c15u;
    return (uint64_t)product ^ (uint64_t)(product >> 64);
}

static inline uint64_t hash_of(const byte *text, size_t length) {
    uint64_t hash = 0x243f6a8885a308d3u ^ length;
    for (; length >= 8; text += 8, length -= 8)
        hash = mixed(hash, get8(text));
    uint64_t rest = 0;
    for (size_t i = 0; i < length; i++)
        rest = rest << 8 | text[i];
    return mixed(hash, rest);
}

static inline struct spelling *find(const byte *text, size_t length, uint64_t hash) {
    for (size_t i = hash & (cell_count - 1);; i = (i + 1) & (cell_count - 1)) {
        struct spelling *s = cells[i].spelling;
        if (s == NULL)
            return NULL;
        if (cells[i].hash == hash && s->length == length && memcmp(s->text, text, length) == 0)
            return s;
    }
}

static void enter_cell(struct cell cell) {
    size_t i = cell.hash & (cell_count - 1);
    while (cells[i].spelling != NULL)
        i = (i + 1) & (cell_count - 1);
    cells[i] = cell;
}

static void grow_cells(void) {
    struct cell *old = cells;
    size_t count = cell_count;
    cell_count = count == 0 ? 256 : 2 * count;
    cells = calloc(cell_count, sizeof *cells);
    if (cells == NULL)
        stop("out of memory");
    for (size_t i = 0; i < count; i++)
        if (old[i].spelling != NULL)
            enter_cell(old[i]);
    free(old);
}

static struct spelling *keep(const byte *text, size_t length, struct series **named, uint32_t count) {
    if (2 * (cells_used + 1) > cell_count)
        grow_cells();
    struct spelling *s = room(NULL, sizeof *s + length);
    s->length = (uint32_t)length;
    s->count = count;
    s->named = room(NULL, count * sizeof *named);
    memcpy(s->named, named, count * sizeof *named);
    memcpy(s->text, text, length);
    enter_cell((struct cell){.hash = hash_of(text, length), .spelling = s});
    cells_used++;
    return s;
}

/* A series with an entry at the end of the record, which is yet to be filled. */
static struct series *next_series(const byte *name, size_t length) {
    if (record_size + 106 + length > (size_t)slot * BLOCK)
        stop("the record is full");
    struct series *s = aligned_alloc(64, (sizeof *s + 63) / 64 * 64);
    if (s == NULL)
        stop("out of memory");
    memset(s, 0, sizeof *s);
    memset(s->rescue, 255, sizeof s->rescue);
    s->number = series_count;
    s->name_length = (uint32_t)length;
    memcpy(s->name, name, length);
    if ((series_count & (series_count - 1)) == 0)
        all = room(all, 2 * (series_count + 1) * sizeof *all);
    all[series_count++] = s;
    record[record_size] = (byte)length;
    record[record_size + 1] = (byte)(length >> 8);
    memmove(record + record_size + 2, name, length);
    s->at = record_size + 2 + length;
    record_size += 106 + length;
    keep(name, length, &s, 1);
    return s;
}

struct text {
    const byte *at;
    size_t length;
};

static size_t key_length(struct text tag) {
    const byte *end = memchr(tag.at, '=', tag.length);
    if (end == NULL || end == tag.at || end == tag.at + tag.length - 1)
        stop("bad name");
    return (size_t)(end - tag.at);
}

static int compare_keys(const void *first, const void *second) {
    const struct text *a = first, *b = second;
    size_t m = key_length(*a), n = key_length(*b);
    int order = memcmp(a->at, b->at, m < n ? m : n);
    return order != 0 ? order : (m > n) - (m < n);
}

/* The words of a text between these bytes, without the empty ones. */
static uint32_t split(struct text text, byte between, struct text *words, uint32_t most) {
    uint32_t count = 0;
    const byte *end = text.at + text.length;
    for (const byte *p = text.at; p < end;) {
        const byte *next = memchr(p, between, (size_t)(end - p));
        if (next == NULL)
            next = end;
        if (next > p) {
            if (count == most)
                stop("bad name");
            words[count++] = (struct text){.at = p, .length = (size_t)(next - p)};
        }
        p = next + 1;
    }
    return count;
}

static struct series *series_of(struct text metric, const struct text *tags, uint32_t count) {
    byte name[MOST_NAME + 2];
    size_t length = metric.length;
    if (length > MOST_NAME)
        stop("bad name");
    memcpy(name, metric.at, length);
    for (uint32_t i = 0; i < count; i++) {
        if (length + 1 + tags[i].length > MOST_NAME)
            stop("bad name");
        name[length++] = ' ';
        memcpy(name + length, tags[i].at, tags[i].length);
        length += tags[i].length;
    }
    struct spelling *known = find(name, length, hash_of(name, length));
    if (known != NULL)
        return known->named[0];
    if (!was_empty)
        stop("the store had series before");
    struct series *s = next_series(name, length);
    enter_in_record(s);
    return s;
}

/* The series of a text that wasn't read before. */
static struct spelling *spelling_of(struct text text) {
    struct text words[1 + MOST_TAGS], metrics[MOST_METRICS];
    struct series *named[MOST_METRICS];
    uint32_t tags = split(text, ' ', words, 1 + MOST_TAGS);
    if (tags == 0)
        stop("bad name");
    tags--;
    for (uint32_t i = 1; i <= tags; i++)
        key_length(words[i]);
    qsort(words + 1, tags, sizeof *words, compare_keys);
    uint32_t count = split(words[0], '|', metrics, MOST_METRICS);
    for (uint32_t i = 0; i < count; i++)
        named[i] = series_of(metrics[i], words + 1, tags);
    /* The canonical name of one series has come into the table with it. */
    struct spelling *known = find(text.at, text.length, hash_of(text.at, text.length));
    return known != NULL ? known : keep(text.at, text.length, named, count);
}

/* Messages. Behind the bytes that were read stands a zero, which is in no number and no end of a line. A function gives NULL
 * where the bytes end too early. */

static inline const byte *end_of_line(const byte *p, const byte *end) {
    if (end - p < 2)
        return NULL;
    if (p[0] != '\r' || p[1] != '\n')
        stop("bad line end");
    return p + 2;
}

static inline const byte *read_digits(const byte *p, uint64_t *number) {
    uint64_t sum = 0;
    unsigned digit;
    /* A number of 19 digits is below 2^64. */
    const byte *start = p, *most = p + 19;
    for (; p < most && (digit = *p - (unsigned)'0') <= 9; p++)
        sum = 10 * sum + digit;
    if (p == most)
        for (; (digit = *p - (unsigned)'0') <= 9; p++)
            if (__builtin_mul_overflow(sum, 10, &sum) || __builtin_add_overflow(sum, digit, &sum))
                stop("number out of range");
    if (p == start && *p != 0 && *p != '.')
        stop("bad number");
    *number = sum;
    return p;
}

static inline const byte *read_count(const byte *p, const byte *end, uint64_t *count) {
    p = end_of_line(read_digits(p, count), end);
    if (p != NULL && *count > 65536)
        stop("long bulk");
    return p;
}

/* Where the content of a part with a number begins, and for a bulk where it ends. */
static inline const byte *number_part(const byte *p, const byte *end, const byte **last) {
    *last = NULL;
    if (p >= end)
        return NULL;
    if (*p == '+' || *p == ':')
        return p + 1;
    if (*p != '$')
        stop("wrong shape");
    uint64_t length;
    p = read_count(p + 1, end, &length);
    if (p != NULL)
        *last = p + length;
    return p;
}

static inline const byte *end_of_number(const byte *p, const byte *last, const byte *end) {
    if (last != NULL && p != last && p < end)
        stop("bad number");
    return end_of_line(p, end);
}

static inline const byte *read_time(const byte *p, const byte *end, uint64_t *time) {
    const byte *last;
    p = number_part(p, end, &last);
    if (p == NULL)
        return NULL;
    int negative = *p == '-';
    if (negative || *p == '+')
        p++;
    p = read_digits(p, time);
    if (negative && *time != 0)
        stop("timestamp out of range");
    return end_of_number(p, last, end);
}

static const byte *read_fraction(const byte *p, uint64_t *units) {
    unsigned digit;
    uint32_t kept = 0;
    if (*p == '.')
        for (p++; (digit = *p - (unsigned)'0') <= 9; p++) {
            if (kept == scale) {
                if (digit != 0)
                    stop("bad value");
                continue;
            }
            if (__builtin_mul_overflow(*units, 10, units) || __builtin_add_overflow(*units, digit, units))
                stop("value out of range");
            kept++;
        }
    for (; kept < scale; kept++)
        if (__builtin_mul_overflow(*units, 10, units))
            stop("value out of range");
    return p;
}

static inline const byte *read_value(const byte *p, const byte *end, int64_t *value) {
    const byte *last;
    p = number_part(p, end, &last);
    if (p == NULL)
        return NULL;
    uint64_t units;
    int negative = *p == '-';
    if (negative || *p == '+')
        p++;
    p = read_digits(p, &units);
    if (scale != 0 || *p == '.')
        p = read_fraction(p, &units);
    if (units > (uint64_t)INT64_MAX + (uint64_t)negative)
        stop("value out of range");
    *value = (int64_t)(negative ? -units : units);
    return end_of_number(p, last, end);
}

static inline const byte *read_text(const byte *p, const byte *end, struct text *text) {
    if (p >= end)
        return NULL;
    if (*p == '+') {
        p++;
        const byte *last = memchr(p, '\r', (size_t)(end - p));
        if (last == NULL)
            return NULL;
        *text = (struct text){.at = p, .length = (size_t)(last - p)};
        return end_of_line(last, end);
    }
    if (*p != '$')
        stop("wrong shape");
    uint64_t length;
    p = read_count(p + 1, end, &length);
    if (p == NULL || (uint64_t)(end - p) < length + 2)
        return NULL;
    *text = (struct text){.at = p, .length = length};
    return end_of_line(p + length, end);
}

static const byte *read_values(const byte *p, const byte *end, int64_t *values, uint64_t *count) {
    p = read_count(p + 1, end, count);
    if (p != NULL && *count > MOST_VALUES)
        stop("wrong shape");
    for (uint64_t i = 0; p != NULL && i < *count; i++)
        p = read_value(p, end, &values[i]);
    return p;
}

static inline void check_time(struct series *s, uint64_t time) {
    if (time < (s->block != NULL ? s->time : s->last))
        stop("late");
}

static inline const byte *take_put(const byte *p, const byte *end, struct text name) {
    uint64_t time, count = 1;
    int64_t values[MOST_VALUES];
    p = read_time(p, end, &time);
    if (p == NULL || p >= end)
        return NULL;
    p = *p == '*' ? read_values(p, end, values, &count) : read_value(p, end, values);
    if (p == NULL)
        return NULL;
    struct spelling *spelling = find(name.at, name.length, hash_of(name.at, name.length));
    if (spelling == NULL)
        spelling = spelling_of(name);
    if (spelling->count != count)
        stop("counts differ");
    for (uint64_t i = 0; i < count; i++)
        check_time(spelling->named[i], time);
    for (uint64_t i = 0; i < count; i++)
        append(spelling->named[i], time, values[i]);
    return p;
}

/* Answers. */

static void tell(const byte *bytes, size_t count) {
    while (count > 0) {
        ssize_t written = write(1, bytes, count);
        if (written < 0)
            fail("write");
        bytes += written;
        count -= (size_t)written;
    }
}

static const char two_digits[] = "00010203040506070809101112131415161718192021222324252627282930313233343536373839"
                                 "40414243444546474849505152535455565758596061626364656667686970717273747576777879"
                                 "8081828384858687888990919293949596979899";

static byte *write_number(byte *to, uint64_t x) {
    byte digits[20], *front = digits + 20;
    while (x >= 100) {
        front -= 2;
        memcpy(front, two_digits + 2 * (x % 100), 2);
        x /= 100;
    }
    if (x >= 10) {
        front -= 2;
        memcpy(front, two_digits + 2 * x, 2);
    } else {
        *--front = (byte)('0' + x);
    }
    size_t count = (size_t)(digits + 20 - front);
    memcpy(to, front, count);
    return to + count;
}

static byte *write_value(byte *to, int64_t value) {
    uint64_t units = value < 0 ? -(uint64_t)value : (uint64_t)value;
    if (value < 0)
        *to++ = '-';
    uint64_t one = 1;
    for (uint32_t i = 0; i < scale; i++)
        one *= 10;
    if (one == 1)
        return write_number(to, units);
    to = write_number(to, units / one);
    uint64_t rest = units % one;
    if (rest == 0)
        return to;
    *to++ = '.';
    for (; rest != 0; rest = 10 * rest % one)
        *to++ = (byte)('0' + 10 * rest / one);
    return to;
}

/* The rows of an answer, behind room for what stands before them. */
static byte *rows;
static size_t rows_end, rows_room;

enum { BEFORE_ROWS = 32, MOST_NUMBERS = 64 };

static void write_points(const byte *block, uint32_t count, const byte *front, size_t length) {
    size_t most = count * (length + MOST_NUMBERS) + 2;
    if (rows_room - rows_end < most) {
        rows_room = 2 * rows_room + most;
        rows = room(rows, rows_room);
    }
    byte *to = rows + rows_end;
    uint64_t time = 0, value = 0, x, high;
    const byte *p = block + HEAD;
    for (uint32_t i = 0; i < count; i++) {
        p = read_spelled(p, &x, &high);
        time += x;
        p = read_spelled(p, &x, &high);
        value += ((x >> 1) | high << 63) ^ -(x & 1);
        memcpy(to, front, length);
        to = write_number(to + length, time);
        *to++ = ',';
        to = write_value(to, (int64_t)value);
        *to++ = '\n';
    }
    rows_end = (size_t)(to - rows);
}

static size_t write_front(byte *to, struct series *s) {
    byte *start = to;
    int quoted = memchr(s->name, ',', s->name_length) != NULL || memchr(s->name, '"', s->name_length) != NULL;
    if (quoted)
        *to++ = '"';
    for (uint32_t i = 0; i < s->name_length; i++) {
        if (s->name[i] == '"')
            *to++ = '"';
        *to++ = (byte)s->name[i];
    }
    if (quoted)
        *to++ = '"';
    *to++ = ',';
    return (size_t)(to - start);
}

static int is_live(uint64_t at) {
    uint64_t ordinal = at >> 32;
    return ordinal >= low && ordinal < (uint64_t)low + live && (uint32_t)at < fills[ordinal - low];
}

/* Reads the leaves of a series from the last back, each once, and writes the rows of all from the first on. */
static void write_series(struct series *s) {
    static byte *read;
    static size_t read_room;
    size_t count = 0;
    byte front[2 * MOST_NAME + 3];
    size_t length = write_front(front, s);
    uint64_t number = s->leaves;
    for (uint64_t at = s->rescue[0]; number > 0 && is_live(at); count++) {
        if (count == read_room) {
            read_room = read_room == 0 ? 64 : 2 * read_room;
            read = room(read, read_room * BLOCK);
        }
        byte *block = read + count * BLOCK;
        read_block(volume_files[(at >> 32) % volumes], (uint32_t)at, block);
        number--;
        if (block[0] != 1 || get4(block + 4) != s->number || get8(block + 8) != number || get8(block + 16) != at)
            stop("damaged leaf");
        at = get8(block + 24);
    }
    while (count > 0) {
        const byte *block = read + --count * BLOCK;
        write_points(block, block[2] | (uint32_t)block[3] << 8, front, length);
    }
    if (s->block != NULL)
        write_points(s->block, s->count, front, length);
}

static void answer_query(struct text text) {
    static const char before[] = "{\"select\":\"", after[] = "\"}";
    size_t length = sizeof before - 1 + sizeof after - 1;
    if (text.length <= length || memcmp(text.at, before, sizeof before - 1) != 0)
        stop("unknown query");
    const byte *metric = text.at + sizeof before - 1;
    length = text.length - length;
    if (memcmp(metric + length, after, sizeof after - 1) != 0)
        stop("unknown query");
    rows_end = BEFORE_ROWS;
    rows_room = 1 << 20;
    rows = room(rows, rows_room);
    for (uint32_t i = 0; i < series_count; i++)
        if (all[i]->name_length >= length && memcmp(all[i]->name, metric, length) == 0 &&
            (all[i]->name_length == length || all[i]->name[length] == ' '))
            write_series(all[i]);
    char head[BEFORE_ROWS];
    int head_length = snprintf(head, sizeof head, "$%zu\r\n", rows_end - BEFORE_ROWS);
    byte *start = rows + BEFORE_ROWS - head_length;
    memcpy(start, head, (size_t)head_length);
    memcpy(rows + rows_end, "\r\n", 2);
    tell(start, (size_t)(rows + rows_end + 2 - start));
}

static const byte *take_control(const byte *p, const byte *end, struct text name) {
    if (name.length == 6 && memcmp(name.at, "!flush", 6) == 0) {
        flush();
        tell((const byte *)"+OK\r\n", 5);
        return p;
    }
    if (name.length != 6 || memcmp(name.at, "!query", 6) != 0)
        stop("unknown control");
    struct text text;
    p = read_text(p, end, &text);
    if (p != NULL)
        answer_query(text);
    return p;
}

static const byte *take_message(const byte *p, const byte *end) {
    struct text name;
    p = read_text(p, end, &name);
    if (p == NULL)
        return NULL;
    if (name.length > 0 && name.at[0] == '!')
        return take_control(p, end, name);
    return take_put(p, end, name);
}

static void serve(void) {
    size_t size = 0, most = 1 << 16;
    byte *bytes = room(NULL, most + PIECE + 1);
    for (;;) {
        ssize_t count = read(0, bytes + size, PIECE);
        if (count < 0)
            fail("read");
        if (count == 0)
            break;
        size += (size_t)count;
        bytes[size] = 0;
        const byte *p = bytes, *end = bytes + size;
        for (const byte *next; p < end && (next = take_message(p, end)) != NULL;)
            p = next;
        size = (size_t)(end - p);
        memmove(bytes, p, size);
        if (size > most) {
            most *= 2;
            bytes = room(bytes, most + PIECE + 1);
        }
    }
    if (size != 0)
        stop("input ended inside a message");
    flush();
}

/* Opening. */

static int open_in(const char *directory, const char *name, int flags) {
    size_t length = strlen(directory) + strlen(name) + 2;
    char *path = room(NULL, length);
    snprintf(path, length, "%s/%s", directory, name);
    int file = open(path, flags);
    if (file < 0)
        fail(path);
    free(path);
    return file;
}

static void sync_in(const char *directory, const char *name) {
    int file = open_in(directory, name, O_RDONLY);
    sync_file(file);
    close(file);
}

static uint64_t read_frame(int half, byte *block) {
    read_block(meta, 2 + (uint64_t)half * slot, block);
    return get8(block + 8);
}

static void read_series(size_t end) {
    while (record_size < end) {
        const byte *from = record + record_size;
        size_t length = from[0] | (size_t)from[1] << 8;
        struct series *s = next_series(from + 2, length);
        s->leaves = get8(record + s->at);
        s->last = get8(record + s->at + 8);
        memcpy(s->rescue, record + s->at + 16, sizeof s->rescue);
    }
}

static void read_record(void) {
    byte gates[2][BLOCK], block[BLOCK];
    off_t size = lseek(meta, 0, SEEK_END);
    slot = (uint32_t)(size / BLOCK - 2) / 2;
    read_block(meta, 0, gates[0]);
    read_block(meta, 1, gates[1]);
    int first = gates[0][0] == 1, second = gates[1][0] == 1;
    if (!first && !second)
        stop("no store");
    newest_half = !first || (second && read_frame(1, block) > read_frame(0, block));
    other_open = first && second;
    view_number = read_frame(newest_half, block);
    size_t end = FRONT + get8(block);
    record = calloc(slot, BLOCK);
    if (record == NULL || end > (size_t)slot * BLOCK)
        stop("no room for the record");
    for (size_t done = 0; done < end; done += BLOCK)
        read_block(meta, 2 + (uint64_t)newest_half * slot + done / BLOCK, record + done);
    memset(record + end, 0, (size_t)slot * BLOCK - end);
    const byte *numbers = record + FRONT;
    volumes = get4(numbers + 4);
    blocks = get4(numbers + 8);
    pool = get4(numbers + 16);
    every = get4(numbers + 20);
    scale = get4(numbers + 24);
    low = get4(numbers + 28);
    live = get4(numbers + 32);
    was_empty = get4(numbers + 36) == 0;
    fills = room(NULL, 4 * volumes);
    memcpy(fills, numbers + NUMBERS, 4 * volumes);
    record_size = FRONT + NUMBERS + 4 * volumes;
    read_series(end);
}

static void open_store(const char *directory) {
    sync_in(directory, "..");
    sync_in(directory, ".");
    meta = open_in(directory, "meta", O_RDWR);
    sync_file(meta);
    posix_fadvise(meta, 0, 0, POSIX_FADV_DONTNEED);
    grow_cells();
    read_record();
    volume_files = room(NULL, volumes * sizeof *volume_files);
    for (uint32_t i = 0; i < volumes; i++) {
        char name[32];
        snprintf(name, sizeof name, "vol%04u", i + 1);
        volume_files[i] = open_in(directory, name, O_RDWR);
        sync_file(volume_files[i]);
    }
    byte *frames = room(NULL, (size_t)pool * FRAME);
    free_frames = room(NULL, pool * sizeof *free_frames);
    for (free_count = 0; free_count < pool; free_count++)
        free_frames[free_count] = frames + (size_t)free_count * FRAME;
}

int main(int count, char **words) {
    if (count != 2)
        stop("usage: floor DIR <STREAM >ANSWERS");
    open_store(words[1]);
    serve();
    return 0;
}
