// Forms of the innermost loop of the shadows, of which the instructions are counted: two rows and the control entry are merged into a third row, and
// each level's path is raised to it. Both rows are live at all levels. Times are of 64 bits without sign, but where the form says otherwise.
//
//     clang -O2 -msse4.2 -o merge bench/merge.c
//     valgrind --tool=callgrind --callgrind-out-file=/dev/null ./merge loop 8 3000
#include <smmintrin.h>
#include <stdint.h>
#include <stdio.h>
#include <stdlib.h>
#include <string.h>

struct row {
    uint64_t stamp;
    uint64_t times[32];
};

struct narrow_row {
    uint64_t stamp;
    uint32_t times[32];
};

static uint64_t numbers[32], before[32], paths[32], depth, latency = 1;
static uint32_t narrow_before[32], narrow_paths[32];

static uint64_t max(uint64_t a, uint64_t b)
{
    return a < b ? b : a;
}

static inline void merge_level(const struct row *a, const struct row *b, struct row *to, uint64_t level)
{
    uint64_t time = max(max(a->times[level], b->times[level]), before[level]) + latency;
    uint64_t path = paths[level];
    to->times[level] = time;
    paths[level] = max(path, time);
}

// One comparison with the level's number for each level, as in `given.rt`.
static void rest(const struct row *a, const struct row *b, struct row *to, uint64_t level)
{
    for (; level < depth && numbers[level] <= a->stamp; level++)
        merge_level(a, b, to, level);
}

static void none(const struct row *a, const struct row *b, struct row *to)
{
}

static void loop(const struct row *a, const struct row *b, struct row *to)
{
    rest(a, b, to, 0);
}

// Two or four levels at a time, as long as the innermost of them is live; the rest one at a time.
static void pairs(const struct row *a, const struct row *b, struct row *to)
{
    uint64_t level = 0;
    for (; level + 1 < depth && numbers[level + 1] <= a->stamp; level += 2) {
        merge_level(a, b, to, level);
        merge_level(a, b, to, level + 1);
    }
    rest(a, b, to, level);
}

static void fours(const struct row *a, const struct row *b, struct row *to)
{
    uint64_t level = 0;
    for (; level + 3 < depth && numbers[level + 3] <= a->stamp; level += 4)
        for (int i = 0; i < 4; i++)
            merge_level(a, b, to, level + i);
    rest(a, b, to, level);
}

// Whole fours, also behind the last live level: entry and paths must be arrays of 32 then, and rows be live at all levels.
static void whole_fours(const struct row *a, const struct row *b, struct row *to)
{
    if (numbers[depth - 1] > a->stamp)
        return rest(a, b, to, 0);
    for (uint64_t level = 0; level < depth; level += 4)
        for (int i = 0; i < 4; i++)
            merge_level(a, b, to, level + i);
}

static __m128i lanes(const void *from)
{
    return _mm_loadu_si128(from);
}

static __m128i max_signed(__m128i a, __m128i b)
{
    return _mm_blendv_epi8(b, a, _mm_cmpgt_epi64(a, b));
}

static __m128i max_unsigned(__m128i a, __m128i b)
{
    __m128i low = _mm_set1_epi64x(INT64_MIN);
    return _mm_blendv_epi8(b, a, _mm_cmpgt_epi64(_mm_xor_si128(a, low), _mm_xor_si128(b, low)));
}

#define MERGE_LANES(name, later)                                                                                    \
    static inline void name(const struct row *a, const struct row *b, struct row *to, uint64_t level)               \
    {                                                                                                               \
        __m128i latest = later(later(lanes(a->times + level), lanes(b->times + level)), lanes(before + level));     \
        __m128i time = _mm_add_epi64(latest, _mm_set1_epi64x(latency));                                             \
        __m128i path = lanes(paths + level);                                                                        \
        _mm_storeu_si128((void *)(to->times + level), time);                                                        \
        _mm_storeu_si128((void *)(paths + level), later(path, time));                                               \
    }
MERGE_LANES(merge_unsigned, max_unsigned)
MERGE_LANES(merge_signed, max_signed)

static void lanes_unsigned(const struct row *a, const struct row *b, struct row *to)
{
    uint64_t level = 0;
    for (; level + 1 < depth && numbers[level + 1] <= a->stamp; level += 2)
        merge_unsigned(a, b, to, level);
    rest(a, b, to, level);
}

// Times below 2^63.
static void lanes_signed(const struct row *a, const struct row *b, struct row *to)
{
    uint64_t level = 0;
    for (; level + 1 < depth && numbers[level + 1] <= a->stamp; level += 2)
        merge_signed(a, b, to, level);
    rest(a, b, to, level);
}

static void whole_lanes_unsigned(const struct row *a, const struct row *b, struct row *to)
{
    if (numbers[depth - 1] > a->stamp)
        return rest(a, b, to, 0);
    for (uint64_t level = 0; level < depth; level += 2)
        merge_unsigned(a, b, to, level);
}

static void whole_lanes_signed(const struct row *a, const struct row *b, struct row *to)
{
    if (numbers[depth - 1] > a->stamp)
        return rest(a, b, to, 0);
    for (uint64_t level = 0; level < depth; level += 2)
        merge_signed(a, b, to, level);
}

// Times below 2^32, in rows, entry and paths of 32 bits.
static void narrow(const struct row *wide_a, const struct row *wide_b, struct row *wide_to)
{
    const struct narrow_row *a = (const void *)wide_a, *b = (const void *)wide_b;
    struct narrow_row *to = (void *)wide_to;
    if (numbers[depth - 1] > a->stamp)
        return;
    for (uint64_t level = 0; level < depth; level += 4) {
        __m128i latest = _mm_max_epu32(_mm_max_epu32(lanes(a->times + level), lanes(b->times + level)), lanes(narrow_before + level));
        __m128i time = _mm_add_epi32(latest, _mm_set1_epi32((int)latency));
        __m128i path = lanes(narrow_paths + level);
        _mm_storeu_si128((void *)(to->times + level), time);
        _mm_storeu_si128((void *)(narrow_paths + level), _mm_max_epu32(path, time));
    }
}

static const struct {
    const char *name;
    void (*merge)(const struct row *, const struct row *, struct row *);
} forms[] = {
    {"none", none}, {"loop", loop}, {"pairs", pairs}, {"fours", fours}, {"whole-fours", whole_fours}, {"lanes-unsigned", lanes_unsigned},
    {"lanes-signed", lanes_signed}, {"whole-lanes-unsigned", whole_lanes_unsigned}, {"whole-lanes-signed", whole_lanes_signed}, {"narrow", narrow},
};

int main(int count, char **words)
{
    static struct row rows[3];
    if (count != 4)
        return 2;
    depth = (uint64_t)atoi(words[2]);
    int turns = atoi(words[3]);
    for (uint64_t level = 0; level < 32; level++)
        numbers[level] = level + 1;
    rows[0].stamp = rows[1].stamp = 32;
    for (size_t form = 0; form < sizeof forms / sizeof *forms; form++)
        if (strcmp(words[1], forms[form].name) == 0)
            for (int turn = 0; turn < turns; turn++) {
                forms[form].merge(&rows[0], &rows[1], &rows[2]);
                __asm__ volatile("" ::: "memory");
            }
    printf("%llu\n", (unsigned long long)rows[2].times[0]);
}
