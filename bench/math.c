// Arguments for the functions of `math.h`, the errors of values beside a library of 113 bits, and the time of the C library.
//
//     gcc -O2 -ffp-contract=off -o math bench/math.c -lquadmath -lm
//     ./math arguments FUNCTION MANY            lines with the codes of two arguments
//     ./math errors FUNCTION ARGUMENTS VALUES   how many values aren't the nearest double, and the worst error in units in the last place
//     ./math time FUNCTION ARGUMENTS ROUNDS     as often as that, by the C library
#include <inttypes.h>
#include <math.h>
#include <quadmath.h>
#include <stdio.h>
#include <stdlib.h>
#include <string.h>
#include <time.h>

static uint64_t state = 20261201;

// SplitMix64.
static uint64_t random_code(void)
{
    uint64_t z = state += 0x9e3779b97f4a7c15;
    z = (z ^ z >> 30) * 0xbf58476d1ce4e5b9;
    z = (z ^ z >> 27) * 0x94d049bb133111eb;
    return z ^ z >> 31;
}

static double of_code(uint64_t code)
{
    double x;
    memcpy(&x, &code, sizeof x);
    return x;
}

static uint64_t code_of(double x)
{
    uint64_t code;
    if (isnan(x))
        return 0x7ff8000000000000;
    memcpy(&code, &x, sizeof x);
    return code;
}

static double between(double low, double high)
{
    return low + (high - low) * ((random_code() >> 11) * 0x1p-53);
}

// Of any size from 2^low to below 2^high.
static double sized(int low, int high)
{
    int exponent = low + (int)(random_code() % (uint64_t)(high - low));
    return ldexp(1 + (random_code() >> 12) * 0x1p-52, exponent);
}

static double with_sign(double x)
{
    return random_code() & 1 ? -x : x;
}

struct function {
    const char *name;
    double (*one)(double);
    double (*two)(double, double);
    __float128 (*exact_one)(__float128);
    __float128 (*exact_two)(__float128, __float128);
};

static const struct function functions[] = {
    {"exp", exp, 0, expq, 0}, {"exp2", exp2, 0, exp2q, 0}, {"log", log, 0, logq, 0}, {"log2", log2, 0, log2q, 0},
    {"log10", log10, 0, log10q, 0}, {"cbrt", cbrt, 0, cbrtq, 0}, {"sin", sin, 0, sinq, 0}, {"cos", cos, 0, cosq, 0},
    {"tan", tan, 0, tanq, 0}, {"asin", asin, 0, asinq, 0}, {"acos", acos, 0, acosq, 0}, {"atan", atan, 0, atanq, 0},
    {"sinh", sinh, 0, sinhq, 0}, {"cosh", cosh, 0, coshq, 0}, {"tanh", tanh, 0, tanhq, 0}, {"sqrt", sqrt, 0, sqrtq, 0},
    {"pow", 0, pow, 0, powq}, {"atan2", 0, atan2, 0, atan2q}, {"hypot", 0, hypot, 0, hypotq}, {"fmod", 0, fmod, 0, fmodq},
};

static int is(const char *name, const char *other)
{
    return !strcmp(name, other);
}

// Half of the arguments are of the sizes that programs have, and half of all sizes at which the value is neither 0 nor an infinity.
static double argument(const char *name)
{
    int usual = random_code() & 1;
    if (is(name, "exp"))
        return usual ? between(-10, 10) : between(-745, 709.7);
    if (is(name, "exp2"))
        return usual ? between(-10, 10) : between(-1074, 1023.9);
    if (!strncmp(name, "log", 3))
        return usual ? between(0, 10) : sized(-1022, 1024);
    if (is(name, "asin") || is(name, "acos"))
        return usual ? between(-1, 1) : with_sign(sized(-60, 0));
    if (is(name, "sin") || is(name, "cos") || is(name, "tan"))
        return usual ? between(-10, 10) : with_sign(sized(-60, 1000));
    if (is(name, "sinh") || is(name, "cosh"))
        return usual ? between(-10, 10) : with_sign(sized(-60, 9));
    if (is(name, "tanh"))
        return usual ? between(-10, 10) : with_sign(sized(-60, 6));
    if (is(name, "sqrt"))
        return usual ? between(0, 10) : sized(-1022, 1024);
    return usual ? between(-10, 10) : with_sign(sized(-1022, 1024));
}

static void write_arguments(const char *name, long many)
{
    for (long k = 0; k < many; k++) {
        double x = argument(name), y = argument(name);
        if (is(name, "pow")) {
            int usual = random_code() & 1;
            x = usual ? between(0, 10) : sized(-1022, 1024);
            y = usual ? between(-10, 10) : between(-745, 709) / log(x);
        } else if (is(name, "hypot") || is(name, "atan2") || is(name, "fmod")) {
            y = with_sign(fabs(x) * sized(-20, 20));
        }
        printf("%" PRIu64 " %" PRIu64 "\n", code_of(x), code_of(y));
    }
}

// The size of the last place of the doubles about a number.
static __float128 last_place(double x)
{
    int exponent;
    frexp(x, &exponent);
    return ldexpq(1, exponent < -1021 ? -1074 : exponent - 53);
}

static void tell_errors(const struct function *f, FILE *arguments, FILE *values)
{
    uint64_t a, b, c, worst_at[2] = {0, 0};
    long many = 0, not_nearest = 0, subnormal = 0, other = 0;
    double worst = 0;
    while (fscanf(arguments, "%" SCNu64 " %" SCNu64, &a, &b) == 2 && fscanf(values, "%" SCNu64, &c) == 1) {
        double x = of_code(a), y = of_code(b), r = of_code(c);
        __float128 exact = f->exact_one ? f->exact_one(x) : f->exact_two(x, y);
        double nearest = (double)exact, library = f->one ? f->one(x) : f->two(x, y);
        many++;
        not_nearest += code_of(nearest) != code_of(r);
        other += code_of(library) != code_of(nearest);
        subnormal += fabs(nearest) < 0x1p-1022;
        if (isfinite(nearest) && isfinite(r)) {
            double error = (double)(fabsq(exact - r) / last_place(nearest));
            if (error > worst)
                worst = error, worst_at[0] = a, worst_at[1] = b;
        }
    }
    printf("%s: %ld values, %ld of them subnormal; %ld not the nearest, worst error %.6f at %" PRIu64 " %" PRIu64 "; of the C library %ld\n", f->name, many,
           subnormal, not_nearest, worst, worst_at[0], worst_at[1], other);
}

static void tell_time(const struct function *f, FILE *arguments, long rounds)
{
    size_t many = 0, room = 1 << 20;
    double(*pairs)[2] = malloc(room * sizeof *pairs);
    uint64_t a, b;
    volatile uint64_t value;
    while (many < room && fscanf(arguments, "%" SCNu64 " %" SCNu64, &a, &b) == 2) {
        pairs[many][0] = of_code(a);
        pairs[many++][1] = of_code(b);
    }
    clock_t begin = clock();
    for (long r = 0; r < rounds; r++)
        for (size_t k = 0; k < many; k++)
            value = code_of(f->one ? f->one(pairs[k][0]) : f->two(pairs[k][0], pairs[k][1]));
    (void)value;
    printf("%.1f ns\n", (double)(clock() - begin) / CLOCKS_PER_SEC * 1e9 / many / rounds);
}

int main(int count, char **words)
{
    for (size_t k = 0; count > 3 && k < sizeof functions / sizeof *functions; k++) {
        const struct function *f = functions + k;
        if (!is(f->name, words[2]))
            continue;
        if (is(words[1], "arguments"))
            write_arguments(f->name, atol(words[3]));
        else if (is(words[1], "errors") && count > 4)
            tell_errors(f, fopen(words[3], "r"), fopen(words[4], "r"));
        else if (is(words[1], "time") && count > 4)
            tell_time(f, fopen(words[3], "r"), atol(words[4]));
        return 0;
    }
    return 1;
}
