/* float32_sqrtf beside the machine's own square root, and float32_fabsf and float32_fmaxf beside
 * the rules of document 01. 'sqrt_test' takes a sample of the patterns with every exponent and both
 * signs; 'sqrt_test all' takes all 2^32. Exit status 1 where anything differs. */
#include <math.h>
#include <stdint.h>
#include <stdio.h>
#include <string.h>
#include <time.h>

float float32_sqrtf(float x);
float float32_fabsf(float x);
float float32_fmaxf(float x, float y);

typedef float (*function)(float);

#define SEED 20240607u
#define RANDOM_FOR_EACH 100000
#define SHOWN 10

static uint32_t bits(float x) { uint32_t b; memcpy(&b, &x, sizeof b); return b; }
static float number(uint32_t b) { float x; memcpy(&x, &b, sizeof x); return x; }

/* The same bits, or both a NaN. */
static int same(float a, float b) { return bits(a) == bits(b) || (isnan(a) && isnan(b)); }

/* Compiled without errno, so this is the instruction alone. */
__attribute__((noinline)) static float machine_sqrtf(float x) { return __builtin_sqrtf(x); }

static uint64_t state = SEED;
static uint32_t next_random(void)
{
    state = state * 6364136223846793005u + 1442695040888963407u;
    return (uint32_t)(state >> 32);
}

static uint64_t compared, differ;

static void compare_root(function root, uint32_t pattern)
{
    float x = number(pattern), r = root(x), m = machine_sqrtf(x);
    compared++;
    if (same(r, m))
        return;
    if (root == float32_sqrtf && differ < SHOWN)
        printf("sqrtf of %08x: %08x, the machine %08x\n", pattern, bits(r), bits(m));
    differ++;
}

static uint64_t report(const char *what, const char *items)
{
    uint64_t d = differ;
    printf("%s: %llu %s compared, %llu differ\n", what, (unsigned long long)compared, items, (unsigned long long)d);
    compared = differ = 0;
    return d;
}

/* Each sign and exponent with the significands at the ends, in the middle and at the powers of two,
 * and with random ones. */
static void roots_of_each_exponent(function root, int randoms)
{
    for (uint32_t high = 0; high < 512; high++) {
        uint32_t first = high << 23;
        for (uint32_t d = 0; d < 4; d++) {
            compare_root(root, first + d);
            compare_root(root, first + 0x7fffff - d);
            compare_root(root, first + 0x3ffffe + d);
        }
        for (int k = 2; k < 23; k++) {
            compare_root(root, first + (1u << k));
            compare_root(root, first + (1u << k) - 1);
        }
        for (int i = 0; i < randoms; i++)
            compare_root(root, first + (next_random() & 0x7fffff));
    }
}

/* The squares of whole numbers that binary32 holds, with their neighbours. */
static void roots_of_squares(function root)
{
    for (uint32_t k = 1; k < 4096; k++)
        for (uint32_t d = 0; d < 5; d++)
            compare_root(root, bits((float)(k * k)) + d - 2);
}

static void roots_of_all(function root)
{
    uint32_t pattern = 0;
    do
        compare_root(root, pattern);
    while (++pattern != 0);
}

/* A wrong root, to see that the comparison notices one. */
static float one_unit_off(float x)
{
    float m = machine_sqrtf(x);
    return isnan(m) || isinf(m) ? 0.0f : number(bits(m) + 1);
}

static int comparison_notices(void)
{
    roots_of_each_exponent(one_unit_off, 10);
    int ok = compared > 0 && differ == compared;
    if (!ok)
        printf("the comparison does not notice a wrong root\n");
    compared = differ = 0;
    return ok;
}

static const uint32_t special[] = {
    0x00000000, 0x00000001, 0x00000002, 0x007fffff, 0x00800000, 0x00800001, 0x3f7fffff, 0x3f800000,
    0x3f800001, 0x40000000, 0x42c80000, 0x7f7ffffe, 0x7f7fffff, 0x7f800000, 0x7f800001, 0x7fc00000,
    0x7fffffff,
};
#define SPECIAL (2 * (int)(sizeof special / sizeof *special))

/* The special values, each with both signs. */
static float special_value(int i) { return number(special[i / 2] | (i % 2 ? 0x80000000u : 0)); }

static void compare_special(const char *what, float x, float y, float r, float right)
{
    compared++;
    if (same(r, right))
        return;
    if (differ < SHOWN)
        printf("%s of %08x, %08x: %08x, right is %08x\n", what, bits(x), bits(y), bits(r), bits(right));
    differ++;
}

/* The number without its sign; of a NaN a NaN. */
static float right_fabs(float x) { return isnan(x) ? x : number(bits(x) & 0x7fffffff); }

/* Document 01: "fmaxf drops a NaN; of two unlike zeros it gives +0." */
static float right_fmax(float x, float y)
{
    if (isnan(x))
        return y;
    if (isnan(y))
        return x;
    if (x == 0 && y == 0)
        return bits(x) == 0 ? x : y;
    return x > y ? x : y;
}

static void fabs_of_special(void)
{
    for (int i = 0; i < SPECIAL; i++) {
        float x = special_value(i);
        compare_special("fabsf", x, x, float32_fabsf(x), right_fabs(x));
    }
}

static void fmax_of_special(void)
{
    for (int i = 0; i < SPECIAL; i++)
        for (int j = 0; j < SPECIAL; j++) {
            float x = special_value(i), y = special_value(j);
            compare_special("fmaxf", x, y, float32_fmaxf(x, y), right_fmax(x, y));
        }
}

static double now(void)
{
    struct timespec t;
    clock_gettime(CLOCK_MONOTONIC, &t);
    return t.tv_sec * 1e9 + t.tv_nsec;
}

#define CALLS 4096
#define ROUNDS 200
static float argument[CALLS];
static volatile float sink;

static double throughput(function f)
{
    double start = now();
    float a = 0;
    for (int i = 0; i < CALLS; i++)
        a += f(argument[i]);
    sink = a;
    return (now() - start) / CALLS;
}

/* Each call waits for the answer of the call before. */
static double chained(function f)
{
    double start = now();
    float a = 0;
    for (int i = 0; i < CALLS; i++)
        a = f(argument[i] + a * 1e-30f);
    sink = a;
    return (now() - start) / CALLS;
}

static void least(double *best, double t) { if (t < *best) *best = t; }

/* The rounds of the two sides alternate; each number is the best round's. */
static void time_calls(const char *arguments)
{
    double ours = 1e18, ours_chained = 1e18, machine = 1e18, machine_chained = 1e18;
    for (int i = 0; i < ROUNDS; i++) {
        least(&ours, throughput(float32_sqrtf));
        least(&machine, throughput(machine_sqrtf));
        least(&ours_chained, chained(float32_sqrtf));
        least(&machine_chained, chained(machine_sqrtf));
    }
    printf("%s: float32_sqrtf %.2f ns a call, the machine %.2f; chained %.2f and %.2f\n", arguments, ours, machine, ours_chained, machine_chained);
}

static void time_roots(void)
{
    for (int i = 0; i < CALLS; i++)
        argument[i] = number(next_random() % 0x7f800000u);
    time_calls("random patterns from 0 up");
    for (int i = 0; i < CALLS; i++)
        argument[i] = (float)(next_random() % 250000) + 0.37f;
    time_calls("numbers from 0 to 250,000");
}

int main(int count, char **words)
{
    int all = count == 2 && strcmp(words[1], "all") == 0;
    if (count > 1 && !all) {
        fprintf(stderr, "usage: sqrt_test [all]\n");
        return 2;
    }
    uint64_t bad = 0;
    double start = now();
    if (!comparison_notices())
        return 1;
    if (all) {
        roots_of_all(float32_sqrtf);
    } else {
        printf("seed %u\n", SEED);
        roots_of_each_exponent(float32_sqrtf, RANDOM_FOR_EACH);
        roots_of_squares(float32_sqrtf);
    }
    bad += report("sqrtf", "patterns");
    fabs_of_special();
    bad += report("fabsf", "patterns");
    fmax_of_special();
    bad += report("fmaxf", "pairs of patterns");
    printf("time: %.1f s\n", (now() - start) / 1e9);
    time_roots();
    return bad != 0;
}
