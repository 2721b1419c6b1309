// Prints crates/worked_examples/src/table.rt: what the host's C library gives for ln, asinh and atan2, 24 values each. Beside
// them it works out document 01's stand-ins in plain C and prints how far these are off, in units in the last place.
// gcc -O1 -ffp-contract=off oracle/libm_table.c -lm -o libm_table && ./libm_table > crates/worked_examples/src/table.rt
#include <gnu/libc-version.h>
#include <math.h>
#include <stdint.h>
#include <stdio.h>
#include <string.h>

static double horner(double z, int k, int sign) {
    double p = 1.0 / k;
    for (k -= 2; k >= 1; k -= 2)
        p = sign > 0 ? 1.0 / k + z * p : 1.0 / k - z * p;
    return p;
}

static double stand_in_ln(double x) {
    int e;
    double m = frexp(x, &e) * 2;
    e -= 1;
    if (m > 1.4142135623730951) {
        m /= 2;
        e += 1;
    }
    double t = (m - 1) / (m + 1);
    return e * 0.6931471805599453 + (t + t) * horner(t * t, 23, 1);
}

static double stand_in_asinh(double x) {
    double a = fabs(x), r;
    if (a > 268435456.0) {
        r = stand_in_ln(a) + 0.6931471805599453;
    } else {
        double w = a + a * a / (1 + sqrt(a * a + 1)), t = w / (2 + w);
        r = w <= 0.4142135623730951 ? (t + t) * horner(t * t, 23, 1) : stand_in_ln(1 + w);
    }
    return copysign(r, x);
}

static double stand_in_atan2(double y, double x) {
    double a = fabs(y), b = fabs(x), q = a > b ? b / a : a / b, base = 0;
    if (q > 0.4142135623730951) {
        q = (q - 1) / (q + 1);
        base = 3.141592653589793 / 4;
    }
    double r = base + q * horner(q * q, 45, -1);
    if (a > b)
        r = 3.141592653589793 / 2 - r;
    if (signbit(x))
        r = 3.141592653589793 - r;
    return copysign(r, y);
}

// doubles in order, as whole numbers
static int64_t place(double x) {
    int64_t b;
    memcpy(&b, &x, 8);
    return b < 0 ? INT64_MIN - b : b;
}

static long apart(double a, double b) {
    int64_t d = place(a) - place(b);
    return d < 0 ? -d : d;
}

#define N 24
static const double LN[N] = {5e-324, 1e-310, 2.5e-308, 1e-100, 1e-9, 0.03, 0.3, 0.5, 0.7, 0.71, 0.9, 0.999,
    0.99999999, 1.0000001, 1.001, 1.1, 1.41, 1.42, 2.0, 3.0, 10.0, 12345.678, 1e30, 1.7e308};
static const double ASINH[N] = {1e-310, -1e-20, 1e-9, -1e-4, 0.01, 0.1, -0.2, 0.3, 0.4, -0.41, 0.42, 0.5,
    0.7, 1.0, -1.5, 2.0, 3.0, 10.0, -1e3, 1e6, 2.6e8, 2.7e8, 1e20, -1e300};
static const double ATAN2[N][2] = {{1, 1}, {1, 2}, {2, 1}, {-1, 3}, {-3, 1}, {1, -2}, {2, -1}, {-1, -2}, {-2, -1},
    {0.41, 1}, {0.42, 1}, {1, 0.41}, {1, 0.42}, {1e-9, 1}, {1, 1e-9}, {-1e-300, 3}, {1e300, -1e-300}, {0.1, -0.3},
    {-0.3, 0.1}, {7, 7.000001}, {5e-324, 5e-324}, {1e-3, -1}, {3, 4}, {-4, -3}};

int main(void) {
    long worst[3] = {0, 0, 0};
    printf("// The host C library's ln, asinh and atan2 (argument, second argument or 0, value), made by oracle/libm_table.c; glibc %s, gcc %s.\n",
        gnu_get_libc_version(), __VERSION__);
    printf("pub const LN: [[f64; 3]; %d] = [\n", N);
    for (int i = 0; i < N; i++) {
        printf("    [%.17e, 0.0, %.17e],\n", LN[i], log(LN[i]));
        long d = apart(log(LN[i]), stand_in_ln(LN[i]));
        if (d > worst[0]) worst[0] = d;
    }
    printf("];\n\npub const ASINH: [[f64; 3]; %d] = [\n", N);
    for (int i = 0; i < N; i++) {
        printf("    [%.17e, 0.0, %.17e],\n", ASINH[i], asinh(ASINH[i]));
        long d = apart(asinh(ASINH[i]), stand_in_asinh(ASINH[i]));
        if (d > worst[1]) worst[1] = d;
    }
    printf("];\n\npub const ATAN2: [[f64; 3]; %d] = [\n", N);
    for (int i = 0; i < N; i++) {
        double y = ATAN2[i][0], x = ATAN2[i][1];
        printf("    [%.17e, %.17e, %.17e],\n", y, x, atan2(y, x));
        long d = apart(atan2(y, x), stand_in_atan2(y, x));
        if (d > worst[2]) worst[2] = d;
    }
    printf("];\n\n// The stand-ins in that program: at most %ld, %ld and %ld units in the last place off.\n", worst[0], worst[1], worst[2]);
    return 0;
}
