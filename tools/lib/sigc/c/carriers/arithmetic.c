/* Each of these gives a result where that is within 64 bits, and returns whether it is not. */

static inline int add(int64_t a, int64_t b, int64_t *result)
{
#ifdef __GNUC__
    return __builtin_add_overflow(a, b, result);
#else
    if (b > 0 ? a > INT64_MAX - b : a < INT64_MIN - b) {
        return 1;
    }
    *result = a + b;
    return 0;
#endif
}

static inline int subtract(int64_t a, int64_t b, int64_t *result)
{
#ifdef __GNUC__
    return __builtin_sub_overflow(a, b, result);
#else
    if (b > 0 ? a < INT64_MIN + b : a > INT64_MAX + b) {
        return 1;
    }
    *result = a - b;
    return 0;
#endif
}

static inline int multiply(int64_t a, int64_t b, int64_t *result)
{
#ifdef __GNUC__
    return __builtin_mul_overflow(a, b, result);
#else
    if (a > 0 ? (b > 0 ? a > INT64_MAX / b : b < INT64_MIN / a) : (b > 0 ? a < INT64_MIN / b : a != 0 && b < INT64_MAX / a)) {
        return 1;
    }
    *result = a * b;
    return 0;
#endif
}

static inline int negate(int64_t a, int64_t *result)
{
    if (a == INT64_MIN) {
        return 1;
    }
    *result = -a;
    return 0;
}
