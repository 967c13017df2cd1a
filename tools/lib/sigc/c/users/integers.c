
static void put_digits(Context *it, int64_t value)
{
    char digits[DIGITS];
    sprintf(digits, "%lld", (long long)value);
    put_text(it, digits);
}
