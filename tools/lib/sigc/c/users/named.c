
/* The name of a value; a number where it is none of the enumeration. */
static void put_named(Context *it, const Names *names, int64_t value)
{
    if (value >= 0 && value < names->count) {
        put_text(it, names->names[value]);
    } else {
        put_digits(it, value);
    }
}
