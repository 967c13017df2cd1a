
static void put_text(Context *it, const char *text)
{
    put(it, text, strlen(text));
}
