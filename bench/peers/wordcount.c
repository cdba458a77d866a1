/* Counts the words of standard input in a hash table, and writes them in the order of their bytes. */
#include <stdio.h>
#include <stdlib.h>
#include <string.h>

struct entry { const unsigned char *word; size_t length; unsigned long count; };
static struct entry *table;
static size_t slots = 1 << 16, used;

static int is_blank(unsigned char c) { return c == ' ' || c == '\t' || c == '\n' || c == '\r'; }

static struct entry *find(const unsigned char *word, size_t length)
{
    unsigned long hash = 14695981039346656037ul;
    for (size_t i = 0; i < length; i++) hash = (hash ^ word[i]) * 1099511628211ul;
    size_t at = hash & (slots - 1);
    while (table[at].word && (table[at].length != length || memcmp(table[at].word, word, length))) at = (at + 1) & (slots - 1);
    return &table[at];
}

static void grow(void)
{
    struct entry *old = table;
    size_t before = slots;
    slots *= 2;
    table = calloc(slots, sizeof *table);
    for (size_t i = 0; i < before; i++)
        if (old[i].word) *find(old[i].word, old[i].length) = old[i];
    free(old);
}

static int in_order(const void *a, const void *b)
{
    const struct entry *x = a, *y = b;
    size_t shorter = x->length < y->length ? x->length : y->length;
    int said = memcmp(x->word, y->word, shorter);
    return said ? said : (x->length > y->length) - (x->length < y->length);
}

int main(void)
{
    size_t size = 0, room = 1 << 20;
    unsigned char *text = malloc(room);
    for (size_t n; (n = fread(text + size, 1, room - size, stdin)) > 0;)
        if ((size += n) == room) text = realloc(text, room *= 2);
    table = calloc(slots, sizeof *table);
    for (size_t i = 0; i < size;) {
        while (i < size && is_blank(text[i])) i++;
        size_t from = i;
        while (i < size && !is_blank(text[i])) i++;
        if (i == from) break;
        struct entry *e = find(text + from, i - from);
        if (!e->word) {
            if (2 * ++used > slots) { grow(); e = find(text + from, i - from); }
            e->word = text + from;
            e->length = i - from;
        }
        e->count++;
    }
    size_t n = 0;
    for (size_t i = 0; i < slots; i++)
        if (table[i].word) table[n++] = table[i];
    qsort(table, n, sizeof *table, in_order);
    for (size_t i = 0; i < n; i++) {
        printf("%lu ", table[i].count);
        fwrite(table[i].word, 1, table[i].length, stdout);
        putchar('\n');
    }
    return 0;
}
