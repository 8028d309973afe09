#include "chains.h"

#include <string.h>

/* What every such source declares, and its end. */
#define HEAD "program p;input I;output A;integer x[3],z[16];"
#define TAIL "skip endprog"

static uint8_t *text;
static size_t length, most;
static int is_full;

static void put(const char *bytes, size_t count)
{
    if (length + count > most) {
        is_full = 1;
        return;
    }
    memcpy(text + length, bytes, count);
    length += count;
}

static void put_words(const char *words)
{
    put(words, strlen(words));
}

/* Names of two letters, so that a text holds many procedures. */
static void put_name(int number)
{
    static const char second[] = "0123456789abcdefghijklmnopqrstuvwxyzABCDEFGHIJKLMNOPQRSTUVWXYZ";
    const int count = (int)sizeof second - 1;
    const char name[2] = {(char)('J' + number / count), second[number % count]};
    put(name, sizeof name);
}

static void put_template(const struct chain *c, const char *from, int number)
{
    for (; *from != '\0'; from++) {
        if (*from == '@') {
            put_name(number);
        } else if (*from == '#') {
            for (int fill = 0; fill < c->fills; fill++)
                put_words(c->filler);
        } else {
            put(from, 1);
        }
    }
}

/* One piece, whole or not at all, with so much left free behind it; answers whether it fits. */
static int put_procedure(const struct chain *c, const char *body, int number, size_t left)
{
    const size_t before = length;
    const char *formals = number == 0 && c->first_formals ? c->first_formals : c->formals;
    put_words("procedure ");
    put_name(number);
    put_words("(");
    put_words(formals);
    put_words(")");
    put_template(c, body, number - 1);
    put_words(is_full || text[length - 1] == ')' ? "endproc " : " endproc ");
    if (is_full || length + left > most) {
        length = before;
        is_full = 0;
        return 0;
    }
    return 1;
}

static int put_call(const struct chain *c, int last)
{
    const size_t before = length;
    put_template(c, c->call, last);
    if (is_full || length + strlen(TAIL) > most) {
        length = before;
        is_full = 0;
        return 0;
    }
    return 1;
}

/* How many bytes a piece takes at most. */
static size_t size_of(const struct chain *c, const char *body)
{
    size_t size = 0;
    for (; *body != '\0'; body++)
        size += *body == '@' ? 2 : *body == '#' ? strlen(c->filler) * (size_t)c->fills : 1;
    return size;
}

size_t chained(uint8_t *source, size_t room, const struct chain *c, int links)
{
    const size_t around = strlen("procedure J0() endproc ") + strlen(c->formals) + 1;
    const size_t end = size_of(c, c->call) + strlen(TAIL);
    const size_t tops = (size_t)c->tops * (around + size_of(c, c->top));
    int last = 0;
    text = source;
    length = 0;
    most = room;
    is_full = 0;
    put_words(HEAD);
    if (!put_procedure(c, c->first, 0, tops + end))
        return 0;
    while (last < links && put_procedure(c, c->link, last + 1, tops + end))
        last++;
    for (int top = 0; top < c->tops && put_procedure(c, c->top, last + 1, end); top++)
        last++;
    for (int call = 0; call < c->calls && put_call(c, last); call++)
        ;
    put_words(TAIL);
    return length;
}
