/* The text of a call stack: a line for each function from the innermost on, `at FUNCTION (FILE:LINE)` and then `by ..`.
 * It ends with main, or before the functions of the C library or of Rust's that have started the program or the thread.
 */
#include <inttypes.h>
#include <string.h>

#include "launcher.h"
#include "places.h"

static const char *path_of(const struct places *p, const struct place *f)
{
    return f->mapped == SIZE_MAX ? "" : p->mapped[f->mapped].path;
}

/// Whether a frame and those further out are of the C library, which has started the program or the thread.
static bool is_start(const struct places *p, const struct stack *s, unsigned from)
{
    for (unsigned i = from; i < s->count; i++) {
        const char *path = path_of(p, &s->places[i]), *name = strrchr(path, '/');
        const struct symbol *in = s->places[i].symbol;
        const bool is_first = in && in->count ? strcmp(in->lines[0].function, "_start") == 0
                                              : i > from && i + 1 == s->count;
        if (!is_first && (!name || (strncmp(name, "/libc.so.", 9) && strncmp(name, "/libpthread", 11))))
            return false;
    }
    return from > 0;
}

void frames_want(const struct places *p, const struct stack *s)
{
    for (unsigned i = 0; i < s->count && !is_start(p, s, i); i++) {
        struct place *f = &s->places[i];
        const char *path = path_of(p, f);
        if (*path != '/')
            continue;
        const struct mapped *m = &p->mapped[f->mapped];
        const uint64_t offset = f->at - m->low + m->offset, called = i ? symbols_called(path, offset + 1) : 0;
        f->symbol = symbols_at(p->symbols, path, m->inode, offset);
        if (called)
            f->called = symbols_at(p->symbols, path, m->inode, called);
    }
}

/// If no name is known: the file, and the address that it has there.
static void put_address(const struct places *p, const struct place *f, FILE *to)
{
    const char *path = path_of(p, f), *name = strrchr(path, '/');
    if (!name || !f->symbol)
        fprintf(to, "%#" PRIx64 "%s", f->at, f->mapped == SIZE_MAX ? "" : ", code in no file");
    else
        fprintf(to, "%s+%#" PRIx64, name + 1, f->symbol->is_in_file ? f->symbol->at : f->symbol->offset);
}

static const struct line *outermost(const struct symbol *s)
{
    return s && s->count ? &s->lines[s->count - 1] : NULL;
}

/// A function whose last call has taken the place of its frame is on no stack, but its caller calls it.
static void put_tail_call(const struct place *inner, const struct place *outer, FILE *to)
{
    const struct line *inside = outermost(inner->symbol), *called = outermost(outer->called);
    if (inside && called && strcmp(inside->function, called->function) && inner->mapped == outer->mapped &&
        !strchr(called->function, '@'))
        fprintf(to, "    by %s (%s), as its last call\n", called->function, called->where ? called->where : "no line");
}

/// The functions of one frame; the first of all is `at`.
static void put_frame(const struct places *p, const struct place *f, bool is_first, FILE *to)
{
    const unsigned count = f->symbol ? f->symbol->count : 0;
    for (unsigned k = 0; k < count; k++) {
        const struct line *line = &f->symbol->lines[k];
        fprintf(to, "    %s %s (", is_first && k == 0 ? "at" : "by", line->function);
        if (line->where)
            fputs(line->where, to);
        else
            put_address(p, f, to);
        fputs(")\n", to);
    }
    if (count)
        return;
    fprintf(to, "    %s ", is_first ? "at" : "by");
    put_address(p, f, to);
    fputc('\n', to);
}

void frames_write(const struct places *p, const struct stack *s, FILE *to)
{
    for (unsigned i = 0; i < s->count && !is_start(p, s, i); i++) {
        const struct place *f = &s->places[i];
        const struct line *last = outermost(f->symbol);
        if (last && strstr(last->function, "__rust_begin_short_backtrace"))
            break;
        if (i)
            put_tail_call(f - 1, f, to);
        put_frame(p, f, i == 0, to);
        if (last && strcmp(last->function, "main") == 0)
            break;
    }
}
