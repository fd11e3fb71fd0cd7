/* Functions, files and lines of addresses in files of code, each found once (addr2line.c). */
#include "symbols.h"

#include <elf.h>
#include <fcntl.h>
#include <search.h>
#include <stdlib.h>
#include <string.h>
#include <sys/stat.h>
#include <unistd.h>

#include "addr2line.h"
#include "launcher.h"

/* A file of code: its symbols in a tree by offset, and those of them that are to be asked for. */
struct module {
    char *path;
    unsigned long inode;
    void *tree;
    struct symbol **wanted;
    size_t wanted_count;
    bool is_said; /* that it has no lines */
};

static int by_offset(const void *a, const void *b)
{
    const struct symbol *s = a, *t = b;
    return s->offset < t->offset ? -1 : s->offset > t->offset;
}

/// The address that a file gives an offset, by its table of segments; false if none has it.
static bool own_address(const char *path, uint64_t offset, uint64_t *at)
{
    Elf64_Ehdr head;
    Elf64_Phdr part;
    bool is_found = false;
    const int file = open(path, O_RDONLY | O_CLOEXEC);
    const bool is_elf = file >= 0 && pread(file, &head, sizeof head, 0) == sizeof head &&
                        !memcmp(head.e_ident, ELFMAG, SELFMAG) && head.e_ident[EI_CLASS] == ELFCLASS64;
    for (int i = 0; is_elf && !is_found && i < head.e_phnum; i++) {
        if (pread(file, &part, sizeof part, (off_t)(head.e_phoff + (uint64_t)i * sizeof part)) != sizeof part)
            break;
        is_found = part.p_type == PT_LOAD && part.p_offset <= offset && offset < part.p_offset + part.p_filesz;
        *at = offset - part.p_offset + part.p_vaddr;
    }
    if (file >= 0)
        close(file);
    return is_found;
}

/// Of a call with a distance: five bytes, the first of which is 0xe8.
uint64_t symbols_called(const char *path, uint64_t after)
{
    uint8_t code[5];
    int32_t distance;
    const int file = open(path, O_RDONLY | O_CLOEXEC);
    const bool is_call = file >= 0 && pread(file, code, sizeof code, (off_t)(after - sizeof code)) == sizeof code &&
                         code[0] == 0xe8;
    if (file >= 0)
        close(file);
    if (!is_call)
        return 0;
    memcpy(&distance, code + 1, sizeof distance);
    return after + (uint64_t)(int64_t)distance; /* code is one segment, so offsets have its distances */
}

static struct module *module_of(struct symbols *s, const char *path, unsigned long inode)
{
    for (size_t i = 0; i < s->count; i++)
        if (s->modules[i].inode == inode && strcmp(s->modules[i].path, path) == 0)
            return &s->modules[i];
    s->modules = realloc(s->modules, (s->count + 1) * sizeof *s->modules);
    if (!s->modules)
        fail("symbols");
    s->modules[s->count] = (struct module){.path = strdup(path), .inode = inode};
    return &s->modules[s->count++];
}

/// The symbol of an offset, as symbols.h says.
struct symbol *symbols_at(struct symbols *s, const char *path, unsigned long inode, uint64_t offset)
{
    struct module *m = module_of(s, path, inode);
    struct symbol *new = calloc(1, sizeof *new);
    if (!new)
        fail("symbols");
    new->offset = offset;
    struct symbol **found = tsearch(new, &m->tree, by_offset);
    if (!found)
        fail("symbols");
    if (*found != new) {
        free(new);
        return *found;
    }
    new->is_in_file = own_address(path, offset, &new->at);
    m->wanted = realloc(m->wanted, (m->wanted_count + 1) * sizeof *m->wanted);
    if (!m->wanted)
        fail("symbols");
    m->wanted[m->wanted_count++] = new;
    return new;
}

/// Says once what to do about a file without lines. The C library's are of no use.
static void say_without_lines(struct module *m, struct symbol *const *asked, size_t count)
{
    const char *slash = strrchr(m->path, '/'), *name = slash ? slash + 1 : m->path;
    bool is_one = m->is_said || strncmp(name, "libc.so.", strlen("libc.so.")) == 0;
    for (size_t i = 0; i < count; i++)
        for (unsigned k = 0; k < asked[i]->count; k++)
            is_one |= asked[i]->lines[k].where != NULL;
    if (!is_one)
        fprintf(stderr, "dsa_trace: %s has no line numbers: build it with -g, or install its debug symbols\n", m->path);
    m->is_said = true;
}

/// Asks for what is wanted of one file.
static void find(struct symbols *s, struct module *m)
{
    struct symbol *asked[MOST_ASKED];
    struct stat now;
    size_t used = 0;
    const bool is_same = stat(m->path, &now) == 0 && now.st_ino == m->inode;
    for (size_t i = 0; is_same && i < m->wanted_count; i++) {
        if (m->wanted[i]->is_in_file)
            asked[used++] = m->wanted[i];
        if (used == MOST_ASKED || (used && i + 1 == m->wanted_count)) {
            addr2line_ask(s->program, m->path, asked, used);
            say_without_lines(m, asked, used);
            used = 0;
        }
    }
    m->wanted_count = 0;
}

/// Finds the lines of all symbols that have none yet.
void symbols_find(struct symbols *s)
{
    if (!s->is_searched)
        s->program = addr2line_find();
    s->is_searched = true;
    for (size_t i = 0; s->program && i < s->count; i++)
        find(s, &s->modules[i]);
}

static void free_symbol(void *symbol)
{
    struct symbol *s = symbol;
    for (unsigned i = 0; i < s->count; i++) {
        free(s->lines[i].function);
        free(s->lines[i].where);
    }
    free(s);
}

/// Gives back the memory.
void symbols_forget(struct symbols *s)
{
    for (size_t i = 0; i < s->count; i++) {
        tdestroy(s->modules[i].tree, free_symbol);
        free(s->modules[i].wanted);
        free(s->modules[i].path);
    }
    free(s->modules);
    free(s->program);
    *s = (struct symbols){0};
}
