/* What an address of data is: a variable by the symbols of a file of code, the heap, or a thread's stack. */
#include <dlfcn.h>
#include <elf.h>
#include <fcntl.h>
#include <inttypes.h>
#include <stdlib.h>
#include <string.h>
#include <sys/mman.h>
#include <sys/stat.h>
#include <unistd.h>

#include "addr2line.h"
#include "launcher.h"
#include "places.h"

enum { PAGE = 4096 };

/* A file that is mapped here, and how far its addresses are from those of the program. */
struct file { const uint8_t *bytes; size_t size; uint64_t away; };

/* A variable that was found. */
struct variable { const char *name; uint64_t distance; };

static bool open_file(struct file *f, const struct mapped *m)
{
    struct stat s;
    const int fd = open(m->path, O_RDONLY | O_CLOEXEC);
    const bool is_same = fd >= 0 && fstat(fd, &s) == 0 && s.st_ino == m->inode && s.st_size > 0;
    void *at = is_same ? mmap(NULL, (size_t)s.st_size, PROT_READ, MAP_PRIVATE, fd, 0) : MAP_FAILED;
    if (fd >= 0)
        close(fd);
    if (at == MAP_FAILED)
        return false;
    *f = (struct file){at, (size_t)s.st_size, 0};
    return true;
}

/// A part of the file, or NULL if it is not all there.
static const void *part(const struct file *f, uint64_t offset, uint64_t size)
{
    return offset <= f->size && size <= f->size - offset && offset % 8 == 0 ? f->bytes + offset : NULL;
}

/// Finds how far the addresses are away; false if the file has no such code or the address is in no segment.
static bool covers(struct file *f, const struct mapped *m, uint64_t at)
{
    const Elf64_Ehdr *head = part(f, 0, sizeof *head);
    if (!head || memcmp(head->e_ident, ELFMAG, SELFMAG) || head->e_ident[EI_CLASS] != ELFCLASS64)
        return false;
    const Elf64_Phdr *parts = part(f, head->e_phoff, head->e_phnum * sizeof *parts);
    bool is_found = false, is_inside = false;
    for (int i = 0; parts && i < head->e_phnum && !is_found; i++) {
        is_found = parts[i].p_type == PT_LOAD && parts[i].p_flags & PF_X && (parts[i].p_offset & -PAGE) == m->offset;
        f->away = m->low - (parts[i].p_vaddr & -(uint64_t)PAGE);
    }
    for (int i = 0; is_found && i < head->e_phnum; i++)
        is_inside |= parts[i].p_type == PT_LOAD && at - f->away - parts[i].p_vaddr < parts[i].p_memsz;
    return is_inside;
}

/// The variable of a table of symbols that has an address.
static bool find_in(const struct file *f, const Elf64_Shdr *table, const Elf64_Shdr *names, uint64_t at,
                    struct variable *v)
{
    const Elf64_Sym *all = part(f, table->sh_offset, table->sh_size);
    for (size_t i = 0; all && i < table->sh_size / sizeof *all; i++) {
        const uint64_t distance = at - f->away - all[i].st_value;
        const bool has_name = all[i].st_name < names->sh_size && names->sh_offset + names->sh_size <= f->size;
        if (ELF64_ST_TYPE(all[i].st_info) != STT_OBJECT || all[i].st_shndx == SHN_UNDEF ||
            distance >= all[i].st_size || !has_name)
            continue;
        *v = (struct variable){(const char *)f->bytes + names->sh_offset + all[i].st_name, distance};
        return true;
    }
    return false;
}

/// The variable of a file that has an address: by all symbols, or by the exported ones if it is stripped.
static bool find_variable(const struct file *f, uint64_t at, struct variable *v)
{
    const Elf64_Ehdr *head = part(f, 0, sizeof *head);
    const Elf64_Shdr *sections = part(f, head->e_shoff, head->e_shnum * sizeof *sections);
    for (int i = 0; sections && i < head->e_shnum; i++) {
        const Elf64_Shdr *s = &sections[i];
        if ((s->sh_type == SHT_SYMTAB || s->sh_type == SHT_DYNSYM) && s->sh_link < head->e_shnum &&
            find_in(f, s, &sections[s->sh_link], at, v))
            return true;
    }
    return false;
}

/// A name as its language writes it, if the library of C++ is here to read it (Itanium C++ ABI, __cxa_demangle); else
/// as the file has it; without its version and what compilers add.
static char *plain_name(const char *name)
{
    char *(*demangle)(const char *, char *, size_t *, int *) = NULL;
    char *known = strndup(name, strcspn(name, "@"));
    if (!known)
        fail("places");
    addr2line_cut(known);
    void *library = strncmp(known, "_Z", 2) == 0 ? dlopen("libstdc++.so.6", RTLD_NOW) : NULL;
    if (library)
        *(void **)&demangle = dlsym(library, "__cxa_demangle");
    char *plain = demangle ? demangle(known, NULL, NULL, NULL) : NULL;
    if (!plain)
        return known;
    free(known);
    addr2line_cut(plain);
    return plain;
}

/// What an address is, if it is in a variable of a file; else NULL.
static char *variable_at(const struct mapped *m, uint64_t at)
{
    struct file f;
    struct variable v = {0};
    char distance[24] = "", *text = NULL;
    const char *slash = strrchr(m->path, '/');
    if (!m->is_code || !slash || !open_file(&f, m))
        return NULL;
    if (covers(&f, m, at) && find_variable(&f, at, &v)) {
        if (v.distance)
            snprintf(distance, sizeof distance, "+%#" PRIx64, v.distance);
        char *name = plain_name(v.name);
        if (asprintf(&text, "is %s%s, a variable of %s", name, distance, slash + 1) < 0)
            fail("places");
        free(name);
    }
    munmap((void *)f.bytes, f.size);
    return text;
}

/// What an address is, if it is on the stack of a thread that submits; else NULL.
static char *stack_at(const struct places *p, uint64_t at)
{
    char *text = NULL;
    for (size_t i = 0; i < p->thread_count && !text; i++) {
        const struct thread *t = &p->threads[i];
        const bool is_here = t->low <= at && at < t->high;
        if (is_here && asprintf(&text, "is on the stack of thread %d (%s)", t->number, t->name) < 0)
            fail("places");
    }
    return text;
}

void variables_show(struct places *p, uint64_t at, FILE *to)
{
    const char *known = places_datum(p, at);
    char *found = known ? NULL : stack_at(p, at);
    for (size_t i = p->mapped_count; !known && !found && i-- > 0;) {
        const struct mapped *m = &p->mapped[i];
        const bool is_heap = strcmp(m->path, "[heap]") == 0 && m->low <= at && at < m->high;
        found = is_heap ? strdup("is on the heap") : variable_at(m, at);
    }
    if (found)
        places_add_datum(p, at, found);
    if (known || found)
        fprintf(to, "  %#" PRIx64 " %s\n", at, known ? known : found);
}
