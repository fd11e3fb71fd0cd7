// Two callers in C++ whose names have parts in parentheses, with the batches of placed.c as a library.
#include <fcntl.h>
#include <sys/mman.h>

extern "C" {
struct job { void *portal; char *from, *between, *to; };
void submit_in_library(job *j);
}

namespace {
char from[4096], between[4096], to[4096];

template <class F> __attribute__((noinline)) void first_caller(F f, job *j)
{
    f(j);
    __asm__ volatile("");
}

template <class F> __attribute__((noinline)) void second_caller(F f, job *j)
{
    f(j);
    __asm__ volatile("");
}
}

int main()
{
    const int file = open("/dev/dsa/wq0.0", O_RDWR);
    job j = {mmap(nullptr, 4096, PROT_WRITE, MAP_SHARED, file, 0), from, between, to};
    if (j.portal == MAP_FAILED)
        return 3;
    first_caller(submit_in_library, &j);
    second_caller(submit_in_library, &j);
    return 0;
}
