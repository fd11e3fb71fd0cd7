/* Answers any text as one that is no JSON, and leaves a thread. tests/memory.py has to see that. */
#include <pthread.h>
#include <string.h>
#include <unistd.h>

static void *wait(void *nothing) {
    pause();
    return nothing;
}

int main(void) {
    static const char line[] = "refused 80 Json\n";
    static char buffer[65536];
    pthread_t thread;
    while (read(0, buffer, sizeof buffer) > 0)
        ;
    if (pthread_create(&thread, NULL, wait, NULL))
        return 3;
    return write(1, line, strlen(line)) == (ssize_t)strlen(line) ? 1 : 2;
}
