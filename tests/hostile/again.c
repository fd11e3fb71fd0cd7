/* Answers any text as one that is no JSON, and reads and writes again after an error. tests/streams.py has to see that. */
#include <string.h>
#include <unistd.h>

int main(void) {
    static const char line[] = "refused 80 Json\n";
    static char buffer[65536];
    size_t written = 0;
    while (read(0, buffer, sizeof buffer) != 0)
        ;
    while (written < strlen(line)) {
        ssize_t count = write(1, line + written, strlen(line) - written);
        if (count > 0)
            written += (size_t)count;
    }
    return 1;
}
