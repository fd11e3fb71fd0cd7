/* Answers any text as one that is no JSON, as it should, and then reads once more. tests/streams.py has to see that. */
#include <string.h>
#include <unistd.h>

static int answered(void) {
    static const char line[] = "refused 80 Json\n";
    static char buffer[65536];
    size_t written = 0;
    ssize_t count;
    while ((count = read(0, buffer, sizeof buffer)) > 0)
        ;
    if (count < 0)
        return 2;
    while (written < strlen(line)) {
        count = write(1, line + written, strlen(line) - written);
        if (count <= 0)
            return 2;
        written += (size_t)count;
    }
    return 1;
}

int main(void) {
    char byte;
    int status = answered();
    return read(0, &byte, 1) == 1 ? 3 : status;
}
