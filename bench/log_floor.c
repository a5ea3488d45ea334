// Counts line feeds byte by byte, for bench/log.sh: what it takes to read a file and look at each byte.
#include <stdio.h>
#include <unistd.h>

int main(void) {
    static char in[65536];
    size_t lines = 0;
    for (ssize_t got; (got = read(0, in, sizeof in)) > 0;)
        for (ssize_t i = 0; i < got; i++)
            if (in[i] == '\n') lines++;
    printf("%zu\n", lines);
    return 0;
}
