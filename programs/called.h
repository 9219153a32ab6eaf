/* Hands what a program was called with to the function that does its work, and the exit status back. The function reads standard input and
   writes to standard output and standard error; crates/programs_c has it. */
#include <stddef.h>
#include <string.h>

typedef int program(size_t count, const unsigned char *first, size_t length);

static int call(program *work, int argc, char **argv) {
    const char *first = argc > 1 ? argv[1] : "";
    return work(argc > 1 ? (size_t)argc - 1 : 0, (const unsigned char *)first, strlen(first));
}
