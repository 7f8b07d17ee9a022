/* Runs a fuzz target on files, for a compiler that has no fuzzer: a row of inputs is kept as a test. */
#include "check.h"

#include "files.h"

#include <stdio.h>
#include <string.h>

int main(int count, char **names)
{
    for (int i = 1; i < count; i++) {
        bytes in = { 0 };
        int error = read_file(names[i], &in);
        if (error != 0) {
            fprintf(stderr, "%s: %s\n", names[i], strerror(error));
            return 1;
        }
        LLVMFuzzerTestOneInput(in.at, in.len);
        release(&in);
    }
    printf("%d inputs\n", count - 1);
    return 0;
}
