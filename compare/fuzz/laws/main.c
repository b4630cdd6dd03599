/* Runs a target on the files that are named, and says how many: for where there is no libFuzzer. */
#include <stdio.h>
#include <stdlib.h>

#include "law.h"

int main(int count, char **names)
{
    for (int i = 1; i < count; i++) {
        FILE *file = fopen(names[i], "rb");
        size_t n = 0, room = 1 << 22;
        uint8_t *bytes = malloc(room);
        if (file == NULL || bytes == NULL) {
            perror(names[i]);
            return 2;
        }
        n = fread(bytes, 1, room, file);
        fclose(file);
        LLVMFuzzerTestOneInput(bytes, n);
        free(bytes);
    }
    printf("%d inputs\n", count - 1);
    return 0;
}
