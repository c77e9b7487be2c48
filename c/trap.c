/* Writes a word past a block, to see that whoever watches notices. */
#include <stdlib.h>

int main(void) {
    volatile int *block = malloc(4 * sizeof(int));
    if (block == NULL)
        return 2;
    block[4] = 1;
    free((void *)block);
    return 0;
}
