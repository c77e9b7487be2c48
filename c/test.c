/* The C boundary by running it: memory safety from outside, and rows of the training sheet. Ends with 'N passed, M failed'.
 *
 * With the argument `blocks`, slices stand in blocks of ordinary memory and nothing forbidden is touched on purpose. */
#include <stdio.h>
#include <string.h>

#include "check.h"
#include "guard.h"
#include "jiehkavon.h"
#include "many.h"
#include "outside.h"
#include "sheet.h"

_Static_assert(sizeof(jiehkavon_answer) == 16, "four words");
_Static_assert(sizeof(jiehkavon_built) == 12, "three words");
_Static_assert(sizeof(jiehkavon_stretch) == 8, "two words");
_Static_assert(sizeof(jiehkavon_batch) == 32, "a padded word and three sizes");

int main(int count, char **arguments) {
    int blocks = count == 2 && strcmp(arguments[1], "blocks") == 0;
    if (count > 1 && !blocks) {
        fprintf(stderr, "usage: %s [blocks]\n", arguments[0]);
        return 2;
    }
    catch_faults();
    if (blocks) {
        check_in_memory();
    } else {
        check_traps();
        check_in_pages();
    }
    check_sheet();
    check_batches();
    return counted() ? 0 : 1;
}
