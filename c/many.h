/* Batches: what comes back, statement by statement, with garbage in every slice lent for writing. */
#ifndef MANY_H
#define MANY_H

void check_batches(void);

#endif
