/* Memory safety from outside. */
#ifndef OUTSIDE_H
#define OUTSIDE_H

/* That the forbidden pages do their work, by touching them. */
void check_traps(void);

/* Every slice against a forbidden page, on either side, and empty slices with any pointer. */
void check_in_pages(void);

/* The same calls with every slice in a block of its own, for a checker that watches blocks and undefined words. */
void check_in_memory(void);

#endif
