/* Rows of the training sheet, and further refusals, each with garbage in every slice lent for writing. */
#ifndef SHEET_H
#define SHEET_H

void check_sheet(void);

#endif
