/* The tables, by subject. Each array ends with a table that has no title. */
#ifndef TABLES_H
#define TABLES_H

#include "harness.h"

extern const struct table double_tables[], x87_tables[], float_tables[], scaling_tables[];

/* One gap a row, for the figures. */
extern const struct table double_gaps, x87_gaps;

#endif
