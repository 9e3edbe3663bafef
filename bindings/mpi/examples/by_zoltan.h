/* The same rebalancing by Zoltan, for comparison: Debian's libtrilinos-zoltan-dev. */
#ifndef BY_ZOLTAN_H
#define BY_ZOLTAN_H

#include "cells.h"

typedef struct {
    struct Zoltan_Struct *zoltan;
    cells *app;
    double partition_seconds, migrate_seconds; /* of the last rebalance on this rank */
    uint64_t max_load;                         /* by the last partition, of any rank */
    uint64_t elements_moved;                   /* in the last rebalance, of all ranks */
} by_zoltan;

/* By a method of Zoltan's: RCB or HSFC. Ends the program where Zoltan fails, as all of these do. */
void by_zoltan_open(by_zoltan *z, cells *app, const char *method);
void by_zoltan_close(by_zoltan *z);

/* Partitions and migrates. */
void by_zoltan_rebalance(by_zoltan *z);

#endif
