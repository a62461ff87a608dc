/* A turn: a workload over some connections for some seconds. */
#ifndef TURN_H
#define TURN_H

#include "workload.h"

struct outcome {
    double seconds;    /* that were counted */
    uint64_t calls;    /* that were answered in them */
    double processor;  /* seconds of a processor that the server took meanwhile */
    uint64_t beside;   /* calls of the client beside the others */
    double percentile; /* 99 of 100 of these took no longer */
    double longest;    /* none of these took longer */
};

/* Makes a turn. The caller removes then what it left. */
struct outcome make_turn(const struct workload *workload, struct caller *caller);

#endif
