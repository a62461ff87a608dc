/* Workloads: what calls a connection makes, one behind the other. */
#ifndef WORKLOAD_H
#define WORKLOAD_H

#include "load.h"

/* What a call does. */
enum kind {
    GETATTR, ACCESS, LOOKUP, SETATTR, READ, WRITE, CREATE, CREATE_REMOVE, REMOVE_MADE, RENAME, LIST, LOCK, BUILD
};

struct workload {
    const char *name;
    enum kind kind;
    uint32_t length; /* of a READ or a WRITE */
};

/* The workload of this name, or the end of the generator. */
const struct workload *find_workload(const char *name);

/* One of the calls that a connection has in progress, and what the sequence of calls that it belongs to has left. */
struct slot {
    bool is_waiting; /* for its reply */
    uint32_t xid;
    enum program program;
    uint32_t procedure;
    uint32_t file; /* the number of the file that is called on */
    uint64_t offset;
    bool is_locked; /* whether the byte there is; then it is given back next */
    uint32_t length;
    uint64_t name; /* the number of the name that CREATE, REMOVE and RENAME are about */
    enum { NOT_MADE, MADE, RENAMED } state; /* whether that is there, or the next one in its place */
    uint64_t cookie; /* how far the directory is listed */
    uint8_t verifier[VERIFIER];
    uint32_t entries;
};

/* What the calls of a connection share: its work directory and the names there. */
struct desk {
    int connection;
    uint64_t random;
    uint64_t next_name;
    uint64_t *made; /* the names that are made and are to be removed at some time */
    size_t made_count, made_room;
};

/* Writes the arguments of the slot's next call of a workload, and tells in the slot what is called. */
void put_next(const struct workload *workload, struct desk *desk, struct slot *slot, struct writer *call);
/* Reads the reply to it, behind its header, which has to be right. */
void take_reply(const struct workload *workload, struct desk *desk, struct slot *slot, struct reader *reply);

/* Removes the names that the calls of a connection have left, in so many slots. */
void remove_left(struct caller *caller, struct desk *desk, const struct slot *slots, int count);

/* A number below a limit, by chance. */
uint32_t chance(uint64_t *state, uint32_t limit);

#endif
