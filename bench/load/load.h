/* What all parts of the load generator know. */
#ifndef LOAD_H
#define LOAD_H

#include <stdbool.h>
#include <stdint.h>

#include "nfs.h"
#include "xdr.h"

/* What the command line says. */
struct options {
    int port, mount_port;   /* of NFS, and of MOUNT */
    int connections, depth; /* calls that are in progress at once: so many on each connection */
    int threads;            /* over which the connections are spread */
    double warm_up, seconds; /* how long a turn runs uncounted, and then counted */
    int server;             /* the process whose processor time is told; 0: none */
    bool is_checked;        /* whether handles, names and data have to be those that the server was given */
    bool has_beside;        /* whether another client calls beside the others */
};

extern struct options options;

struct handle {
    uint32_t length;
    uint8_t bytes[MOST_OF_HANDLE];
};

enum {
    FILES = 1000,           /* the empty files that are looked up and asked about */
    LISTED = 1000,          /* the names of the directory that is listed */
    DATA_FILES = 64,        /* the files that are read and written */
    DATA_FILE_BYTES = 1 << 20,
    MOST_DATA = 1 << 16,    /* bytes of a READ or a WRITE */
    MOST_CALL = MOST_DATA + 1024,
    MOST_REPLY = MOST_DATA + 1024,
    MOST_NAME = 64
};

/* The files and directories that calls work on. */
struct tree {
    struct handle root, files_directory, listed_directory;
    struct handle files[FILES], data_files[DATA_FILES];
    struct handle *work_directories; /* one for each connection */
};

extern struct tree tree;

/* Tells why the generator can't go on, and ends it. */
void fail(const char *format, ...) __attribute__((noreturn, format(printf, 1, 2)));

/* So many bytes, or the end of the generator. They are zero. */
void *allocate(size_t count, size_t size);

/* The seconds of a clock that is never set. */
double moment(void);

/* A connection to a port of the server. */
int connect_to_server(int port);

/* Calls (calling.c) */

/* Leaves room for the mark and the header of a call; its arguments are then written. */
void begin_call(struct writer *writer);
/* Writes the mark and the header before the arguments of a call, which began there and ends where the writer is. */
void end_call(const struct writer *writer, uint8_t *begin, uint32_t xid, enum program program, uint32_t procedure);
/* Reads the header of a reply, behind its transaction id. The call must have been executed. */
void take_header(struct reader *reply);
/* Reads a status of NFS, which must be OK. */
void take_ok(struct reader *reply, enum procedure procedure);
/* Nothing may be left of a reply, and nothing may be missing. */
void take_end(const struct reader *reply, enum procedure procedure);

void put_handle(struct writer *writer, const struct handle *handle);
/* A name in a directory (diropargs3). */
void put_place(struct writer *writer, const struct handle *directory, const char *name);
/* A mode to be set, and nothing else (sattr3). */
void put_mode(struct writer *writer, uint32_t mode);
/* What CREATE takes: a name in a directory, how it is made, and its mode. */
void put_create(struct writer *writer, const struct handle *directory, const char *name, uint32_t how);
/* What WRITE takes: as many bytes of the expected content of a data file. */
void put_write(struct writer *writer, uint32_t file, uint64_t offset, uint32_t length, uint32_t stable);

struct attributes {
    bool are_there;
    uint32_t type;
    uint64_t size;
};

void take_handle(struct reader *reply, struct handle *handle);
struct attributes take_attributes(struct reader *reply);
/* Attributes that may be left out (post_op_attr). */
struct attributes take_attributes_after(struct reader *reply);
/* Those of before a change and of after it (wcc_data). */
void take_attributes_around(struct reader *reply);
/* A handle that may be left out, with its attributes (post_op_fh3, post_op_attr). Returns whether it is there. */
bool take_made(struct reader *reply, struct handle *handle);

/* The content of data files (content.c) */

/* Makes the content of which all data files have a part. */
void make_content(void);
/* The bytes of a data file from an offset on; at least MOST_DATA of them lie there. */
const uint8_t *content(uint32_t file, uint64_t offset);

/* One who makes a call when the one before it is answered (caller.c) */

struct caller {
    int socket;
    uint32_t xid;
    uint8_t *call, *reply;
};

/* Connects a caller to a port, whose transaction ids begin there. */
void open_caller(struct caller *caller, int port, uint32_t first_xid);
void close_caller(struct caller *caller);
/* Begins the caller's next call; its arguments are then written. */
struct writer ask(struct caller *caller);
/* Sends the call and reads the reply to it, to behind its header. */
struct reader await(struct caller *caller, const struct writer *writer, enum program program, uint32_t procedure);

/* Makes all files and directories that calls work on (tree.c). */
void make_tree(struct caller *caller);
/* The name of a file that is looked up. */
void name_of_file(char name[MOST_NAME], uint32_t file);
/* Removes a name in the work directory of a connection. */
void remove_name(struct caller *caller, int connection, const char *name);

/* Transaction ids: no two calls have the same, since a server may take the second for a repeat of the first. Below
 * these are those of the connections that make the load. */
enum { FIRST_XID_OF_TREE = 0x40000000, FIRST_XID_BESIDE = 0x60000000, FIRST_XID_OF_MOUNT = 0x70000000 };

#endif
