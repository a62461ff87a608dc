/* The files and directories that calls work on. The server is new, so none of them is there. */
#include "load.h"

#include <stdio.h>

struct tree tree;

/* Asks for the root of the export. */
static void mount_root(void)
{
    struct caller caller;
    struct writer call;
    struct reader reply;

    open_caller(&caller, options.mount_port, FIRST_XID_OF_MOUNT);
    call = ask(&caller);
    put_text(&call, "/data");
    reply = await(&caller, &call, PROGRAM_MOUNT, MOUNT_MNT);
    if (take_u32(&reply) != 0)
        fail("the server does not export /data");
    take_handle(&reply, &tree.root);
    skip(&reply, 4 * (size_t)take_u32(&reply));
    if (reply.is_broken || reply.next != reply.end)
        fail("the reply to MNT has no right form");
    close_caller(&caller);
}

/* Sends a call of CREATE or MKDIR, and gives the handle of what is made. */
static struct handle made(struct caller *caller, const struct writer *call, enum procedure procedure)
{
    struct reader reply = await(caller, call, PROGRAM_NFS, procedure);
    struct handle handle = { .length = 0 };

    take_ok(&reply, procedure);
    if (!take_made(&reply, &handle))
        fail("what is made has no handle");
    take_attributes_around(&reply);
    take_end(&reply, procedure);
    return handle;
}

static struct handle make_directory(struct caller *caller, const char *name)
{
    struct writer call = ask(caller);

    put_place(&call, &tree.root, name);
    put_mode(&call, 0755);
    return made(caller, &call, NFS_MKDIR);
}

static struct handle make_file(struct caller *caller, const struct handle *directory, const char *name)
{
    struct writer call = ask(caller);

    put_create(&call, directory, name, GUARDED);
    return made(caller, &call, NFS_CREATE);
}

/* Writes the whole content of a data file. */
static void fill(struct caller *caller, uint32_t file)
{
    for (uint64_t offset = 0; offset < DATA_FILE_BYTES; offset += MOST_DATA) {
        struct writer call = ask(caller);
        struct reader reply;

        put_write(&call, file, offset, MOST_DATA, FILE_SYNC);
        reply = await(caller, &call, PROGRAM_NFS, NFS_WRITE);
        take_ok(&reply, NFS_WRITE);
    }
}

void name_of_file(char name[MOST_NAME], uint32_t file)
{
    snprintf(name, MOST_NAME, "file%06u", file);
}

void make_tree(struct caller *caller)
{
    struct handle data_directory;
    char name[MOST_NAME];

    mount_root();
    tree.files_directory = make_directory(caller, "files");
    for (uint32_t file = 0; file < FILES; file++) {
        name_of_file(name, file);
        tree.files[file] = make_file(caller, &tree.files_directory, name);
    }
    data_directory = make_directory(caller, "data");
    for (uint32_t file = 0; file < DATA_FILES; file++) {
        name_of_file(name, file);
        tree.data_files[file] = make_file(caller, &data_directory, name);
        fill(caller, file);
    }
    tree.listed_directory = make_directory(caller, "listed");
    for (uint32_t entry = 0; entry < LISTED; entry++) {
        snprintf(name, sizeof name, "entry%06u", entry);
        make_file(caller, &tree.listed_directory, name);
    }
    tree.work_directories = allocate((size_t)options.connections, sizeof *tree.work_directories);
    for (int connection = 0; connection < options.connections; connection++) {
        snprintf(name, sizeof name, "work%d", connection);
        tree.work_directories[connection] = make_directory(caller, name);
    }
}

void remove_name(struct caller *caller, int connection, const char *name)
{
    struct writer call = ask(caller);
    struct reader reply;

    put_place(&call, &tree.work_directories[connection], name);
    reply = await(caller, &call, PROGRAM_NFS, NFS_REMOVE);
    take_ok(&reply, NFS_REMOVE);
    take_attributes_around(&reply);
    take_end(&reply, NFS_REMOVE);
}
