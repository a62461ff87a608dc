#include "workload.h"

#include <stdio.h>
#include <stdlib.h>

static const struct workload workloads[] = {
    { "getattr", GETATTR, 0 },
    { "access", ACCESS, 0 },
    { "lookup", LOOKUP, 0 },
    { "setattr", SETATTR, 0 },
    { "read4k", READ, 4096 },
    { "read64k", READ, 65536 },
    { "write4k", WRITE, 4096 },
    { "write64k", WRITE, 65536 },
    { "create_remove", CREATE_REMOVE, 0 },
    { "rename", RENAME, 0 },
    { "readdirplus", LIST, 0 },
    { "lock", LOCK, 0 },
    { "build", BUILD, 16384 },
};

/* Of a hundred calls of a compiler's build, so many are of each kind. */
static const struct {
    enum kind kind;
    uint32_t share;
} of_a_build[] = {
    { GETATTR, 35 }, { LOOKUP, 25 }, { ACCESS, 15 },     { READ, 10 },
    { WRITE, 8 },    { CREATE, 3 },  { REMOVE_MADE, 2 }, { LIST, 2 },
};

enum { DIRECTORY_BYTES = 8192, PAGE_BYTES = 32768, ALL_ACCESS = 0x3f, ENDS = 16 };

const struct workload *find_workload(const char *name)
{
    for (size_t at = 0; at < sizeof workloads / sizeof *workloads; at++)
        if (strcmp(workloads[at].name, name) == 0)
            return &workloads[at];
    fail("there is no workload %s", name);
}

uint32_t chance(uint64_t *state, uint32_t limit)
{
    *state ^= *state << 13;
    *state ^= *state >> 7;
    *state ^= *state << 17;
    return (uint32_t)(((*state >> 32) * limit) >> 32);
}

/* What is called next in a build. */
static enum kind of_build(struct desk *desk)
{
    uint32_t left = chance(&desk->random, 100);
    size_t at = 0;

    while (left >= of_a_build[at].share) {
        left -= of_a_build[at].share;
        at++;
    }
    if (of_a_build[at].kind == REMOVE_MADE && desk->made_count == 0)
        return CREATE;
    return of_a_build[at].kind;
}

/* The name of this number in the work directory of a connection. */
static void name_of(char name[MOST_NAME], const struct desk *desk, uint64_t number)
{
    snprintf(name, MOST_NAME, "c%d-%llx", desk->connection, (unsigned long long)number);
}

static const struct handle *directory_of(const struct desk *desk)
{
    return &tree.work_directories[desk->connection];
}

/* The writers of arguments. */

static void put_file(enum procedure procedure, struct desk *desk, struct slot *slot, struct writer *call)
{
    slot->procedure = procedure;
    slot->file = chance(&desk->random, FILES);
    put_handle(call, &tree.files[slot->file]);
}

static void put_setattr(struct desk *desk, struct slot *slot, struct writer *call)
{
    put_file(NFS_SETATTR, desk, slot, call);
    put_mode(call, 0600 + (chance(&desk->random, 8) << 3));
    put_u32(call, 0); /* whatever the file's time of change is */
}

static void put_lookup(struct desk *desk, struct slot *slot, struct writer *call)
{
    char name[MOST_NAME];

    slot->procedure = NFS_LOOKUP;
    slot->file = chance(&desk->random, FILES);
    name_of_file(name, slot->file);
    put_place(call, &tree.files_directory, name);
}

static void put_transfer(enum procedure procedure, uint32_t length, struct desk *desk, struct slot *slot,
                         struct writer *call)
{
    slot->procedure = procedure;
    slot->file = chance(&desk->random, DATA_FILES);
    slot->length = length;
    slot->offset = (uint64_t)chance(&desk->random, DATA_FILE_BYTES / length) * length;
    if (procedure == NFS_WRITE) {
        put_write(call, slot->file, slot->offset, length, UNSTABLE);
    } else {
        put_handle(call, &tree.data_files[slot->file]);
        put_u64(call, slot->offset);
        put_u32(call, length);
    }
}

static void put_new_file(uint32_t how, struct desk *desk, struct slot *slot, struct writer *call)
{
    char name[MOST_NAME];

    slot->procedure = NFS_CREATE;
    slot->state = MADE;
    slot->name = desk->next_name;
    desk->next_name += 2; /* so that a file can have the next name in place of this one */
    name_of(name, desk, slot->name);
    put_create(call, directory_of(desk), name, how);
}

static void put_remove(uint64_t number, struct desk *desk, struct slot *slot, struct writer *call)
{
    char name[MOST_NAME];

    slot->procedure = NFS_REMOVE;
    slot->state = NOT_MADE;
    name_of(name, desk, number);
    put_place(call, directory_of(desk), name);
}

/* There and back. */
static void put_rename(struct desk *desk, struct slot *slot, struct writer *call)
{
    bool goes_back = slot->state == RENAMED;
    char name[MOST_NAME];

    slot->procedure = NFS_RENAME;
    slot->state = goes_back ? MADE : RENAMED;
    name_of(name, desk, slot->name + goes_back);
    put_place(call, directory_of(desk), name);
    name_of(name, desk, slot->name + !goes_back);
    put_place(call, directory_of(desk), name);
}

static void put_list(struct slot *slot, struct writer *call)
{
    slot->procedure = NFS_READDIRPLUS;
    put_handle(call, &tree.listed_directory);
    put_u64(call, slot->cookie);
    put_bytes(call, slot->verifier, VERIFIER);
    put_u32(call, DIRECTORY_BYTES);
    put_u32(call, PAGE_BYTES);
}

/* A byte of a file, which no other connection locks, and its lock given back. */
static void put_lock(struct desk *desk, struct slot *slot, struct writer *call)
{
    bool is_lock = !slot->is_locked;
    char owner[MOST_NAME];

    if (is_lock) {
        slot->file = chance(&desk->random, FILES);
        slot->offset = (uint64_t)desk->connection << 32 | chance(&desk->random, 1 << 20);
    }
    slot->program = PROGRAM_NLM;
    slot->procedure = is_lock ? NLM_LOCK : NLM_UNLOCK;
    slot->is_locked = is_lock;
    name_of(owner, desk, 0);
    put_text(call, owner); /* the cookie */
    if (is_lock) {
        put_u32(call, 0); /* it does not wait */
        put_u32(call, 1); /* exclusive */
    }
    put_text(call, owner); /* the caller's name */
    put_handle(call, &tree.files[slot->file]);
    put_text(call, owner); /* the owner within it */
    put_u32(call, 1);      /* the process */
    put_u64(call, slot->offset);
    put_u64(call, 1); /* one byte */
    if (is_lock)
        put_zeros(call, 8); /* no reclaim, and the state */
}

void put_next(const struct workload *workload, struct desk *desk, struct slot *slot, struct writer *call)
{
    enum kind kind = workload->kind == BUILD ? of_build(desk) : workload->kind;

    slot->program = PROGRAM_NFS;
    switch (kind) {
    case GETATTR:
        put_file(NFS_GETATTR, desk, slot, call);
        break;
    case ACCESS:
        put_file(NFS_ACCESS, desk, slot, call);
        put_u32(call, ALL_ACCESS);
        break;
    case LOOKUP:
        put_lookup(desk, slot, call);
        break;
    case SETATTR:
        put_setattr(desk, slot, call);
        break;
    case READ:
        put_transfer(NFS_READ, workload->length, desk, slot, call);
        break;
    case WRITE:
        put_transfer(NFS_WRITE, workload->length, desk, slot, call);
        break;
    case CREATE:
        put_new_file(UNCHECKED, desk, slot, call);
        break;
    case REMOVE_MADE:
        put_remove(desk->made[--desk->made_count], desk, slot, call);
        break;
    case CREATE_REMOVE:
        if (slot->state == NOT_MADE)
            put_new_file(GUARDED, desk, slot, call);
        else
            put_remove(slot->name, desk, slot, call);
        break;
    case RENAME:
        if (slot->state == NOT_MADE)
            put_new_file(GUARDED, desk, slot, call);
        else
            put_rename(desk, slot, call);
        break;
    case LIST:
        put_list(slot, call);
        break;
    case LOCK:
        put_lock(desk, slot, call);
        break;
    case BUILD:
        break;
    }
}

/* The readers of results, behind the status OK. */

static void take_getattr(struct reader *reply)
{
    struct attributes attributes = take_attributes(reply);

    if (options.is_checked && attributes.type != REGULAR_FILE)
        fail("GETATTR: a file has type %u", attributes.type);
}

static void take_lookup(const struct slot *slot, struct reader *reply)
{
    const struct handle *known = &tree.files[slot->file];
    struct handle handle;

    take_handle(reply, &handle);
    take_attributes_after(reply);
    take_attributes_after(reply);
    if (!options.is_checked || reply->is_broken)
        return;
    if (handle.length != known->length || memcmp(handle.bytes, known->bytes, handle.length) != 0)
        fail("LOOKUP: another handle than CREATE gave");
}

static void take_access(struct reader *reply)
{
    take_attributes_after(reply);
    if (take_u32(reply) == 0 && options.is_checked)
        fail("ACCESS: the superuser may do nothing");
}

/* The data's ends and a piece in between, by chance, have to be those that were written: looking at all of them would
 * take as long as serving them. */
static void check_data(struct desk *desk, const struct slot *slot, const uint8_t *data)
{
    const uint8_t *written = content(slot->file, slot->offset);
    uint32_t places[] = { 0, chance(&desk->random, slot->length - ENDS), slot->length - ENDS };

    for (size_t at = 0; at < sizeof places / sizeof *places; at++)
        if (memcmp(data + places[at], written + places[at], ENDS) != 0)
            fail("READ: other bytes than were written, near %u of %u", places[at], slot->length);
}

static void take_read(struct desk *desk, const struct slot *slot, struct reader *reply)
{
    const uint8_t *data;
    uint32_t count, length;

    take_attributes_after(reply);
    count = take_u32(reply);
    take_u32(reply); /* whether they are the last of the file */
    data = take_opaque(reply, &length);
    if (reply->is_broken)
        return;
    if (count != slot->length || length != count)
        fail("READ: %u bytes of which %u are there, and not %u", count, length, slot->length);
    if (options.is_checked)
        check_data(desk, slot, data);
}

static void take_write(const struct slot *slot, struct reader *reply)
{
    uint32_t count;

    take_attributes_around(reply);
    count = take_u32(reply);
    if (count != slot->length)
        fail("WRITE: %u bytes, and not %u", count, slot->length);
    if (take_u32(reply) > FILE_SYNC)
        fail("WRITE: no such stability");
    skip(reply, VERIFIER);
}

/* Keeps the name of a new file, which is to be removed at some time. */
static void keep_made(struct desk *desk, uint64_t name)
{
    if (desk->made_count == desk->made_room) {
        desk->made_room = 2 * desk->made_room + 1024;
        desk->made = realloc(desk->made, desk->made_room * sizeof *desk->made);
        if (!desk->made)
            fail("out of memory");
    }
    desk->made[desk->made_count++] = name;
}

static void take_create(const struct workload *workload, struct desk *desk, struct slot *slot, struct reader *reply)
{
    struct handle handle;

    take_made(reply, &handle);
    take_attributes_around(reply);
    if (workload->kind == BUILD) {
        keep_made(desk, slot->name);
        slot->state = NOT_MADE;
    }
}

static void take_page(struct slot *slot, struct reader *reply)
{
    uint32_t entries = 0, is_last;
    const uint8_t *verifier;

    take_attributes_after(reply);
    verifier = skip(reply, VERIFIER);
    if (verifier)
        memcpy(slot->verifier, verifier, VERIFIER);
    for (; take_u32(reply) != 0; entries++) {
        struct handle handle;
        uint32_t length;

        take_u64(reply);
        take_opaque(reply, &length);
        slot->cookie = take_u64(reply);
        take_attributes_after(reply);
        if (take_u32(reply) == 1)
            take_handle(reply, &handle);
    }
    is_last = take_u32(reply);
    if (reply->is_broken)
        return;
    slot->entries += entries;
    if (entries == 0 && !is_last)
        fail("READDIRPLUS: a page has no entries, and is not the last");
    if (!is_last)
        return;
    /* the directory's own entries, `.` and `..`, may be among them */
    if (options.is_checked && (slot->entries < LISTED || slot->entries > LISTED + 2))
        fail("READDIRPLUS: %u entries, and not %d", slot->entries, LISTED);
    slot->entries = 0;
    slot->cookie = 0;
    memset(slot->verifier, 0, VERIFIER);
}

/* The results of LOCK and of UNLOCK: each is granted. */
static void take_granted(const struct slot *slot, struct reader *reply)
{
    uint32_t length;

    take_opaque(reply, &length); /* the cookie */
    take_ok(reply, slot->procedure);
    take_end(reply, slot->procedure);
}

void take_reply(const struct workload *workload, struct desk *desk, struct slot *slot, struct reader *reply)
{
    if (slot->program == PROGRAM_NLM) {
        take_granted(slot, reply);
        return;
    }
    take_ok(reply, slot->procedure);
    switch (slot->procedure) {
    case NFS_GETATTR:
        take_getattr(reply);
        break;
    case NFS_ACCESS:
        take_access(reply);
        break;
    case NFS_LOOKUP:
        take_lookup(slot, reply);
        break;
    case NFS_SETATTR:
    case NFS_REMOVE:
        take_attributes_around(reply);
        break;
    case NFS_READ:
        take_read(desk, slot, reply);
        break;
    case NFS_WRITE:
        take_write(slot, reply);
        break;
    case NFS_CREATE:
        take_create(workload, desk, slot, reply);
        break;
    case NFS_RENAME:
        take_attributes_around(reply);
        take_attributes_around(reply);
        break;
    case NFS_READDIRPLUS:
        take_page(slot, reply);
        break;
    default:
        break;
    }
    take_end(reply, slot->procedure);
}

void remove_left(struct caller *caller, struct desk *desk, const struct slot *slots, int count)
{
    char name[MOST_NAME];

    for (const struct slot *slot = slots; slot < slots + count; slot++) {
        if (slot->state == NOT_MADE)
            continue;
        name_of(name, desk, slot->name + (slot->state == RENAMED));
        remove_name(caller, desk->connection, name);
    }
    while (desk->made_count > 0) {
        name_of(name, desk, desk->made[--desk->made_count]);
        remove_name(caller, desk->connection, name);
    }
}
