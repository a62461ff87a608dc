/* Calls of NFS and what stands in replies: parts that several calls have. */
#include "load.h"

#include <string.h>

/* A call's header, from its transaction id on, with the credential of the superuser on a host of this name. */
static const char host[] = "load";

enum { CREDENTIAL = 4 + 4 + 4 + 4 + 4 + 4 + 4, HEADER = 24 + 8 + CREDENTIAL + 8 };

void begin_call(struct writer *writer)
{
    writer->next += MARK + HEADER;
}

void end_call(const struct writer *writer, uint8_t *begin, uint32_t xid, enum program program, uint32_t procedure)
{
    struct writer header = { begin };

    put_u32(&header, LAST_FRAGMENT | (uint32_t)(writer->next - begin - MARK));
    put_u32(&header, xid);
    put_u32(&header, RPC_CALL);
    put_u32(&header, RPC_VERSION);
    put_u32(&header, program);
    put_u32(&header, program == PROGRAM_NLM ? NLM_VERSION : PROGRAM_VERSION);
    put_u32(&header, procedure);
    put_u32(&header, AUTH_SYS);
    put_u32(&header, CREDENTIAL);
    put_u32(&header, 0); /* stamp */
    put_opaque(&header, host, sizeof host - 1);
    put_u32(&header, 0); /* user */
    put_u32(&header, 0); /* group */
    put_u32(&header, 1); /* further groups: one, which is the first too */
    put_u32(&header, 0);
    put_u32(&header, AUTH_NONE);
    put_u32(&header, 0);
}

void take_header(struct reader *reply)
{
    uint32_t length;

    if (take_u32(reply) != RPC_REPLY)
        fail("a record that is no reply");
    if (take_u32(reply) != 0)
        fail("a call is denied");
    take_u32(reply);
    take_opaque(reply, &length);
    if (take_u32(reply) != 0 || reply->is_broken)
        fail("a call is not executed");
}

void take_ok(struct reader *reply, enum procedure procedure)
{
    uint32_t status = take_u32(reply);

    if (status != 0)
        fail("procedure %d: status %u", procedure, status);
}

void take_end(const struct reader *reply, enum procedure procedure)
{
    if (reply->is_broken)
        fail("procedure %d: the reply is too short or has no right form", procedure);
    if (reply->next != reply->end)
        fail("procedure %d: the reply has %d bytes too many", procedure, (int)(reply->end - reply->next));
}

void put_handle(struct writer *writer, const struct handle *handle)
{
    put_opaque(writer, handle->bytes, handle->length);
}

void put_place(struct writer *writer, const struct handle *directory, const char *name)
{
    put_handle(writer, directory);
    put_text(writer, name);
}

void put_mode(struct writer *writer, uint32_t mode)
{
    put_u32(writer, 1);
    put_u32(writer, mode);
    put_zeros(writer, 20); /* user, group, size and both times stay */
}

void put_create(struct writer *writer, const struct handle *directory, const char *name, uint32_t how)
{
    put_place(writer, directory, name);
    put_u32(writer, how);
    put_mode(writer, 0644);
}

void put_write(struct writer *writer, uint32_t file, uint64_t offset, uint32_t length, uint32_t stable)
{
    put_handle(writer, &tree.data_files[file]);
    put_u64(writer, offset);
    put_u32(writer, length);
    put_u32(writer, stable);
    put_opaque(writer, content(file, offset), length);
}

void take_handle(struct reader *reply, struct handle *handle)
{
    const uint8_t *bytes = take_opaque(reply, &handle->length);

    if (handle->length == 0 || handle->length > MOST_OF_HANDLE) {
        reply->is_broken = true;
        handle->length = 0;
        return;
    }
    memcpy(handle->bytes, bytes, handle->length);
}

struct attributes take_attributes(struct reader *reply)
{
    struct attributes attributes = { .are_there = true };

    attributes.type = take_u32(reply);
    skip(reply, 16); /* mode, links, user, group */
    attributes.size = take_u64(reply);
    skip(reply, 56);
    if (attributes.type < 1 || attributes.type > 7)
        reply->is_broken = true;
    return attributes;
}

/* Whether something that may be left out is there. */
static bool is_there(struct reader *reply)
{
    uint32_t word = take_u32(reply);

    if (word > 1)
        reply->is_broken = true;
    return word == 1;
}

struct attributes take_attributes_after(struct reader *reply)
{
    struct attributes none = { .are_there = false };

    return is_there(reply) ? take_attributes(reply) : none;
}

void take_attributes_around(struct reader *reply)
{
    if (is_there(reply))
        skip(reply, SHORT_ATTRIBUTES);
    take_attributes_after(reply);
}

bool take_made(struct reader *reply, struct handle *handle)
{
    bool has_handle = is_there(reply);

    if (has_handle)
        take_handle(reply, handle);
    take_attributes_after(reply);
    return has_handle;
}
