/* Items of XDR (RFC 4506) in memory: written one behind the other, and read with a look at where the bytes end. */
#ifndef XDR_H
#define XDR_H

#include <arpa/inet.h>
#include <stdbool.h>
#include <stddef.h>
#include <stdint.h>
#include <string.h>

/* Where the next item is written. Whoever writes has seen that there is room. */
struct writer {
    uint8_t *next;
};

static inline void put_u32(struct writer *writer, uint32_t value)
{
    value = htonl(value);
    memcpy(writer->next, &value, sizeof value);
    writer->next += sizeof value;
}

static inline void put_u64(struct writer *writer, uint64_t value)
{
    put_u32(writer, (uint32_t)(value >> 32));
    put_u32(writer, (uint32_t)value);
}

static inline void put_zeros(struct writer *writer, size_t count)
{
    memset(writer->next, 0, count);
    writer->next += count;
}

static inline void put_bytes(struct writer *writer, const void *bytes, size_t count)
{
    memcpy(writer->next, bytes, count);
    writer->next += count;
}

/* The zeros that fill so many bytes up to whole words. */
static inline uint32_t filling(uint32_t length)
{
    return (4 - length % 4) % 4;
}

static inline void put_opaque(struct writer *writer, const void *bytes, uint32_t length)
{
    put_u32(writer, length);
    put_bytes(writer, bytes, length);
    put_zeros(writer, filling(length));
}

static inline void put_text(struct writer *writer, const char *text)
{
    put_opaque(writer, text, (uint32_t)strlen(text));
}

/* The bytes that are still to be read. Where an item would end behind the last of them, the reader is broken, and all
 * that is read from it is zero. */
struct reader {
    const uint8_t *next, *end;
    bool is_broken;
};

/* Steps over so many bytes, and tells where they are. */
static inline const uint8_t *skip(struct reader *reader, size_t count)
{
    const uint8_t *bytes = reader->next;

    if ((size_t)(reader->end - bytes) < count) {
        reader->is_broken = true;
        reader->next = reader->end;
        return NULL;
    }
    reader->next += count;
    return bytes;
}

static inline uint32_t take_u32(struct reader *reader)
{
    uint32_t value = 0;
    const uint8_t *bytes = skip(reader, sizeof value);

    if (bytes)
        memcpy(&value, bytes, sizeof value);
    return ntohl(value);
}

static inline uint64_t take_u64(struct reader *reader)
{
    uint64_t high = take_u32(reader);

    return high << 32 | take_u32(reader);
}

/* Opaque bytes, whose length is told before them. */
static inline const uint8_t *take_opaque(struct reader *reader, uint32_t *length)
{
    const uint8_t *bytes;

    *length = take_u32(reader);
    bytes = skip(reader, *length);
    if (!bytes || !skip(reader, filling(*length)))
        *length = 0;
    return bytes;
}

#endif
