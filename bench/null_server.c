/* null_server: answers each call of NFS 3, MOUNT and NLM at once, with a constant of the right size.
 *
 * There is a thread for each connection, and no file, no state and no look at what is asked beyond its numbers. So it
 * shows what the loopback interface, the kernel and the load generator allow at most. It listens on a port of the
 * system's choice, and says so as nfsd does. Arguments are let pass. It answers the calls that the load generator
 * makes.
 *
 *     gcc -O2 -pthread -o null_server null_server.c
 */
#define _GNU_SOURCE
#include <errno.h>
#include <netinet/in.h>
#include <netinet/tcp.h>
#include <pthread.h>
#include <stdio.h>
#include <stdlib.h>
#include <sys/socket.h>
#include <unistd.h>

#include "load/nfs.h"
#include "load/xdr.h"

enum {
    ROOM = 1 << 20,          /* bytes that are read, and that are written, at once */
    MOST_DATA = 1 << 17,     /* bytes of a READ */
    MOST_REPLY = MOST_DATA + 4096,
    HANDLE = 32,             /* bytes of a handle, as nfsd's */
    ENTRIES = 1002,          /* of the directory that is listed: a thousand names, and two that each directory has */
    ENTRY_NAME = 11,         /* bytes of each name there */
    AROUND_ENTRIES = 4 + 4 + ATTRIBUTES + VERIFIER + 4 + 4, /* of a page of READDIRPLUS, from its status on */
    ENTRY = 4 + 8 + 4 + ENTRY_NAME + 1 + 8 + 4 + ATTRIBUTES + 4 + 4 + HANDLE
};

static uint8_t data[MOST_DATA];

static void put_attributes(struct writer *writer)
{
    put_u32(writer, REGULAR_FILE);
    put_u32(writer, 0644);
    put_u32(writer, 1);
    put_zeros(writer, ATTRIBUTES - 12);
}

/* post_op_attr: there are attributes, and these. */
static void put_attributes_after(struct writer *writer)
{
    put_u32(writer, 1);
    put_attributes(writer);
}

/* wcc_data: those of before a change and of after it. */
static void put_attributes_around(struct writer *writer)
{
    put_u32(writer, 1);
    put_zeros(writer, SHORT_ATTRIBUTES);
    put_attributes_after(writer);
}

static void put_handle(struct writer *writer)
{
    put_opaque(writer, data, HANDLE);
}

static void put_data(struct writer *writer, uint32_t count)
{
    if (count > MOST_DATA)
        count = MOST_DATA;
    put_u32(writer, count);
    put_u32(writer, 0);
    put_opaque(writer, data, count);
}

/* A page of READDIRPLUS behind a cookie, with as many entries as fit. Each cookie is the number of its entry. */
static void put_page(struct writer *writer, uint64_t cookie, uint32_t most)
{
    uint32_t page = most < MOST_DATA ? most : MOST_DATA;
    uint64_t last = cookie + (page > AROUND_ENTRIES ? (page - AROUND_ENTRIES) / ENTRY : 0);

    put_attributes_after(writer);
    put_zeros(writer, VERIFIER);
    while (cookie < last && cookie < ENTRIES) {
        cookie++;
        put_u32(writer, 1);
        put_u64(writer, cookie);
        put_opaque(writer, data, ENTRY_NAME);
        put_u64(writer, cookie);
        put_attributes_after(writer);
        put_u32(writer, 1);
        put_handle(writer);
    }
    put_u32(writer, 0);
    put_u32(writer, cookie >= ENTRIES);
}

/* Steps over a handle. */
static void skip_handle(struct reader *arguments)
{
    uint32_t length;

    take_opaque(arguments, &length);
}

/* The results of a call of NFS, behind the status OK. */
static void put_results(struct writer *writer, uint32_t procedure, struct reader *arguments)
{
    uint64_t cookie;

    switch (procedure) {
    case NFS_GETATTR:
        put_attributes(writer);
        break;
    case NFS_SETATTR:
    case NFS_REMOVE:
        put_attributes_around(writer);
        break;
    case NFS_LOOKUP:
        put_handle(writer);
        put_attributes_after(writer);
        put_attributes_after(writer);
        break;
    case NFS_ACCESS:
        put_attributes_after(writer);
        put_u32(writer, 0x3f);
        break;
    case NFS_READ:
        skip_handle(arguments);
        take_u64(arguments);
        put_attributes_after(writer);
        put_data(writer, take_u32(arguments));
        break;
    case NFS_WRITE:
        skip_handle(arguments);
        take_u64(arguments);
        put_attributes_around(writer);
        put_u32(writer, take_u32(arguments));
        put_u32(writer, FILE_SYNC);
        put_zeros(writer, VERIFIER);
        break;
    case NFS_CREATE:
    case NFS_MKDIR:
        put_u32(writer, 1);
        put_handle(writer);
        put_attributes_after(writer);
        put_attributes_around(writer);
        break;
    case NFS_RENAME:
        put_attributes_around(writer);
        put_attributes_around(writer);
        break;
    case NFS_READDIRPLUS:
        skip_handle(arguments);
        cookie = take_u64(arguments);
        skip(arguments, VERIFIER + 4);
        put_page(writer, cookie, take_u32(arguments));
        break;
    }
}

/* Writes the reply to a call, with its mark. */
static void answer(struct reader *call, struct writer *writer)
{
    struct writer mark = *writer;
    uint32_t program, procedure, length;

    put_u32(writer, 0);
    put_u32(writer, take_u32(call)); /* the transaction id */
    skip(call, 8);
    program = take_u32(call);
    skip(call, 4);
    procedure = take_u32(call);
    for (int opaque = 0; opaque < 2; opaque++) { /* the credential and the verifier */
        skip(call, 4);
        take_opaque(call, &length);
    }
    put_u32(writer, RPC_REPLY);
    put_zeros(writer, 16); /* accepted, no verifier, executed */
    if (procedure != NFS_NULL)
        put_u32(writer, 0);
    if (program == PROGRAM_NFS) {
        put_results(writer, procedure, call);
    } else if (program == PROGRAM_NLM) {
        put_u32(writer, 0); /* granted: the word before is a cookie of no bytes */
    } else if (procedure == MOUNT_MNT) {
        put_handle(writer);
        put_u32(writer, 1);
        put_u32(writer, AUTH_SYS);
    }
    put_u32(&mark, LAST_FRAGMENT | (uint32_t)(writer->next - mark.next - MARK));
}

/* Whether all these bytes were sent. */
static bool send_all(int connection, const uint8_t *bytes, const uint8_t *end)
{
    while (bytes < end) {
        ssize_t count = send(connection, bytes, (size_t)(end - bytes), MSG_NOSIGNAL);

        if (count < 0 && errno == EINTR)
            continue;
        if (count <= 0)
            return false;
        bytes += count;
    }
    return true;
}

/* Answers all calls that have come whole, and tells what is behind them; NULL where the connection is to be closed. */
static const uint8_t *answer_all(int connection, const uint8_t *next, const uint8_t *end, uint8_t *replies)
{
    struct writer writer = { replies };

    while (end - next >= MARK) {
        struct reader record = { next, end, false }, call = { NULL, NULL, false };
        uint32_t length = take_u32(&record) & ~LAST_FRAGMENT;

        if (length > ROOM - MARK)
            return NULL;
        call.next = skip(&record, length);
        if (!call.next)
            break;
        call.end = record.next;
        if (writer.next - replies > ROOM - MOST_REPLY) {
            if (!send_all(connection, replies, writer.next))
                return NULL;
            writer.next = replies;
        }
        answer(&call, &writer);
        next = record.next;
    }
    return send_all(connection, replies, writer.next) ? next : NULL;
}

/* Serves a connection to its end. */
static void *serve(void *argument)
{
    int connection = (int)(intptr_t)argument;
    uint8_t *calls = malloc(ROOM), *replies = malloc(ROOM);
    size_t there = 0;

    while (calls && replies) {
        ssize_t count = recv(connection, calls + there, ROOM - there, 0);
        const uint8_t *rest;

        if (count <= 0)
            break;
        there += (size_t)count;
        rest = answer_all(connection, calls, calls + there, replies);
        if (!rest)
            break;
        there -= (size_t)(rest - calls);
        memmove(calls, rest, there);
    }
    close(connection);
    free(calls);
    free(replies);
    return NULL;
}

/* A socket that listens on a port of the system's choice. */
static int listening(void)
{
    struct sockaddr_in address = { .sin_family = AF_INET };
    socklen_t length = sizeof address;
    int listener = socket(AF_INET, SOCK_STREAM, 0);

    address.sin_addr.s_addr = htonl(INADDR_LOOPBACK);
    if (listener < 0 || bind(listener, (struct sockaddr *)&address, length) || listen(listener, 64) ||
        getsockname(listener, (struct sockaddr *)&address, &length)) {
        perror("null_server");
        exit(1);
    }
    fprintf(stderr, "null_server: listening on 127.0.0.1:%d (TCP)\n", ntohs(address.sin_port));
    return listener;
}

int main(void)
{
    int listener = listening(), one = 1;

    memset(data, 'a', sizeof data);
    for (;;) {
        int connection = accept(listener, NULL, NULL);
        pthread_t thread;

        if (connection < 0)
            continue;
        setsockopt(connection, IPPROTO_TCP, TCP_NODELAY, &one, sizeof one);
        if (pthread_create(&thread, NULL, serve, (void *)(intptr_t)connection))
            close(connection);
        else
            pthread_detach(thread);
    }
}
