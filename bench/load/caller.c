/* One who makes a call when the one before it is answered. */
#include "load.h"

#include <errno.h>
#include <stdlib.h>
#include <string.h>
#include <sys/socket.h>
#include <sys/time.h>
#include <unistd.h>

enum { PATIENCE = 30 }; /* seconds */

void open_caller(struct caller *caller, int port, uint32_t first_xid)
{
    struct timeval patience = { .tv_sec = PATIENCE };

    caller->socket = connect_to_server(port);
    setsockopt(caller->socket, SOL_SOCKET, SO_RCVTIMEO, &patience, sizeof patience);
    caller->xid = first_xid;
    caller->call = allocate(MOST_CALL, 1);
    caller->reply = allocate(MOST_REPLY, 1);
}

void close_caller(struct caller *caller)
{
    close(caller->socket);
    free(caller->call);
    free(caller->reply);
}

struct writer ask(struct caller *caller)
{
    struct writer writer = { caller->call };

    begin_call(&writer);
    return writer;
}

static void send_all(int socket, const uint8_t *bytes, const uint8_t *end)
{
    while (bytes < end) {
        ssize_t count = send(socket, bytes, (size_t)(end - bytes), MSG_NOSIGNAL);

        if (count < 0 && errno != EINTR)
            fail("sending: %s", strerror(errno));
        if (count > 0)
            bytes += count;
    }
}

static void receive(int socket, uint8_t *bytes, size_t length)
{
    while (length > 0) {
        ssize_t count = recv(socket, bytes, length, 0);

        if (count == 0)
            fail("the server closed the connection");
        if (count < 0 && errno == EAGAIN)
            fail("no reply for %d seconds", PATIENCE);
        if (count < 0 && errno != EINTR)
            fail("receiving: %s", strerror(errno));
        if (count > 0) {
            bytes += count;
            length -= (size_t)count;
        }
    }
}

struct reader await(struct caller *caller, const struct writer *writer, enum program program, uint32_t procedure)
{
    struct reader reply = { caller->reply, caller->reply + MARK, false };
    uint32_t mark, length;

    caller->xid++;
    end_call(writer, caller->call, caller->xid, program, procedure);
    send_all(caller->socket, caller->call, writer->next);
    receive(caller->socket, caller->reply, MARK);
    mark = take_u32(&reply);
    length = mark & ~LAST_FRAGMENT;
    if (!(mark & LAST_FRAGMENT) || length > MOST_REPLY)
        fail("a reply that is in several parts, or too long");
    receive(caller->socket, caller->reply, length);
    reply.next = caller->reply;
    reply.end = reply.next + length;
    if (take_u32(&reply) != caller->xid)
        fail("a reply to another call");
    take_header(&reply);
    return reply;
}
