#include "turn.h"

#include <errno.h>
#include <fcntl.h>
#include <pthread.h>
#include <stdio.h>
#include <stdlib.h>
#include <string.h>
#include <sys/epoll.h>
#include <sys/socket.h>
#include <time.h>
#include <unistd.h>

enum { ROOM_FOR_REPLIES = 512 << 10, EVENTS = 64, LOOK = 200 /* milliseconds */, PATIENCE = 30 /* seconds */ };

/* How far a turn is. Replies to calls that were in progress are awaited at its end. */
enum phase { IS_WARMING, IS_COUNTED, IS_OVER };

static int phase;

static enum phase phase_now(void)
{
    return (enum phase)__atomic_load_n(&phase, __ATOMIC_RELAXED);
}

static void begin_phase(enum phase next)
{
    __atomic_store_n(&phase, next, __ATOMIC_SEQ_CST);
}

/* Bytes on their way: those from begin to end are still to be sent, or to be read. */
struct stream {
    uint8_t *bytes;
    size_t begin, end, room;
};

struct connection {
    int socket;
    bool awaits_room; /* for bytes that are to be sent */
    int in_progress;
    uint32_t first_xid; /* of its first slot; those of the next calls follow in steps of all slots */
    struct stream calls, replies;
    struct slot *slots;
    struct desk desk;
};

struct worker {
    pthread_t thread;
    const struct workload *workload;
    struct connection *connections;
    int count, events;
    uint64_t calls;
};

static int all_slots(void)
{
    return options.connections * options.depth;
}

/* Moves what is left of a stream to its front. */
static void move_to_front(struct stream *stream)
{
    if (stream->begin == 0)
        return;
    memmove(stream->bytes, stream->bytes + stream->begin, stream->end - stream->begin);
    stream->end -= stream->begin;
    stream->begin = 0;
}

/* Puts the next call of a slot behind those that are to be sent. There is room for one of each slot. */
static void put_call(const struct worker *worker, struct connection *connection, struct slot *slot)
{
    struct stream *calls = &connection->calls;
    struct writer writer;
    uint8_t *begin;

    if (calls->room - calls->end < MOST_CALL)
        move_to_front(calls);
    begin = calls->bytes + calls->end;
    writer.next = begin;
    begin_call(&writer);
    put_next(worker->workload, &connection->desk, slot, &writer);
    slot->xid += (uint32_t)all_slots();
    end_call(&writer, begin, slot->xid, slot->program, slot->procedure);
    calls->end = (size_t)(writer.next - calls->bytes);
    slot->is_waiting = true;
    connection->in_progress++;
}

/* Sends what is to be sent, as far as there is room for it now. */
static void send_calls(struct worker *worker, struct connection *connection)
{
    struct stream *calls = &connection->calls;
    bool awaits_room = false;

    while (calls->begin < calls->end && !awaits_room) {
        size_t length = calls->end - calls->begin;
        ssize_t count = send(connection->socket, calls->bytes + calls->begin, length, MSG_NOSIGNAL);

        if (count >= 0)
            calls->begin += (size_t)count;
        else if (errno == EAGAIN)
            awaits_room = true;
        else if (errno != EINTR)
            fail("sending: %s", strerror(errno));
    }
    if (calls->begin == calls->end)
        calls->begin = calls->end = 0;
    if (awaits_room != connection->awaits_room) {
        struct epoll_event event = { .events = EPOLLIN | (awaits_room ? EPOLLOUT : 0), .data.ptr = connection };

        connection->awaits_room = awaits_room;
        epoll_ctl(worker->events, EPOLL_CTL_MOD, connection->socket, &event);
    }
}

/* Reads a reply and makes the next call in its place. */
static void answered(struct worker *worker, struct connection *connection, struct reader *reply)
{
    uint32_t xid = take_u32(reply);
    uint32_t at = (xid - connection->first_xid) % (uint32_t)all_slots();
    struct slot *slot = &connection->slots[at];

    if (at >= (uint32_t)options.depth || !slot->is_waiting || slot->xid != xid)
        fail("a reply to no call that is in progress");
    take_header(reply);
    take_reply(worker->workload, &connection->desk, slot, reply);
    slot->is_waiting = false;
    connection->in_progress--;
    if (phase_now() == IS_COUNTED)
        worker->calls++;
    if (phase_now() != IS_OVER)
        put_call(worker, connection, slot);
}

/* Reads all replies that have come whole. */
static void take_replies(struct worker *worker, struct connection *connection)
{
    struct stream *replies = &connection->replies;

    for (;;) {
        struct reader record = { replies->bytes + replies->begin, replies->bytes + replies->end, false };
        struct reader reply = record;
        uint32_t mark = take_u32(&record), length = mark & ~LAST_FRAGMENT;

        if (record.is_broken)
            break;
        if (!(mark & LAST_FRAGMENT) || length > MOST_REPLY)
            fail("a reply that is in several parts, or too long");
        reply.next = skip(&record, length);
        if (!reply.next)
            break;
        reply.end = record.next;
        answered(worker, connection, &reply);
        replies->begin = (size_t)(record.next - replies->bytes);
    }
    move_to_front(replies);
}

static void receive(struct worker *worker, struct connection *connection)
{
    struct stream *replies = &connection->replies;
    ssize_t count = recv(connection->socket, replies->bytes + replies->end, replies->room - replies->end, 0);

    if (count < 0 && (errno == EAGAIN || errno == EINTR))
        return;
    if (count < 0)
        fail("receiving: %s", strerror(errno));
    if (count == 0)
        fail("the server closed the connection");
    replies->end += (size_t)count;
    take_replies(worker, connection);
}

static void begin_calls(struct worker *worker, struct connection *connection)
{
    struct epoll_event event = { .events = EPOLLIN, .data.ptr = connection };

    epoll_ctl(worker->events, EPOLL_CTL_ADD, connection->socket, &event);
    for (int at = 0; at < options.depth; at++)
        put_call(worker, connection, &connection->slots[at]);
    send_calls(worker, connection);
}

static bool has_calls(const struct worker *worker)
{
    for (int at = 0; at < worker->count; at++)
        if (worker->connections[at].in_progress > 0)
            return true;
    return false;
}

/* Calls over its connections until the turn is over. */
static void *work(void *argument)
{
    struct worker *worker = argument;
    double last = moment();

    worker->events = epoll_create1(EPOLL_CLOEXEC);
    if (worker->events < 0)
        fail("epoll: %s", strerror(errno));
    for (int at = 0; at < worker->count; at++)
        begin_calls(worker, &worker->connections[at]);
    while (has_calls(worker)) {
        struct epoll_event events[EVENTS];
        int count = epoll_wait(worker->events, events, EVENTS, LOOK);

        for (int at = 0; at < count; at++) {
            struct connection *connection = events[at].data.ptr;

            if (events[at].events & ~(uint32_t)EPOLLOUT)
                receive(worker, connection);
            send_calls(worker, connection);
        }
        if (count > 0)
            last = moment();
        else if (moment() > last + PATIENCE)
            fail("no reply for %d seconds", PATIENCE);
    }
    close(worker->events);
    return NULL;
}

/* The client beside the others, which asks for attributes, one call after the other. */
struct beside {
    pthread_t thread;
    double *passed; /* how long each call took */
    size_t count, room;
};

static void keep_passed(struct beside *beside, double passed)
{
    if (beside->count == beside->room) {
        beside->room = 2 * beside->room + 4096;
        beside->passed = realloc(beside->passed, beside->room * sizeof *beside->passed);
        if (!beside->passed)
            fail("out of memory");
    }
    beside->passed[beside->count++] = passed;
}

static void *call_beside(void *argument)
{
    static uint32_t xid = FIRST_XID_BESIDE;
    struct beside *beside = argument;
    uint64_t random = 1;
    struct caller caller;

    open_caller(&caller, options.port, xid);
    for (enum phase began = phase_now(); began != IS_OVER; began = phase_now()) {
        struct writer call = ask(&caller);
        double begin = moment();
        struct reader reply;

        put_handle(&call, &tree.files[chance(&random, FILES)]);
        reply = await(&caller, &call, PROGRAM_NFS, NFS_GETATTR);
        if (began == IS_COUNTED)
            keep_passed(beside, moment() - begin);
        take_ok(&reply, NFS_GETATTR);
        take_attributes(&reply);
        take_end(&reply, NFS_GETATTR);
    }
    xid = caller.xid;
    close_caller(&caller);
    return NULL;
}

static int compare_passed(const void *one, const void *other)
{
    double left = *(const double *)one, right = *(const double *)other;

    return (left > right) - (left < right);
}

static void tell_beside(struct beside *beside, struct outcome *outcome)
{
    outcome->beside = beside->count;
    if (beside->count == 0)
        return;
    qsort(beside->passed, beside->count, sizeof *beside->passed, compare_passed);
    outcome->percentile = beside->passed[(beside->count - 1) * 99 / 100];
    outcome->longest = beside->passed[beside->count - 1];
    free(beside->passed);
}

static void open_connection(struct connection *connection, int number, uint32_t first_xid)
{
    connection->socket = connect_to_server(options.port);
    fcntl(connection->socket, F_SETFL, fcntl(connection->socket, F_GETFL) | O_NONBLOCK);
    connection->desk.connection = number;
    connection->desk.random = 0x9e3779b97f4a7c15u * (uint64_t)(number + 1) ^ first_xid;
    connection->calls.room = (size_t)options.depth * MOST_CALL;
    connection->calls.bytes = allocate(connection->calls.room, 1);
    connection->replies.room = ROOM_FOR_REPLIES;
    connection->replies.bytes = allocate(connection->replies.room, 1);
    connection->slots = allocate((size_t)options.depth, sizeof *connection->slots);
    connection->first_xid = first_xid + (uint32_t)(number * options.depth);
    for (int at = 0; at < options.depth; at++)
        connection->slots[at].xid = connection->first_xid + (uint32_t)at;
}

static void close_connection(struct connection *connection, struct caller *caller)
{
    close(connection->socket);
    remove_left(caller, &connection->desk, connection->slots, options.depth);
    free(connection->calls.bytes);
    free(connection->replies.bytes);
    free(connection->slots);
    free(connection->desk.made);
}

/* A transaction id above all that these connections had, from where the next turn's go on. */
static uint32_t next_xid(const struct connection *connections, uint32_t first_xid)
{
    uint32_t turns = 0;

    for (int at = 0; at < all_slots(); at++) {
        const struct slot *slot = &connections[at / options.depth].slots[at % options.depth];
        uint32_t slot_turns = (slot->xid - first_xid) / (uint32_t)all_slots() + 1;

        turns = slot_turns > turns ? slot_turns : turns;
    }
    return first_xid + turns * (uint32_t)all_slots();
}

/* The seconds of a processor that the server has had. */
static double processor(void)
{
    char path[64], text[1024];
    static const char form[] = ") %*c %*d %*d %*d %*d %*d %*u %*u %*u %*u %*u %lu %lu"; /* behind the program's name */
    const char *behind_name;
    unsigned long user = 0, system = 0;
    FILE *file;

    if (!options.server)
        return 0;
    snprintf(path, sizeof path, "/proc/%d/stat", options.server);
    file = fopen(path, "r");
    if (!file)
        fail("the server is gone");
    text[fread(text, 1, sizeof text - 1, file)] = 0;
    fclose(file);
    behind_name = strrchr(text, ')');
    if (!behind_name || sscanf(behind_name, form, &user, &system) != 2)
        fail("%s has no right form", path);
    return (double)(user + system) / (double)sysconf(_SC_CLK_TCK);
}

static void rest(double seconds)
{
    struct timespec left = { (time_t)seconds, (long)((seconds - (double)(time_t)seconds) * 1e9) };

    while (nanosleep(&left, &left) && errno == EINTR)
        ;
}

/* Lets the turn pass, and counts. */
static struct outcome pass_turn(void)
{
    struct outcome outcome = { .beside = 0 };
    double begin, before;

    rest(options.warm_up);
    before = processor();
    begin = moment();
    begin_phase(IS_COUNTED);
    rest(options.seconds);
    begin_phase(IS_OVER);
    outcome.seconds = moment() - begin;
    outcome.processor = processor() - before;
    return outcome;
}

static void start(pthread_t *thread, void *(*run)(void *), void *argument)
{
    if (pthread_create(thread, NULL, run, argument))
        fail("no thread can be started");
}

struct outcome make_turn(const struct workload *workload, struct caller *caller)
{
    static uint32_t first_xid = 1;
    struct connection *connections = allocate((size_t)options.connections, sizeof *connections);
    struct worker *workers = allocate((size_t)options.threads, sizeof *workers), *worker;
    struct beside beside = { .count = 0 };
    struct outcome outcome;

    begin_phase(IS_WARMING);
    for (int at = 0; at < options.connections; at++)
        open_connection(&connections[at], at, first_xid);
    for (int at = 0, next = 0; at < options.threads; next += workers[at].count, at++) {
        worker = &workers[at];
        worker->workload = workload;
        worker->connections = connections + next;
        worker->count = options.connections / options.threads + (at < options.connections % options.threads);
        start(&worker->thread, work, worker);
    }
    if (options.has_beside)
        start(&beside.thread, call_beside, &beside);
    outcome = pass_turn();
    for (worker = workers; worker < workers + options.threads; worker++) {
        pthread_join(worker->thread, NULL);
        outcome.calls += worker->calls;
    }
    if (options.has_beside)
        pthread_join(beside.thread, NULL);
    tell_beside(&beside, &outcome);
    first_xid = next_xid(connections, first_xid);
    if (first_xid > FIRST_XID_OF_TREE / 2)
        first_xid = 1; /* the first calls are so long ago that none is taken for a repeat */
    for (int at = 0; at < options.connections; at++)
        close_connection(&connections[at], caller);
    free(connections);
    free(workers);
    return outcome;
}
