/* load: makes calls of NFS 3 over TCP, many at once, and looks whether each reply is right.
 *
 * It makes the files that its calls work on, prints `ready`, and reads the name of a workload from each line of
 * standard input. For each it makes a turn, and prints what it came to as one line of JSON. The first reply that is
 * wrong, and the loss of a connection, ends it with status 1.
 *
 *     gcc -O2 -pthread -o load *.c
 *     echo getattr | load --port 20490
 */
#include "turn.h"

#include <errno.h>
#include <getopt.h>
#include <netinet/in.h>
#include <netinet/tcp.h>
#include <stdarg.h>
#include <stdio.h>
#include <stdlib.h>
#include <string.h>
#include <sys/socket.h>
#include <time.h>
#include <unistd.h>

struct options options = { .connections = 4, .depth = 8, .warm_up = 0.2, .seconds = 0.5, .is_checked = true };

static const char usage[] =
    "usage: load --port PORT [options] < names of workloads\n"
    "  --mount-port N    where MOUNT is, if it is not at the same port\n"
    "  --connections N   (4)\n"
    "  --depth N         calls in progress on each (8)\n"
    "  --warm-up S       seconds that are not counted (0.2)\n"
    "  --seconds S       seconds that are (0.5)\n"
    "  --server PID      the process whose processor time is told\n"
    "  --beside          another client calls meanwhile, one call after the other\n"
    "  --unchecked       for a server that does nothing: its replies need only the right form\n"
    "Workloads: getattr access lookup setattr read4k read64k write4k write64k create_remove rename readdirplus\n"
    "  lock build\n";

void fail(const char *format, ...)
{
    static int is_failing;
    char text[256];
    va_list arguments;

    while (__atomic_exchange_n(&is_failing, 1, __ATOMIC_SEQ_CST))
        pause(); /* another thread has said why */
    va_start(arguments, format);
    vsnprintf(text, sizeof text, format, arguments);
    va_end(arguments);
    fprintf(stderr, "load: %s\n", text);
    _exit(1);
}

void *allocate(size_t count, size_t size)
{
    void *bytes = calloc(count, size);

    if (!bytes)
        fail("out of memory");
    return bytes;
}

double moment(void)
{
    struct timespec now;

    clock_gettime(CLOCK_MONOTONIC, &now);
    return (double)now.tv_sec + 1e-9 * (double)now.tv_nsec;
}

int connect_to_server(int port)
{
    struct sockaddr_in address = { .sin_family = AF_INET, .sin_port = htons((uint16_t)port) };
    int connection = socket(AF_INET, SOCK_STREAM | SOCK_CLOEXEC, 0), one = 1;

    address.sin_addr.s_addr = htonl(INADDR_LOOPBACK);
    if (connection < 0 || connect(connection, (struct sockaddr *)&address, sizeof address))
        fail("no connection to port %d: %s", port, strerror(errno));
    setsockopt(connection, IPPROTO_TCP, TCP_NODELAY, &one, sizeof one);
    return connection;
}

static void misused(void)
{
    fputs(usage, stderr);
    exit(2);
}

static void read_options(int count, char **words)
{
    static const struct option known[] = {
        { "port", required_argument, NULL, 'p' },    { "connections", required_argument, NULL, 'c' },
        { "depth", required_argument, NULL, 'd' },   { "warm-up", required_argument, NULL, 'w' },
        { "seconds", required_argument, NULL, 's' }, { "server", required_argument, NULL, 'i' },
        { "beside", no_argument, NULL, 'b' },        { "unchecked", no_argument, NULL, 'u' },
        { "mount-port", required_argument, NULL, 'm' }, { NULL, 0, NULL, 0 },
    };
    int found;

    while ((found = getopt_long(count, words, "", known, NULL)) != -1) {
        switch (found) {
        case 'p':
            options.port = atoi(optarg);
            break;
        case 'm':
            options.mount_port = atoi(optarg);
            break;
        case 'c':
            options.connections = atoi(optarg);
            break;
        case 'd':
            options.depth = atoi(optarg);
            break;
        case 'w':
            options.warm_up = atof(optarg);
            break;
        case 's':
            options.seconds = atof(optarg);
            break;
        case 'i':
            options.server = atoi(optarg);
            break;
        case 'b':
            options.has_beside = true;
            break;
        case 'u':
            options.is_checked = false;
            break;
        default:
            misused();
        }
    }
    if (!options.mount_port)
        options.mount_port = options.port;
    if (optind != count || options.port < 1 || options.connections < 1 || options.depth < 1 || options.seconds <= 0)
        misused();
}

/* Half of the processors are for the load, as far as there are connections for them. */
static void choose_threads(void)
{
    long half = sysconf(_SC_NPROCESSORS_ONLN) / 2;

    options.threads = half < 1 ? 1 : (int)half;
    if (options.threads > options.connections)
        options.threads = options.connections;
}

static void print_outcome(struct outcome outcome)
{
    printf("{\"seconds\": %.6f, \"calls\": %llu, \"processor\": %.3f, ", outcome.seconds,
           (unsigned long long)outcome.calls, outcome.processor);
    printf("\"beside\": %llu, \"percentile\": %.9f, \"longest\": %.9f}\n", (unsigned long long)outcome.beside,
           outcome.percentile, outcome.longest);
    fflush(stdout);
}

int main(int count, char **words)
{
    struct caller caller;
    char line[64];

    read_options(count, words);
    choose_threads();
    make_content();
    open_caller(&caller, options.port, FIRST_XID_OF_TREE);
    make_tree(&caller);
    puts("ready");
    fflush(stdout);
    while (fgets(line, sizeof line, stdin)) {
        line[strcspn(line, "\n")] = 0;
        print_outcome(make_turn(find_workload(line), &caller));
    }
    close_caller(&caller);
    return 0;
}
