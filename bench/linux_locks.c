/* What locks in the machines that bench/linux_locks.py starts, which compiles this: processes that take and give POSIX
 * locks of a file as they are told, each over a connection of its own to that place.
 *
 * usage: linux_locks FILE ADDRESS PORT PROCESSES
 *
 * A process tells its number. Then it is told a line at a time:
 *   try KIND START LENGTH    to lock, or unlock; it says "done" or "denied" (F_SETLK; KIND is r, w or u)
 *   wait KIND START LENGTH   the same, however long it takes (F_SETLKW)
 *   test KIND START LENGTH   it says "free", or "KIND START LENGTH" of a lock that stands in the way (F_GETLK)
 *   flock KIND 0 0           as try, of the whole file (flock)
 *   blocked NUMBER           it says "yes" where that process sleeps in the kernel for a lock of NLM, or "no"
 *   kill NUMBER              to kill that process
 * and ends with its connection. What the system refuses otherwise it says in the system's words. */
#include <arpa/inet.h>
#include <errno.h>
#include <fcntl.h>
#include <signal.h>
#include <stdio.h>
#include <stdlib.h>
#include <string.h>
#include <sys/file.h>
#include <sys/wait.h>
#include <unistd.h>

static const char *result(int status)
{
    if (status == 0)
        return "done";
    return errno == EAGAIN || errno == EACCES ? "denied" : strerror(errno);
}

static void tell_blocked(FILE *out, int process)
{
    char path[64], stack[4096] = "";
    snprintf(path, sizeof path, "/proc/%d/stack", process);
    int file = open(path, O_RDONLY);
    if (file < 0 || read(file, stack, sizeof stack - 1) < 0)
        stack[0] = '\0';
    close(file);
    fprintf(out, "%s\n", strstr(stack, "nlmclnt_block") ? "yes" : "no");
}

static void lock(FILE *out, int file, const char *way, char kind, long long start, long long length)
{
    short type = kind == 'w' ? F_WRLCK : kind == 'r' ? F_RDLCK : F_UNLCK;
    struct flock range = {.l_type = type, .l_whence = SEEK_SET, .l_start = start, .l_len = length};
    if (strcmp(way, "flock") == 0) {
        int operation = kind == 'w' ? LOCK_EX : kind == 'r' ? LOCK_SH : LOCK_UN;
        fprintf(out, "%s\n", result(flock(file, operation | LOCK_NB)));
    } else if (strcmp(way, "test") != 0) {
        fprintf(out, "%s\n", result(fcntl(file, strcmp(way, "wait") == 0 ? F_SETLKW : F_SETLK, &range)));
    } else if (fcntl(file, F_GETLK, &range) < 0) {
        fprintf(out, "%s\n", result(-1));
    } else if (range.l_type == F_UNLCK) {
        fprintf(out, "free\n");
    } else {
        char found = range.l_type == F_WRLCK ? 'w' : 'r';
        fprintf(out, "%c %lld %lld\n", found, (long long)range.l_start, (long long)range.l_len);
    }
}

static void obey(FILE *out, int file, const char *line)
{
    char way[8], kind;
    long long start, length;
    int process;
    if (sscanf(line, "blocked %d", &process) == 1)
        tell_blocked(out, process);
    else if (sscanf(line, "kill %d", &process) == 1)
        fprintf(out, "%s\n", result(kill(process, SIGKILL)));
    else if (sscanf(line, "%7s %c %lld %lld", way, &kind, &start, &length) == 4)
        lock(out, file, way, kind, start, length);
    else
        fprintf(out, "what?\n");
}

static void work(const char *name, const char *address, int port)
{
    char line[128];
    struct sockaddr_in place = {.sin_family = AF_INET, .sin_port = htons(port)};
    inet_pton(AF_INET, address, &place.sin_addr);
    int connection = socket(AF_INET, SOCK_STREAM, 0);
    int file = open(name, O_RDWR);
    if (file < 0 || connect(connection, (struct sockaddr *)&place, sizeof place) < 0) {
        perror("linux_locks");
        exit(1);
    }
    FILE *in = fdopen(connection, "r"), *out = fdopen(dup(connection), "w");
    setlinebuf(out);
    fprintf(out, "%d\n", getpid());
    while (fgets(line, sizeof line, in))
        obey(out, file, line);
    exit(0);
}

int main(int count, char **words)
{
    if (count != 5)
        return 2;
    for (int left = atoi(words[4]); left > 0; left--)
        if (fork() == 0)
            work(words[1], words[2], atoi(words[3]));
    while (wait(NULL) > 0)
        ;
    return 0;
}
