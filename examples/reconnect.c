/* Offers a service, and registers it again after svcmgr was restarted: reconnect SOCKET NAME [CONTEXT].
 * Does what reconnect.py does. Compiled by `cc -Wall -Wextra -Werror -o reconnect reconnect.c`. */

#define _POSIX_C_SOURCE 200809L

#include <errno.h>
#include <signal.h>
#include <stdarg.h>
#include <stdbool.h>
#include <stdio.h>
#include <string.h>
#include <sys/socket.h>
#include <sys/un.h>
#include <time.h>
#include <unistd.h>

/* Milliseconds between two looks for a call, and those of the first and the longest pause. */
enum { BETWEEN = 100, FIRST = 100, LONGEST = 5000 };

/* A reply isn't longer: a call has at most 1,024 bytes and 16 references. */
static char answer[4096];

static void wait_for(long milliseconds)
{
    nanosleep(&(struct timespec){milliseconds / 1000, milliseconds % 1000 * 1000000}, NULL);
}

/* Sends a request and reads its answer. Returns whether that came, and begins with the wanted word. */
static bool ask(FILE *replies, const char *wanted, const char *request, ...)
{
    va_list words;
    va_start(words, request);
    int sent = vdprintf(fileno(replies), request, words);
    va_end(words);
    if (sent < 0 || !fgets(answer, sizeof answer, replies) || !strchr(answer, '\n')) {
        strcpy(answer, "the connection ended");
        return false;
    }
    *strchr(answer, '\n') = 0;
    return strncmp(answer, wanted, strlen(wanted)) == 0;
}

/* Takes calls until the connection ends, and gives back the handles that came with them. */
static void serve(FILE *replies)
{
    while (ask(replies, "", "take\n")) {
        if (strcmp(answer, "empty") == 0) {
            wait_for(BETWEEN);
            continue;
        }
        puts(answer);
        fflush(stdout);
        char call[sizeof answer], *rest;
        strcpy(call, answer);
        for (char *word = strtok_r(call, " ", &rest); word; word = strtok_r(NULL, " ", &rest))
            if (*word == 'h' && !ask(replies, "ok", "release %s\n", word + 1))
                return;
    }
}

/* Takes svcmgr's answer to a `hello` from a doorkeeper. Returns the connection to svcmgr that comes with it. From a
 * doorkeeper that relays none comes: it is the same one then. */
static int enter(int door)
{
    union {
        struct cmsghdr header;
        char bytes[CMSG_SPACE(sizeof(int))];
    } passed;
    struct iovec line = {answer, sizeof answer - 1};
    struct msghdr message = {
        .msg_iov = &line, .msg_iovlen = 1, .msg_control = &passed, .msg_controllen = sizeof passed};
    ssize_t length = recvmsg(door, &message, 0);
    answer[length > 0 ? length : 0] = 0;
    if (!strchr(answer, '\n'))
        strcpy(answer, "the connection ended");
    answer[strcspn(answer, "\n")] = 0;
    struct cmsghdr *header = length > 0 ? CMSG_FIRSTHDR(&message) : NULL;
    if (!header || header->cmsg_level != SOL_SOCKET || header->cmsg_type != SCM_RIGHTS)
        return door;
    int stream;
    memcpy(&stream, CMSG_DATA(header), sizeof stream);
    close(door);
    return stream;
}

/* Connects, registers and serves. Returns whether the name was registered; `answer` says why it ends. */
static bool visit(const char *path, const char *name, const char *context)
{
    struct sockaddr_un address = {.sun_family = AF_UNIX};
    strcpy(address.sun_path, path);
    int stream = socket(AF_UNIX, SOCK_STREAM, 0);
    if (stream < 0 || connect(stream, (struct sockaddr *)&address, sizeof address) != 0) {
        strcpy(answer, strerror(errno));
        close(stream);
        return false;
    }
    stream = context ? stream : enter(stream);
    FILE *replies = fdopen(stream, "r");
    if (!replies) {
        strcpy(answer, strerror(errno));
        close(stream);
        return false;
    }
    bool is_client = context ? ask(replies, "client ", "hello %d %u %s\n", getpid(), getuid(), context)
                             : strncmp(answer, "client ", strlen("client ")) == 0;
    char client[32];
    snprintf(client, sizeof client, "%.31s", answer);
    bool is_registered = is_client && ask(replies, "ok", "add %s o1 0 8\n", name);
    if (is_registered) {
        fprintf(stderr, "%s is registered by %s\n", name, client);
        serve(replies);
    }
    fclose(replies);
    return is_registered;
}

int main(int count, char **words)
{
    if (count < 3 || count > 4 || strlen(words[1]) >= sizeof(struct sockaddr_un){0}.sun_path) {
        fprintf(stderr, "usage: reconnect SOCKET NAME [CONTEXT]\n");
        return 2;
    }
    signal(SIGPIPE, SIG_IGN);
    for (long pause = FIRST;; pause = 2 * pause < LONGEST ? 2 * pause : LONGEST) {
        if (visit(words[1], words[2], words[3]))
            pause = FIRST;
        fprintf(stderr, "%s: %s; next try in %.1f s\n", words[1], answer, pause / 1000.0);
        wait_for(pause);
    }
}
