/* `hd serve` on two pipes: frames of requests go down, and frames of answers come up. */
#define _GNU_SOURCE
#include "dli.h"

#include <errno.h>
#include <fcntl.h>
#include <signal.h>
#include <spawn.h>
#include <stdarg.h>
#include <stdio.h>
#include <stdlib.h>
#include <string.h>
#include <sys/wait.h>
#include <unistd.h>

extern char **environ;

static pid_t server;
static int to_server = -1, from_server = -1;

uint32_t number_in(const unsigned char *bytes, int count)
{
    uint32_t number = 0;
    for (int place = 0; place < count; place++)
        number = number << 8 | bytes[place];
    return number;
}

void put_number(unsigned char *bytes, int count, uint32_t number)
{
    for (int place = count; place > 0; number >>= 8)
        bytes[--place] = (unsigned char)number;
}

int server_end(void)
{
    int status;

    if (!server)
        return 0;
    close(to_server);
    while (waitpid(server, &status, 0) < 0)
        if (errno != EINTR)
            return 3;
    server = 0;
    return WIFEXITED(status) ? WEXITSTATUS(status) : 3;
}

void abend(const char *format, ...)
{
    va_list words;

    fflush(NULL);
    fputs("hdrun: ", stderr);
    va_start(words, format);
    vfprintf(stderr, format, words);
    va_end(words);
    fputc('\n', stderr);
    int status = server_end();
    if (status)
        fprintf(stderr, "hdrun: hd serve ended with status %d\n", status);
    fflush(NULL);
    _exit(16);
}

static void lost(void)
{
    abend("hd serve has ended before the program; the volume is that of the last commit");
}

static void send_all(const unsigned char *bytes, size_t length)
{
    while (length > 0) {
        ssize_t sent = write(to_server, bytes, length);
        if (sent > 0) {
            bytes += sent;
            length -= (size_t)sent;
        } else if (sent == 0 || errno != EINTR) {
            lost();
        }
    }
}

/* What came is kept until it is asked for: an answer comes in one piece, so that one read brings length and body. */
static unsigned char room[MOST_FRAME + 4];
static size_t begun, ended;

/* Has so many bytes of the next frame in the room; 0 where the server ended before them. */
static int receive(size_t wanted)
{
    if (begun + wanted > sizeof room) {
        memmove(room, room + begun, ended - begun);
        ended -= begun;
        begun = 0;
    }
    while (ended - begun < wanted) {
        ssize_t came = read(from_server, room + ended, sizeof room - ended);
        if (came > 0)
            ended += (size_t)came;
        else if (came == 0 || errno != EINTR)
            return 0;
    }
    return 1;
}

/* The body of the next frame, or NULL where the server ended. */
static unsigned char *next_frame(size_t *length)
{
    if (begun == ended)
        begun = ended = 0;
    if (!receive(4))
        return NULL;
    *length = number_in(room + begun, 4);
    if (*length > MOST_FRAME)
        abend("hd serve sent a frame of %zu bytes", *length);
    if (!receive(*length + 4))
        return NULL;
    unsigned char *body = room + begun + 4;
    begun += *length + 4;
    return body;
}

const unsigned char *server_receive(size_t *length)
{
    unsigned char *body = next_frame(length);
    if (!body)
        lost();
    return body;
}

void server_send(unsigned char *frame, size_t length)
{
    static unsigned char both[MOST_MAKE + 4 + MOST_FRAME];
    size_t before = ahead_make(both);

    put_number(frame, 4, (uint32_t)length);
    if (before)
        memcpy(both + before, frame, 4 + length);
    send_all(before ? both : frame, before + 4 + length);
}

unsigned server_request(unsigned kind)
{
    unsigned char request[5] = {0, 0, 0, 0, (unsigned char)kind};
    size_t length;

    server_send(request, 1);
    const unsigned char *answer = server_receive(&length);
    return length < 1 ? 255 : answer[0];
}

/* The server has a process group of its own, so that no signal from a terminal ends it: it ends when the pipe does. */
static int spawn(char *const words[], const posix_spawn_file_actions_t *actions)
{
    posix_spawnattr_t attributes;

    posix_spawnattr_init(&attributes);
    posix_spawnattr_setflags(&attributes, POSIX_SPAWN_SETPGROUP);
    posix_spawnattr_setpgroup(&attributes, 0);
    int why = posix_spawnp(&server, words[0], actions, &attributes, words, environ);
    posix_spawnattr_destroy(&attributes);
    return why;
}

int server_start(char *const words[], unsigned char **hello, size_t *length)
{
    int down[2], up[2];
    posix_spawn_file_actions_t actions;

    if (pipe2(down, O_CLOEXEC) || pipe2(up, O_CLOEXEC)) {
        perror("hdrun: no pipe");
        return 16;
    }
    posix_spawn_file_actions_init(&actions);
    posix_spawn_file_actions_adddup2(&actions, down[0], 0);
    posix_spawn_file_actions_adddup2(&actions, up[1], 1);
    int why = spawn(words, &actions);
    posix_spawn_file_actions_destroy(&actions);
    close(down[0]);
    close(up[1]);
    to_server = down[1];
    from_server = up[0];
    if (why) {
        fprintf(stderr, "hdrun: %s: %s\n", words[0], strerror(why));
        server = 0;
        return 16;
    }
    signal(SIGPIPE, SIG_IGN);
    *hello = next_frame(length);
    if (!*hello) {
        int status = server_end();
        fprintf(stderr, "hdrun: hd serve ended with status %d\n", status);
        return 16;
    }
    return 0;
}
