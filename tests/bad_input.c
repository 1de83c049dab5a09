/* Runs a command whose standard input fails after the bytes of a file: bad_input pipe|socket FILE COMMAND [WORD..].
   pipe: a non-blocking pipe that holds the file's bytes and whose writer writes no more; reads of it fail with EAGAIN.
   socket: a connection over which the file's bytes came and which was then reset; reads of it fail with ECONNRESET. */
#define _GNU_SOURCE
#include <fcntl.h>
#include <netinet/in.h>
#include <stdio.h>
#include <stdlib.h>
#include <string.h>
#include <sys/socket.h>
#include <sys/wait.h>
#include <unistd.h>

static void check(int result, const char *what)
{
    if (result < 0) {
        perror(what);
        exit(2);
    }
}

/* Both ends of a connection on this machine. */
static void connected(int end[2])
{
    struct sockaddr_in address = { .sin_family = AF_INET, .sin_addr.s_addr = htonl(INADDR_LOOPBACK) };
    socklen_t length = sizeof address;
    int listener = socket(AF_INET, SOCK_STREAM, 0);

    check(listener, "socket");
    check(bind(listener, (struct sockaddr *)&address, length), "bind");
    check(listen(listener, 1), "listen");
    check(getsockname(listener, (struct sockaddr *)&address, &length), "getsockname");
    check(end[1] = socket(AF_INET, SOCK_STREAM, 0), "socket");
    check(connect(end[1], (struct sockaddr *)&address, length), "connect");
    check(end[0] = accept(listener, NULL, NULL), "accept");
    close(listener);
}

int main(int count, char **words)
{
    static char bytes[65536];
    struct linger reset = { 1, 0 };
    int end[2], file, status;
    ssize_t size;
    pid_t child;

    if (count < 4) {
        fprintf(stderr, "usage: bad_input pipe|socket FILE COMMAND [WORD..]\n");
        return 2;
    }
    check(file = open(words[2], O_RDONLY), words[2]);
    check((int)(size = read(file, bytes, sizeof bytes)), "read");
    if (strcmp(words[1], "pipe") == 0)
        check(pipe2(end, O_NONBLOCK), "pipe2");
    else
        connected(end);
    check(write(end[1], bytes, (size_t)size) == size ? 0 : -1, "write");
    check(child = fork(), "fork");
    if (child == 0) {
        check(dup2(end[0], STDIN_FILENO), "dup2");
        close(end[1]);
        execvp(words[3], words + 3);
        perror(words[3]);
        _exit(2);
    }
    if (strcmp(words[1], "socket") == 0) {
        /* the other end is reset once the bytes have been read */
        usleep(300000);
        check(setsockopt(end[1], SOL_SOCKET, SO_LINGER, &reset, sizeof reset), "setsockopt");
        close(end[1]);
    }
    check(waitpid(child, &status, 0), "waitpid");
    return WIFEXITED(status) ? WEXITSTATUS(status) : 128 + WTERMSIG(status);
}
