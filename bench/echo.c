/* What the benches compare with: round trips, bytes one way and the passes of calls over a TCP connection, without any protocol.
 *
 *     echo serve PORT REQUEST REPLY [COPIES]        takes one connection, and answers each REQUEST bytes by REPLY bytes, which it copied
 *                                                   COPIES times before; it only reads if REPLY is 0
 *     echo save PORT                                takes one connection, and writes what it reads to its output
 *     echo store PORT PIECE [COPIES]                takes one connection with the passes of WRITEs of PIECE bytes, copies their data COPIES
 *                                                   times, and keeps them, each in new memory
 *     echo over PORT PIECE COPIES                   the same, each in the memory of the one before
 *     echo turns PORT REQUEST REPLY COUNT [COPIES]  makes COUNT round trips, one after another, and copies each reply COPIES times
 *     echo send PORT BYTES PIECE                    sends BYTES in pieces, and waits until the server has read them
 *     echo put PORT PIECE [COPIES]                  reads its input piece by piece, copies each COPIES times, and sends it in the passes of a
 *                                                   WRITE to `store`
 *     echo write PORT PIECE COUNT COPIES            the same of COUNT pieces, without an input
 *
 * A WRITE has four passes: a Send of CALL bytes, a Read Request of REQUEST bytes back, the data, and a reply of ANSWER bytes back. With copies
 * each end reads through ROOM bytes, and the first copy of what it reads is out of those. The clients print the microseconds that it took. */
#include <arpa/inet.h>
#include <netinet/in.h>
#include <netinet/tcp.h>
#include <stdio.h>
#include <stdlib.h>
#include <string.h>
#include <sys/socket.h>
#include <time.h>
#include <unistd.h>

enum { ROOM = 65536, CALL = 172, REQUEST = 52, ANSWER = 232, BUFFERS = 8 };
static unsigned char room[ROOM];
static unsigned char *buffer[BUFFERS + 1];

static void fail(const char *what)
{
    perror(what);
    exit(1);
}

static unsigned char *new_memory(long bytes)
{
    unsigned char *it = malloc(bytes);
    if (!it)
        fail("malloc");
    return it;
}

/* The buffers of a piece, and of its copies: none of their pages is new later. */
static void make_buffers(long piece, int copies)
{
    if (copies > BUFFERS) {
        fprintf(stderr, "at most %d copies\n", BUFFERS);
        exit(2);
    }
    for (int i = 0; i <= copies; i++)
        memset(buffer[i] = new_memory(piece), 1, piece);
}

/* Copies the piece of buffer `from` on, from one buffer to the next, up to buffer `to`. */
static void copy_on(long piece, int from, int to)
{
    for (int i = from; i < to; i++) {
        memcpy(buffer[i + 1], buffer[i], piece);
        __asm__ volatile("" ::"r"(buffer[i + 1]) : "memory");
    }
}

static void write_all(int to, const unsigned char *bytes, long count)
{
    while (count > 0) {
        ssize_t n = write(to, bytes, count);
        if (n <= 0)
            fail("write");
        bytes += n;
        count -= n;
    }
}

/* Writes bytes that nobody looks at. */
static void write_any(int to, long count)
{
    for (long part; count > 0; count -= part)
        write_all(to, room, part = count < ROOM ? count : ROOM);
}

/* Reads exactly these bytes: 1, or 0 at the end of the stream. Copies them to `to`, if there is one. */
static int read_all(int from, long count, unsigned char *to)
{
    while (count > 0) {
        ssize_t n = read(from, room, count < ROOM ? (size_t)count : ROOM);
        if (n < 0)
            fail("read");
        if (n == 0)
            return 0;
        if (to) {
            memcpy(to, room, n);
            to += n;
        }
        count -= n;
    }
    return 1;
}

/* Reads exactly these bytes into memory, without a copy. */
static void read_into(int from, long count, unsigned char *to)
{
    while (count > 0) {
        ssize_t n = read(from, to, count);
        if (n <= 0)
            fail("read");
        to += n;
        count -= n;
    }
}

static struct sockaddr_in address(int port)
{
    struct sockaddr_in at = {.sin_family = AF_INET, .sin_port = htons(port)};
    at.sin_addr.s_addr = htonl(INADDR_LOOPBACK);
    return at;
}

static void no_delay(int s)
{
    int on = 1;
    if (setsockopt(s, IPPROTO_TCP, TCP_NODELAY, &on, sizeof on))
        fail("setsockopt");
}

/* Takes one connection. */
static int take(int port)
{
    int on = 1, listener = socket(AF_INET, SOCK_STREAM, 0);
    struct sockaddr_in at = address(port);
    setsockopt(listener, SOL_SOCKET, SO_REUSEADDR, &on, sizeof on);
    if (bind(listener, (struct sockaddr *)&at, sizeof at) || listen(listener, 1))
        fail("listen");
    int link = accept(listener, 0, 0);
    if (link < 0)
        fail("accept");
    close(listener);
    no_delay(link);
    return link;
}

static void serve(int port, long request, long reply, int copies)
{
    make_buffers(reply, copies);
    int link = take(port);
    if (reply == 0) {
        while (read(link, room, ROOM) > 0) {
        }
    } else {
        while (read_all(link, request, NULL)) {
            copy_on(reply, 0, copies);
            write_all(link, buffer[copies], reply);
        }
    }
    close(link);
}

static void save(int port)
{
    int link = take(port);
    ssize_t n;
    while ((n = read(link, room, ROOM)) > 0)
        write_all(1, room, n);
    close(link);
}

static void store(int port, long piece, int copies, int keeps)
{
    make_buffers(piece, copies);
    int link = take(port);
    while (read_all(link, CALL, NULL)) {
        if (keeps)
            buffer[copies] = new_memory(piece);
        write_any(link, REQUEST);
        if (copies == 0)
            read_into(link, piece, buffer[0]);
        else if (read_all(link, piece, buffer[1]))
            copy_on(piece, 1, copies);
        write_any(link, ANSWER);
    }
    close(link);
}

static int dial(int port)
{
    struct sockaddr_in at = address(port);
    for (int tries = 0; tries < 500; tries++) {
        int link = socket(AF_INET, SOCK_STREAM, 0);
        if (connect(link, (struct sockaddr *)&at, sizeof at) == 0) {
            no_delay(link);
            return link;
        }
        close(link);
        usleep(10000);
    }
    fail("connect");
    return -1;
}

static void turns(int link, long request, long reply, long count, int copies)
{
    while (count-- > 0) {
        write_any(link, request);
        if (!read_all(link, reply, copies ? buffer[1] : NULL))
            fail("end");
        copy_on(reply, 1, copies);
    }
}

static void send_pieces(int link, long bytes, long piece)
{
    for (; bytes > 0; bytes -= piece)
        write_any(link, bytes < piece ? bytes : piece);
    shutdown(link, SHUT_WR);
    while (read(link, room, ROOM) > 0) {
    }
}

/* The passes of a WRITE, of the piece of buffer 0. */
static void write_piece(int link, long piece, int copies)
{
    copy_on(piece, 0, copies);
    write_any(link, CALL);
    if (!read_all(link, REQUEST, NULL))
        fail("end");
    write_all(link, buffer[copies], piece);
    if (!read_all(link, ANSWER, NULL))
        fail("end");
}

static double now(void)
{
    struct timespec t;
    clock_gettime(CLOCK_MONOTONIC, &t);
    return t.tv_sec * 1e6 + t.tv_nsec / 1e3;
}

/* The number of an argument, or this one if there is none. */
static long number(int count, char **words, int at, long otherwise)
{
    return at < count ? atol(words[at]) : otherwise;
}

static void client(const char *what, int count, char **words)
{
    int link = dial(atoi(words[2]));
    int is_turns = !strcmp(what, "turns");
    long size = number(count, words, is_turns ? 4 : 3, 0);
    int copies = number(count, words, is_turns ? 6 : strcmp(what, "put") ? 5 : 4, 0);
    if (strcmp(what, "send"))
        make_buffers(size, copies);
    double begun = now();
    if (is_turns)
        turns(link, number(count, words, 3, 0), size, number(count, words, 5, 0), copies);
    else if (!strcmp(what, "send"))
        send_pieces(link, size, number(count, words, 4, 1));
    else if (!strcmp(what, "put"))
        while (read(0, buffer[0], size) == size)
            write_piece(link, size, copies);
    else
        for (long left = number(count, words, 4, 0); left > 0; left--)
            write_piece(link, size, copies);
    printf("%.0f\n", now() - begun);
}

static void server(const char *what, int count, char **words)
{
    int port = atoi(words[2]);
    long size = number(count, words, 3, 0);
    if (!strcmp(what, "serve"))
        serve(port, size, number(count, words, 4, 0), number(count, words, 5, 0));
    else if (!strcmp(what, "save"))
        save(port);
    else
        store(port, size, number(count, words, 4, 0), !strcmp(what, "store"));
}

/* The commands, with how many words each has at least and at most, its own name and the program's among them. */
static const struct {
    const char *name;
    int least, most;
    void (*run)(const char *, int, char **);
} commands[] = {
    {"serve", 5, 6, server}, {"save", 3, 3, server}, {"store", 4, 5, server}, {"over", 5, 5, server},
    {"turns", 6, 7, client}, {"send", 5, 5, client}, {"put", 4, 5, client},   {"write", 6, 6, client},
};

int main(int count, char **words)
{
    for (size_t i = 0; i < sizeof commands / sizeof *commands; i++)
        if (count >= commands[i].least && count <= commands[i].most && !strcmp(words[1], commands[i].name)) {
            commands[i].run(words[1], count, words);
            return 0;
        }
    fprintf(stderr, "usage: see the head of bench/echo.c\n");
    return 2;
}
