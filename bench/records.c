/* Records over TCP (RFC 5531 section 11), for bench/records.sh and bench/gate.sh.

   records serve PORT REPLY [COPIES]
                                   answers each record of one connection by one of REPLY bytes; no RPC, no tree. Before, it copies them
                                   COPIES times, the first time out of 2 MiB
   records call PORT KIND N OUT    N calls with OUT outstanding: getattr, read, write (of 32,768 bytes of file f), or make: CREATE of f and
                                   64 WRITEs, one at a time; prints the microseconds of a call
   records call .. EXPORT MOUNT    the same at a server that gives other handles: MNT of EXPORT at port MOUNT and a LOOKUP of f get them.
                                   Without these words the root has handle 1, f has handle 2, and replies come in order
   records raw PORT KIND N OUT     the same records to `serve`, whose replies are not read as RPC
   records relay PORT TO [COPIES]  hands each record of one connection on to port TO, and each reply back: the second hop of two. It copies
                                   each reply COPIES times (1 if that isn't given); if more than once, first into a buffer that it clears
                                   before */
#include <arpa/inet.h>
#include <netinet/in.h>
#include <netinet/tcp.h>
#include <stdint.h>
#include <stdio.h>
#include <stdlib.h>
#include <string.h>
#include <sys/socket.h>
#include <time.h>
#include <unistd.h>

enum { SIZE = 32768, BLOCKS = 64, LAST = 0x7fffffff };
static unsigned char in[1 << 17], out[1 << 17], spare[2][1 << 17], stored[BLOCKS * SIZE];
/* The handles of the root and of the file f, after their length. */
static struct handle { uint32_t size; unsigned char bytes[64]; } root = {8, {[7] = 1}}, file = {8, {[7] = 2}};

static void put(unsigned char **at, uint32_t word) {
    word = htonl(word);
    memcpy(*at, &word, 4);
    *at += 4;
}

static uint32_t get(const unsigned char *at) {
    uint32_t word;
    memcpy(&word, at, 4);
    return ntohl(word);
}

static double now(void) {
    struct timespec t;
    clock_gettime(CLOCK_MONOTONIC, &t);
    return t.tv_sec + t.tv_nsec / 1e9;
}

static void send_all(int s, const unsigned char *bytes, size_t n) {
    for (ssize_t k; n > 0; bytes += k, n -= k)
        if ((k = write(s, bytes, n)) <= 0) exit(3);
}

static int read_all(int s, unsigned char *bytes, size_t n) {
    for (ssize_t k; n > 0; bytes += k, n -= k)
        if ((k = read(s, bytes, n)) <= 0) return 0;
    return 1;
}

/* Reads a record to `in`; its length, or -1 at the end. */
static long read_record(int s) {
    for (size_t n = 0;;) {
        unsigned char head[4];
        if (!read_all(s, head, 4)) return -1;
        size_t more = get(head) & LAST;
        if (n + more > sizeof in || !read_all(s, in + n, more)) exit(4);
        n += more;
        if (get(head) > LAST) return n;
    }
}

/* The head of a call with AUTH_NONE, after room for the mark. */
static unsigned char *begin(uint32_t xid, uint32_t prog, uint32_t proc) {
    unsigned char *at = out + 4;
    uint32_t head[] = {xid, 0, 2, prog, 3, proc, 0, 0, 0, 0};
    for (size_t k = 0; k < sizeof head / sizeof *head; k++) put(&at, head[k]);
    return at;
}

static void put_opaque(unsigned char **at, const void *bytes, uint32_t n) {
    put(at, n);
    memset(*at, 0, (n + 3) / 4 * 4);
    memcpy(*at, bytes, n);
    *at += (n + 3) / 4 * 4;
}

static void get_handle(struct handle *h, const unsigned char *at) {
    h->size = get(at);
    if (h->size > sizeof h->bytes) exit(5);
    memcpy(h->bytes, at + 4, h->size);
}

/* Writes the mark of the call that ends here; the length of its record. */
static size_t end(unsigned char *at) {
    size_t n = at - out;
    at = out;
    put(&at, 0x80000000u | (n - 4));
    return n;
}

/* Puts a call into `out` as a record; its length. */
static size_t make_call(const char *kind, uint32_t xid, uint32_t i) {
    int make = !strcmp(kind, "make"), create = make && i == 0;
    int proc = create ? 8 : !strcmp(kind, "getattr") ? 1 : !strcmp(kind, "read") ? 6 : 7;
    unsigned char *at = begin(xid, 100003, proc);
    struct handle *h = create || proc == 1 ? &root : &file;
    put_opaque(&at, h->bytes, h->size);
    uint32_t block = (make ? i - 1 : i) % BLOCKS * SIZE;
    if (create) {
        put_opaque(&at, "f", 1);
        for (int k = 0; k < 7; k++) put(&at, 0);
    } else if (proc != 1) {
        put(&at, 0), put(&at, block), put(&at, SIZE);
    }
    if (proc == 7) {
        put(&at, 2), put(&at, SIZE);
        memset(at, i, SIZE), at += SIZE;
    }
    return end(at);
}

/* Reads a reply to one of the calls from `low` to `high`, which has to have no error: neither of RPC nor of the procedure. */
static void check_reply(int s, uint32_t low, uint32_t high, const char *kind) {
    if (read_record(s) < 0) exit(4);
    if (get(in) < low || get(in) > high || get(in + 8) || get(in + 20) || get(in + 24)) {
        fprintf(stderr, "call %u of %s is refused: status %u\n", high, kind, get(in + 24));
        exit(5);
    }
}

static void mount(int s, const char *export) {
    unsigned char *at = begin(1, 100005, 1);
    put_opaque(&at, export, strlen(export));
    send_all(s, out, end(at));
    check_reply(s, 1, 1, "MNT");
    get_handle(&root, in + 28);
}

static void look_up(int s) {
    unsigned char *at = begin(1, 100003, 3);
    put_opaque(&at, root.bytes, root.size);
    put_opaque(&at, "f", 1);
    send_all(s, out, end(at));
    check_reply(s, 1, 1, "LOOKUP");
    get_handle(&file, in + 28);
}

/* How the replies are read: as RPC, in order or in any order, or not at all. */
enum reading { ORDER, ANY, RAW };

static int calls(int s, const char *kind, long n, long outstanding, enum reading how) {
    long sent = 0, got = 0;
    double begun = now();
    while (got < n) {
        for (; sent < n && sent - got < outstanding; sent++) send_all(s, out, make_call(kind, sent + 1, sent));
        got++;
        if (how == RAW && read_record(s) < 0) return 4;
        if (how != RAW) check_reply(s, how == ANY ? 1 : got, how == ANY ? sent : got, kind);
        if (got == 1 && !strcmp(kind, "make")) get_handle(&file, in + 32);
    }
    printf("%.3f\n", (now() - begun) / n * 1e6);
    return 0;
}

/* Copies bytes from one buffer to the next, and the last time to `to`. */
static void copy_on(unsigned char *to, const unsigned char *from, size_t n, int copies) {
    for (int k = 1; k <= copies; k++) {
        unsigned char *next = k == copies ? to : spare[k % 2];
        memcpy(next, from, n);
        __asm__ volatile("" ::"r"(next) : "memory");
        from = next;
    }
}

static int serve(int listening, size_t reply, int copies) {
    int one = 1, s = accept(listening, 0, 0);
    setsockopt(s, IPPROTO_TCP, TCP_NODELAY, &one, sizeof one);
    memset(stored, 1, sizeof stored);
    if (reply > SIZE + 1024) return 1;
    for (uint32_t i = 0; read_record(s) >= 0; i++) {
        unsigned char *at = out;
        put(&at, 0x80000000u | reply);
        copy_on(at, stored + i % (BLOCKS - 1) * SIZE, reply, copies);
        send_all(s, out, reply + 4);
    }
    return 0;
}

static int dial(int port) {
    int one = 1, s = socket(AF_INET, SOCK_STREAM, 0);
    struct sockaddr_in at = {.sin_family = AF_INET, .sin_port = htons(port), .sin_addr.s_addr = htonl(INADDR_LOOPBACK)};
    if (connect(s, (void *)&at, sizeof at)) exit(2);
    setsockopt(s, IPPROTO_TCP, TCP_NODELAY, &one, sizeof one);
    return s;
}

static int listen_at(int port) {
    int one = 1, s = socket(AF_INET, SOCK_STREAM, 0);
    struct sockaddr_in at = {.sin_family = AF_INET, .sin_port = htons(port), .sin_addr.s_addr = htonl(INADDR_LOOPBACK)};
    setsockopt(s, SOL_SOCKET, SO_REUSEADDR, &one, sizeof one);
    if (bind(s, (void *)&at, sizeof at) || listen(s, 1)) exit(2);
    return s;
}

static void hand_on(int s, size_t n, int copies) {
    unsigned char *at = out;
    put(&at, 0x80000000u | n);
    copy_on(at, in, n, copies);
    send_all(s, out, n + 4);
}

/* Clears the buffer into which a reply of this length is copied first. */
static void clear(size_t n) {
    memset(spare[1], 0, n);
    __asm__ volatile("" ::"r"(spare[1]) : "memory");
}

static int relay(int listening, int port, int copies) {
    int one = 1, near = accept(listening, 0, 0), far = dial(port);
    setsockopt(near, IPPROTO_TCP, TCP_NODELAY, &one, sizeof one);
    for (long n, reply = 0; (n = read_record(near)) >= 0;) {
        if (copies > 1) clear(reply);
        hand_on(far, n, 1);
        if ((reply = read_record(far)) < 0) return 4;
        hand_on(near, reply, copies);
    }
    return 0;
}

int main(int count, char **words) {
    if ((count == 4 || count == 5) && !strcmp(words[1], "serve"))
        return serve(listen_at(atoi(words[2])), atol(words[3]), count == 5 ? atoi(words[4]) : 0);
    if ((count == 4 || count == 5) && !strcmp(words[1], "relay"))
        return relay(listen_at(atoi(words[2])), atoi(words[3]), count == 5 ? atoi(words[4]) : 1);
    if (count != 6 && count != 8) return 1;
    int s = dial(atoi(words[2]));
    if (count == 8) {
        int m = dial(atoi(words[7]));
        mount(m, words[6]);
        close(m);
        if (strcmp(words[3], "make")) look_up(s);
    }
    return calls(s, words[3], atol(words[4]), atol(words[5]), !strcmp(words[1], "raw") ? RAW : count == 8 ? ANY : ORDER);
}
