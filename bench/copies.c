/* What bench/ends.sh compares with: the copies of the data of a WRITE and of a READ through both ends of a link, and nothing else: no call, no
 * frame, no memory that is taken. The data crosses the link in frames of at most 4,096 bytes, of which none goes on into the next segment of a
 * chunk, so half of the copies are in parts that lie 20 bytes apart. The argument is how many bytes there are, 32,768 without one. It prints
 * the microseconds of one copy of them, and of the copies of a WRITE and of a READ. */
#include <stdio.h>
#include <stdlib.h>
#include <string.h>
#include <time.h>

enum { PAGE = 4096, SEGMENT = 66048, OVERHEAD = 20, HEADER = 16, ARGS = 72, REPLY = 128 };
static size_t size = 32768, rounds;
static unsigned char *args, *region, *queue, *sink, **page, *reply, *room;

static void *take(size_t room_of)
{
    unsigned char *bytes = malloc(room_of);
    if (!bytes)
        exit(1);
    memset(bytes, 1, room_of);
    return bytes;
}

static void copy(void *to, const void *from, size_t bytes)
{
    memcpy(to, from, bytes);
    __asm__ volatile("" ::"r"(to) : "memory");
}

static void clear(void *to)
{
    memset(to, 0, size);
    __asm__ volatile("" ::"r"(to) : "memory");
}

/* How many bytes the frame has whose first is at this offset. */
static size_t frame_at(size_t at)
{
    size_t part = SEGMENT - at % SEGMENT;
    if (part > PAGE)
        part = PAGE;
    return part < size - at ? part : size - at;
}

static void into_frames(const unsigned char *from)
{
    unsigned char *to = queue;
    for (size_t at = 0; at < size; at += frame_at(at)) {
        copy(to + HEADER, from + at, frame_at(at));
        to += frame_at(at) + OVERHEAD;
    }
}

static void from_frames(unsigned char *to)
{
    const unsigned char *from = queue;
    clear(to);
    for (size_t at = 0; at < size; at += frame_at(at)) {
        copy(to + at, from + HEADER, frame_at(at));
        from += frame_at(at) + OVERHEAD;
    }
}

/* The arguments into the region, into the queue, into the server's region, into the pages of the file. */
static void write_call(void)
{
    copy(region, args + ARGS, size);
    into_frames(region);
    from_frames(sink);
    for (size_t i = 0; i < size / PAGE; i++)
        copy(page[i], sink + PAGE * i, PAGE);
}

/* The pages into the reply, into the queue, into the client's region, into the reply. */
static void read_call(void)
{
    for (size_t i = 0; i < size / PAGE; i++)
        copy(room + REPLY + PAGE * i, page[i], PAGE);
    into_frames(room + REPLY);
    from_frames(region);
    copy(reply + REPLY, region, size);
}

static void one_copy(void)
{
    copy(reply, args, size);
}

static double micros(void (*call)(void))
{
    double least = 1e9;
    for (int i = 0; i < 5; i++) {
        struct timespec begun, done;
        clock_gettime(CLOCK_PROCESS_CPUTIME_ID, &begun);
        for (size_t k = 0; k < rounds; k++) {
            args[0] = k;
            call();
        }
        clock_gettime(CLOCK_PROCESS_CPUTIME_ID, &done);
        double took = ((done.tv_sec - begun.tv_sec) * 1e6 + (done.tv_nsec - begun.tv_nsec) / 1e3) / rounds;
        if (took < least)
            least = took;
    }
    return least;
}

int main(int count, char **words)
{
    if (count == 2)
        size = strtoul(words[1], NULL, 10);
    if (size < PAGE || size > 1 << 20 || size % PAGE) {
        fprintf(stderr, "usage: copies [BYTES], a multiple of 4096 up to 1048576\n");
        return 2;
    }
    rounds = ((size_t)20000 << 15) / size;
    args = take(size + ARGS), region = take(size), sink = take(size), reply = take(size + REPLY), room = take(size + REPLY);
    queue = take(size + (size / PAGE + size / SEGMENT + 1) * OVERHEAD);
    page = take(size / PAGE * sizeof *page);
    for (size_t i = 0; i < size / PAGE; i++)
        page[i] = take(PAGE);
    printf("%.3f %.3f %.3f\n", micros(one_copy), micros(write_call), micros(read_call));
    return 0;
}
