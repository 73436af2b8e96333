/* client PATH KEYS service|echo|beside: keys over a Unix socket, first one by one (a key, then its reply), then pipelined (all keys
   written as the socket takes them, replies read beside). Opens session 1 first. Where the server is an echo, each frame comes back as it
   is. With "beside" the keys are sent one by one while a child sends keys on eight other connections without a pause; this process then
   has real-time priority where it may, so that it does not wait for its child. Prints a figure a line: a name, a tab and a number, in
   nanoseconds or keys a second. */
#define _GNU_SOURCE
#include <fcntl.h>
#include <poll.h>
#include <sched.h>
#include <signal.h>
#include <stdio.h>
#include <stdlib.h>
#include <string.h>
#include <sys/mman.h>
#include <sys/prctl.h>
#include <sys/socket.h>
#include <sys/un.h>
#include <sys/wait.h>
#include <time.h>
#include <unistd.h>

enum { HEAD = 9, FRAME = 13, OTHERS = 8, FRAMES = 30000, REPLY = 12, WARM = 3000000 };

static const unsigned keysyms[3] = {0x61, 0xfe51, 0x65};

static void fail(const char *why) {
    perror(why);
    exit(1);
}

static double now(void) {
    struct timespec time;
    clock_gettime(CLOCK_MONOTONIC, &time);
    return time.tv_sec * 1e9 + time.tv_nsec;
}

static int connected(const char *path) {
    struct sockaddr_un address = {.sun_family = AF_UNIX};
    strncpy(address.sun_path, path, sizeof address.sun_path - 1);
    int descriptor = socket(AF_UNIX, SOCK_STREAM, 0);
    if (descriptor < 0 || connect(descriptor, (void *)&address, sizeof address))
        fail("connect");
    return descriptor;
}

static void put_number(unsigned char *to, unsigned number) {
    for (int at = 0; at < 4; at++)
        to[at] = number >> (24 - 8 * at);
}

static void put_key(unsigned char *to, unsigned session, long index) {
    to[0] = 2;
    put_number(to + 1, session);
    put_number(to + 5, 4);
    put_number(to + 9, keysyms[index % 3]);
}

static unsigned size_of_payload(const unsigned char *head) {
    return (unsigned)head[5] << 24 | head[6] << 16 | head[7] << 8 | head[8];
}

static void send_all(int descriptor, const unsigned char *bytes, size_t size) {
    while (size) {
        ssize_t sent = write(descriptor, bytes, size);
        if (sent <= 0)
            fail("write");
        bytes += sent, size -= sent;
    }
}

static void read_all(int descriptor, unsigned char *bytes, size_t size) {
    while (size) {
        ssize_t got = read(descriptor, bytes, size);
        if (got <= 0)
            fail("read");
        bytes += got, size -= got;
    }
}

static void read_reply(int descriptor, unsigned char *bytes) {
    read_all(descriptor, bytes, HEAD);
    read_all(descriptor, bytes + HEAD, size_of_payload(bytes));
}

/* Opens a session; one that is open already stays so. */
static void open_session(int descriptor, unsigned session) {
    unsigned char frame[HEAD] = {1}, reply[4096];
    put_number(frame + 1, session);
    send_all(descriptor, frame, HEAD);
    read_reply(descriptor, reply);
}

static int compared(const void *a, const void *b) {
    double x = *(const double *)a, y = *(const double *)b;
    return (x > y) - (x < y);
}

static void one_by_one(int descriptor, long count) {
    unsigned char frame[FRAME], reply[4096];
    double *took = malloc(count * sizeof *took);
    for (long index = 0; index < count; index++) {
        put_key(frame, 1, index);
        double start = now();
        send_all(descriptor, frame, FRAME);
        read_reply(descriptor, reply);
        took[index] = now() - start;
    }
    qsort(took, count, sizeof *took, compared);
    printf("median\t%.0f\n99th of 100\t%.0f\nworst\t%.0f\n", took[count / 2], took[count * 99 / 100], took[count - 1]);
    free(took);
}

/* Counts the whole frames in what has come; `part` keeps the head of one that is not whole yet. */
static long frames_in(const unsigned char *bytes, ssize_t size) {
    static unsigned char part[HEAD];
    static size_t held, left;
    long count = 0;
    for (ssize_t at = 0; at < size;) {
        if (left) {
            size_t step = left < (size_t)(size - at) ? left : (size_t)(size - at);
            left -= step, at += step;
        } else {
            part[held++] = bytes[at++];
            if (held < HEAD)
                continue;
            held = 0, left = size_of_payload(part);
        }
        count += left == 0 && held == 0;
    }
    return count;
}

static void pipelined(int descriptor, long count) {
    static unsigned char replies[1 << 18];
    size_t size = FRAME * count, sent = 0;
    unsigned char *frames = malloc(size);
    for (long index = 0; index < count; index++)
        put_key(frames + FRAME * index, 1, index);
    fcntl(descriptor, F_SETFL, O_NONBLOCK);
    double start = now();
    for (long answered = 0; answered < count;) {
        struct pollfd wait = {.fd = descriptor, .events = POLLIN | (sent < size ? POLLOUT : 0)};
        if (poll(&wait, 1, 10000) <= 0)
            fail("poll");
        if (wait.revents & POLLIN) {
            ssize_t got = read(descriptor, replies, sizeof replies);
            if (got <= 0)
                fail("read");
            answered += frames_in(replies, got);
        }
        if (wait.revents & POLLOUT) {
            size_t piece = size - sent > 65536 ? 65536 : size - sent;
            ssize_t put = write(descriptor, frames + sent, piece);
            sent += put > 0 ? put : 0;
        }
    }
    printf("pipelined\t%.0f\n", count / ((now() - start) * 1e-9));
    free(frames);
}

/* Sends keys on eight connections without a pause, each in a session of its own, and counts the bytes of the replies. */
static void send_for_ever(const char *path, volatile long *came) {
    static unsigned char frames[OTHERS][FRAME * FRAMES], replies[1 << 18];
    struct pollfd waits[OTHERS];
    size_t sent[OTHERS] = {0};
    for (int other = 0; other < OTHERS; other++) {
        for (long index = 0; index < FRAMES; index++)
            put_key(frames[other] + FRAME * index, 2 + other, index);
        waits[other] = (struct pollfd){.fd = connected(path), .events = POLLIN | POLLOUT};
        open_session(waits[other].fd, 2 + other);
        fcntl(waits[other].fd, F_SETFL, O_NONBLOCK);
    }
    while (poll(waits, OTHERS, -1) > 0)
        for (int other = 0; other < OTHERS; other++) {
            if (waits[other].revents & POLLIN) {
                ssize_t got = read(waits[other].fd, replies, sizeof replies);
                *came += got > 0 ? got : 0;
            }
            if (waits[other].revents & POLLOUT) {
                size_t left = sizeof frames[other] - sent[other];
                ssize_t put = write(waits[other].fd, frames[other] + sent[other], left > 65536 ? 65536 : left);
                sent[other] = (sent[other] + (put > 0 ? put : 0)) % sizeof frames[other];
            }
        }
}

static void beside(const char *path, int descriptor, long count) {
    volatile long *came = mmap(0, sizeof *came, PROT_READ | PROT_WRITE, MAP_SHARED | MAP_ANONYMOUS, -1, 0);
    pid_t child = fork();
    if (child < 0)
        fail("fork");
    if (!child) {
        prctl(PR_SET_PDEATHSIG, SIGKILL);
        send_for_ever(path, came);
        exit(1);
    }
    while (*came < WARM && !waitpid(child, 0, WNOHANG))
        usleep(1000);
    int is_first = !sched_setscheduler(0, SCHED_FIFO, &(struct sched_param){.sched_priority = 1});
    long before = *came;
    double start = now();
    one_by_one(descriptor, count);
    printf("of the others\t%.0f\nreal-time priority\t%d\n", (*came - before) / REPLY / ((now() - start) * 1e-9), is_first);
    kill(child, SIGKILL);
    waitpid(child, 0, 0);
}

int main(int count, char **words) {
    if (count != 4)
        return 2;
    long keys = atol(words[2]);
    int descriptor = connected(words[1]);
    if (strcmp(words[3], "echo"))
        open_session(descriptor, 1);
    if (!strcmp(words[3], "beside")) {
        beside(words[1], descriptor, keys);
        return 0;
    }
    one_by_one(descriptor, keys / 10);
    pipelined(descriptor, keys);
    return 0;
}
