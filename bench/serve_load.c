/*
 * Load for a server on this machine, and a server to compare with.
 *
 *     serve_load echo PORT WORKERS REQUEST REPLY
 *         answers each REQUEST bytes by as many bytes as the hexadecimal REPLY has, and the same ones:
 *         each worker, a thread of its own, serves one connection after another
 *     serve_load single PORT CLIENTS COUNT REQUEST REPLY
 *         so many clients send a request COUNT times each, on one connection each
 *     serve_load each PORT CLIENTS COUNT REQUEST REPLY
 *         the same, with a new connection for each request
 *     serve_load echo-many PORT WORKERS REQUEST REPLY
 *         answers as `echo` does, but each worker serves many connections at once
 *     serve_load many PORT CLIENTS SECONDS REQUEST REPLY
 *         so many clients, on one connection each, send requests for so long, each the next once the
 *         one before is answered; two threads serve them all, and 60 clients have the same address
 *
 * Of the load is printed how many requests were answered rightly, how many seconds all took, and the
 * latency of the slowest hundredth in microseconds; of `many` also how many requests were sent. A
 * client ends where its connection is closed, or where a reply is another one.
 */
#define _GNU_SOURCE
#include <arpa/inet.h>
#include <errno.h>
#include <fcntl.h>
#include <netinet/in.h>
#include <netinet/tcp.h>
#include <pthread.h>
#include <stdint.h>
#include <stdio.h>
#include <stdlib.h>
#include <string.h>
#include <sys/epoll.h>
#include <sys/resource.h>
#include <sys/socket.h>
#include <time.h>
#include <unistd.h>

enum {
    MOST_BYTES = 4096,
    MOST_THREADS = 64,
    MOST_EVENTS = 256,
    CLIENT_THREADS = 2,
    CLIENTS_OF_AN_ADDRESS = 60,
    MOST_MICROSECONDS = 4000000,
};

static int port, is_single;
static uint8_t request[MOST_BYTES], reply[MOST_BYTES];
static size_t request_size, reply_size;

struct client {
    pthread_t thread;
    size_t count;
    size_t answered;
    uint64_t *nanoseconds;
};

static void fail(const char *what) {
    perror(what);
    exit(1);
}

static size_t read_hex(const char *text, uint8_t *bytes) {
    size_t size = strlen(text) / 2;
    for (size_t i = 0; i < size && i < MOST_BYTES; i++) {
        unsigned value;
        if (sscanf(text + 2 * i, "%2x", &value) != 1) {
            fail("hexadecimal digits");
        }
        bytes[i] = value;
    }
    return size;
}

static struct sockaddr_in address(void) {
    struct sockaddr_in to = {.sin_family = AF_INET, .sin_port = htons(port)};
    to.sin_addr.s_addr = htonl(INADDR_LOOPBACK);
    return to;
}

static void send_at_once(int stream) {
    int yes = 1;
    setsockopt(stream, IPPROTO_TCP, TCP_NODELAY, &yes, sizeof yes);
}

/* Whether all bytes came before the other side closed. */
static int receive(int stream, uint8_t *bytes, size_t size) {
    for (size_t have = 0; have < size;) {
        ssize_t n = read(stream, bytes + have, size - have);
        if (n <= 0) {
            return 0;
        }
        have += n;
    }
    return 1;
}

static int deliver(int stream, const uint8_t *bytes, size_t size) {
    return send(stream, bytes, size, MSG_NOSIGNAL) == (ssize_t)size;
}

static int dial(void) {
    struct sockaddr_in to = address();
    int stream = socket(AF_INET, SOCK_STREAM, 0);
    if (stream < 0 || connect(stream, (struct sockaddr *)&to, sizeof to) != 0) {
        fail("connect");
    }
    send_at_once(stream);
    return stream;
}

static uint64_t now(void) {
    struct timespec time;
    clock_gettime(CLOCK_MONOTONIC, &time);
    return time.tv_sec * UINT64_C(1000000000) + time.tv_nsec;
}

static int is_answered(int stream) {
    uint8_t bytes[MOST_BYTES];
    return deliver(stream, request, request_size) && receive(stream, bytes, reply_size) &&
           memcmp(bytes, reply, reply_size) == 0;
}

static void *run_client(void *argument) {
    struct client *client = argument;
    int stream = is_single ? dial() : -1;
    for (size_t i = 0; i < client->count; i++) {
        uint64_t begun = now();
        if (!is_single) {
            stream = dial();
        }
        int answered = is_answered(stream);
        if (!is_single) {
            close(stream);
        }
        if (!answered) {
            break;
        }
        client->nanoseconds[client->answered++] = now() - begun;
    }
    if (is_single) {
        close(stream);
    }
    return NULL;
}

static int by_value(const void *left, const void *right) {
    uint64_t a = *(const uint64_t *)left, b = *(const uint64_t *)right;
    return (a > b) - (a < b);
}

static void load(int clients, size_t count) {
    struct client all[MOST_THREADS] = {0};
    uint64_t *nanoseconds = calloc(clients * count, sizeof *nanoseconds);
    size_t answered = 0;
    uint64_t begun = now();
    for (int i = 0; i < clients; i++) {
        all[i].count = count;
        all[i].nanoseconds = nanoseconds + i * count;
        if (pthread_create(&all[i].thread, NULL, run_client, &all[i]) != 0) {
            fail("pthread_create");
        }
    }
    for (int i = 0; i < clients; i++) {
        pthread_join(all[i].thread, NULL);
        memmove(nanoseconds + answered, all[i].nanoseconds, all[i].answered * sizeof *nanoseconds);
        answered += all[i].answered;
    }
    double seconds = (now() - begun) / 1e9;
    qsort(nanoseconds, answered, sizeof *nanoseconds, by_value);
    uint64_t slowest = answered > 0 ? nanoseconds[answered - 1 - answered / 100] : 0;
    printf("%zu %.6f %.1f\n", answered, seconds, slowest / 1e3);
}

static void *run_worker(void *argument) {
    int listener = *(int *)argument;
    uint8_t bytes[MOST_BYTES];
    for (;;) {
        int stream = accept(listener, NULL, NULL);
        if (stream < 0) {
            continue;
        }
        send_at_once(stream);
        while (receive(stream, bytes, request_size) && deliver(stream, reply, reply_size)) {
        }
        close(stream);
    }
    return NULL;
}

static int listening(int backlog) {
    struct sockaddr_in at = address();
    int listener = socket(AF_INET, SOCK_STREAM, 0), yes = 1;
    setsockopt(listener, SOL_SOCKET, SO_REUSEADDR, &yes, sizeof yes);
    if (bind(listener, (struct sockaddr *)&at, sizeof at) != 0 || listen(listener, backlog) != 0) {
        fail("listen");
    }
    printf("listening %d\n", port);
    fflush(stdout);
    return listener;
}

static void echo(int workers) {
    int listener = listening(128);
    for (int i = 1; i < workers; i++) {
        pthread_t thread;
        if (pthread_create(&thread, NULL, run_worker, &listener) != 0) {
            fail("pthread_create");
        }
    }
    run_worker(&listener);
}

/* As many descriptors as the process may have. */
static void allow_descriptors(void) {
    struct rlimit limit;
    getrlimit(RLIMIT_NOFILE, &limit);
    limit.rlim_cur = limit.rlim_max;
    setrlimit(RLIMIT_NOFILE, &limit);
}

static void watch(int epoll, int stream, void *what) {
    struct epoll_event event = {.events = EPOLLIN, .data.ptr = what};
    if (epoll_ctl(epoll, EPOLL_CTL_ADD, stream, &event) != 0) {
        fail("epoll_ctl");
    }
}

/* One of many connections: of a client, or of an echo server. */
struct connection {
    int stream;
    size_t have;   /* bytes of the packet that comes */
    uint64_t sent; /* when its request was; 0 where none waits for its reply */
};

/* Whether its next packet, of so many bytes, is whole, and whether it ended before that. */
static int is_whole(struct connection *one, size_t size, uint8_t *bytes, int *is_over) {
    ssize_t n = read(one->stream, bytes + one->have, size - one->have);
    *is_over = n == 0 || (n < 0 && errno != EAGAIN && errno != EINTR);
    one->have += n > 0 ? n : 0;
    return one->have == size;
}

static void *echo_to_many(void *argument) {
    int epoll = *(int *)argument;
    for (;;) {
        struct epoll_event events[MOST_EVENTS];
        int count = epoll_wait(epoll, events, MOST_EVENTS, -1);
        for (int i = 0; i < count; i++) {
            struct connection *one = events[i].data.ptr;
            uint8_t bytes[MOST_BYTES];
            int is_over;
            if (is_whole(one, request_size, bytes, &is_over)) {
                one->have = 0;
                is_over = !deliver(one->stream, reply, reply_size);
            }
            if (is_over) {
                close(one->stream);
                free(one);
            }
        }
    }
    return NULL;
}

/* Hands each connection to the next of the workers. */
static void echo_many(int workers) {
    int epolls[MOST_THREADS], listener = listening(4096);
    allow_descriptors();
    for (int i = 0; i < workers; i++) {
        pthread_t thread;
        epolls[i] = epoll_create1(0);
        if (pthread_create(&thread, NULL, echo_to_many, &epolls[i]) != 0) {
            fail("pthread_create");
        }
    }
    for (unsigned next = 0;; next++) {
        int stream = accept4(listener, NULL, NULL, SOCK_NONBLOCK);
        struct connection *one = calloc(1, sizeof *one);
        if (stream < 0) {
            fail("accept");
        }
        send_at_once(stream);
        one->stream = stream;
        watch(epolls[next % workers], stream, one);
    }
}

struct crowd {
    pthread_t thread;
    struct connection *clients;
    int count;
    uint64_t until, sent, answered;
    uint32_t *waits; /* how many replies took so many microseconds */
};

static struct connection dialled_from(int number) {
    struct sockaddr_in to = address(), from = {.sin_family = AF_INET};
    int stream = socket(AF_INET, SOCK_STREAM, 0), yes = 1;
    int group = number / CLIENTS_OF_AN_ADDRESS;
    from.sin_addr.s_addr = htonl(0x7fc80001 + group);
    setsockopt(stream, IPPROTO_IP, IP_BIND_ADDRESS_NO_PORT, &yes, sizeof yes);
    if (stream < 0 || bind(stream, (struct sockaddr *)&from, sizeof from) != 0 ||
        connect(stream, (struct sockaddr *)&to, sizeof to) != 0) {
        fail("connect");
    }
    send_at_once(stream);
    fcntl(stream, F_SETFL, O_NONBLOCK);
    return (struct connection){.stream = stream};
}

/* Whether the client's next request was sent; after the time is up, none is. */
static int asks(struct crowd *crowd, struct connection *one) {
    one->have = 0;
    one->sent = now();
    if (one->sent >= crowd->until || !deliver(one->stream, request, request_size)) {
        one->sent = 0;
        return 0;
    }
    crowd->sent++;
    return 1;
}

/* Whether the client still waits for a reply. */
static int goes_on(struct crowd *crowd, struct connection *one) {
    uint8_t bytes[MOST_BYTES];
    int is_over;
    size_t had = one->have;
    if (!is_whole(one, reply_size, bytes, &is_over)) {
        return !is_over && memcmp(bytes + had, reply + had, one->have - had) == 0;
    }
    if (memcmp(bytes + had, reply + had, reply_size - had) != 0) {
        return 0;
    }
    uint64_t wait = (now() - one->sent) / 1000;
    crowd->waits[wait < MOST_MICROSECONDS ? wait : MOST_MICROSECONDS - 1]++;
    crowd->answered++;
    return asks(crowd, one);
}

static void *run_crowd(void *argument) {
    struct crowd *crowd = argument;
    int epoll = epoll_create1(0), waiting = 0;
    for (int i = 0; i < crowd->count; i++) {
        watch(epoll, crowd->clients[i].stream, &crowd->clients[i]);
        waiting += asks(crowd, &crowd->clients[i]);
    }
    while (waiting > 0) {
        struct epoll_event events[MOST_EVENTS];
        int count = epoll_wait(epoll, events, MOST_EVENTS, 10000);
        if (count <= 0) {
            break;
        }
        for (int i = 0; i < count; i++) {
            struct connection *one = events[i].data.ptr;
            if (!goes_on(crowd, one)) {
                waiting--;
                epoll_ctl(epoll, EPOLL_CTL_DEL, one->stream, NULL);
            }
        }
    }
    return NULL;
}

static uint64_t slowest_hundredth(const uint32_t *waits, uint64_t answered) {
    uint64_t above = answered / 100, wait = MOST_MICROSECONDS;
    for (uint64_t seen = 0; wait > 0 && seen <= above;) {
        seen += waits[--wait];
    }
    return wait;
}

static void load_many(int clients, double seconds) {
    struct crowd all[CLIENT_THREADS] = {0};
    struct connection *connections = calloc(clients, sizeof *connections);
    uint32_t *waits = calloc(CLIENT_THREADS * MOST_MICROSECONDS, sizeof *waits);
    allow_descriptors();
    for (int i = 0; i < clients; i++) {
        connections[i] = dialled_from(i);
    }
    uint64_t begun = now(), sent = 0, answered = 0;
    for (int i = 0; i < CLIENT_THREADS; i++) {
        int first = clients * i / CLIENT_THREADS;
        all[i].clients = connections + first;
        all[i].count = clients * (i + 1) / CLIENT_THREADS - first;
        all[i].until = begun + (uint64_t)(seconds * 1e9);
        all[i].waits = waits + i * MOST_MICROSECONDS;
        if (pthread_create(&all[i].thread, NULL, run_crowd, &all[i]) != 0) {
            fail("pthread_create");
        }
    }
    for (int i = 0; i < CLIENT_THREADS; i++) {
        pthread_join(all[i].thread, NULL);
        sent += all[i].sent;
        answered += all[i].answered;
        for (int j = 0; i > 0 && j < MOST_MICROSECONDS; j++) {
            waits[j] += all[i].waits[j];
        }
    }
    double taken = (now() - begun) / 1e9;
    double slowest = slowest_hundredth(waits, answered);
    printf("%ju %.6f %.1f %ju\n", (uintmax_t)answered, taken, slowest, (uintmax_t)sent);
}

int main(int count, char **words) {
    const char *mode = count > 1 ? words[1] : "";
    int is_echo = strcmp(mode, "echo") == 0, is_echo_many = strcmp(mode, "echo-many") == 0;
    int is_many = strcmp(mode, "many") == 0, is_each = strcmp(mode, "each") == 0;
    is_single = strcmp(mode, "single") == 0;
    if (count != (is_echo || is_echo_many ? 6 : 7) ||
        !(is_echo || is_echo_many || is_many || is_each || is_single)) {
        fprintf(stderr, "serve_load: see the head of serve_load.c\n");
        return 2;
    }
    port = atoi(words[2]);
    request_size = read_hex(words[count - 2], request);
    reply_size = read_hex(words[count - 1], reply);
    if (is_echo) {
        echo(atoi(words[3]));
    } else if (is_echo_many) {
        echo_many(atoi(words[3]));
    } else if (is_many) {
        load_many(atoi(words[3]), atof(words[4]));
    } else {
        load(atoi(words[3]), strtoul(words[4], NULL, 10));
    }
    return 0;
}
