/* The clients and the peer of bench/serve, which compiles this file.
 *
 * load client PORT CONNECTIONS REQUESTS FILE [SERVICE]
 *   Sends the bytes of FILE so often, over so many connections to 127.0.0.1, each of which waits for an answer before it sends
 *   again. Prints the seconds that it took, the answers of status 200 that end with the bytes FULFILL, and the microseconds
 *   within which half and 99 % of the answers came. With SERVICE, the process that listens, each client is put on one core with
 *   the thread that answers it, which is found by two requests more.
 * load peer PORT
 *   Listens on 127.0.0.1, and answers each request with a Fulfill, then closes the connection. Runs until it is ended.
 *
 * Exit status: 0; 1 (a call of the system failed); 2 (the command line).
 */
#define _GNU_SOURCE
#include <arpa/inet.h>
#include <dirent.h>
#include <netinet/tcp.h>
#include <pthread.h>
#include <sched.h>
#include <stdatomic.h>
#include <stdint.h>
#include <stdio.h>
#include <stdlib.h>
#include <string.h>
#include <sys/socket.h>
#include <time.h>
#include <unistd.h>

enum { ROOM = 131072, PEERS = 16, THREADS = 4096, TRIALS = 2 };

/* A Fulfill of RFC 0027: type 13, and 32 zero bytes as the fulfillment of the SHA-256 of 32 zero bytes, without data. */
static unsigned char fulfill[35] = {0x0d, 0x21};

static int port, connections, requests, service;
static unsigned char *request;
static size_t request_size;
static atomic_int next_ticket, good;
static uint64_t *waits;
static pthread_barrier_t start;
static _Atomic uint64_t begun = UINT64_MAX;
static pthread_mutex_t alone = PTHREAD_MUTEX_INITIALIZER;

static void die(const char *what) {
    perror(what);
    exit(1);
}

static uint64_t now(void) {
    struct timespec at;
    clock_gettime(CLOCK_MONOTONIC, &at);
    return (uint64_t)at.tv_sec * 1000000000u + (uint64_t)at.tv_nsec;
}

static struct sockaddr_in address(void) {
    struct sockaddr_in at = {.sin_family = AF_INET, .sin_port = htons((uint16_t)port)};
    at.sin_addr.s_addr = htonl(INADDR_LOOPBACK);
    return at;
}

static int connected(void) {
    struct sockaddr_in at = address();
    int yes = 1, fd = socket(AF_INET, SOCK_STREAM, 0);
    if (fd < 0 || connect(fd, (struct sockaddr *)&at, sizeof at) < 0) die("connect");
    setsockopt(fd, IPPROTO_TCP, TCP_NODELAY, &yes, sizeof yes);
    return fd;
}

static void send_all(int fd, const unsigned char *bytes, size_t size) {
    while (size > 0) {
        ssize_t n = send(fd, bytes, size, MSG_NOSIGNAL);
        if (n <= 0) return;
        bytes += n;
        size -= (size_t)n;
    }
}

/* Reads a message with a Content-Length, and gives its size, or 0 if it does not come whole. */
static size_t read_message(int fd, unsigned char *room) {
    size_t have = 0, whole = 0;
    for (;;) {
        ssize_t n = recv(fd, room + have, ROOM - 1 - have, 0);
        if (n <= 0) return 0;
        have += (size_t)n;
        room[have] = 0;
        if (whole == 0) {
            char *end = memmem(room, have, "\r\n\r\n", 4);
            if (end == NULL) continue;
            char *length = strcasestr((char *)room, "\r\nContent-Length:");
            size_t body = length != NULL && length < end ? strtoul(length + 17, NULL, 10) : 0;
            whole = (size_t)((unsigned char *)end - room) + 4 + body;
            if (whole >= ROOM) return 0;
        }
        if (have >= whole) return whole;
    }
}

static int is_good(const unsigned char *answer, size_t size) {
    return size > 12 && memcmp(answer, "HTTP/1.1 200", 12) == 0 && memmem(answer, size, "\r\n\r\n\x0d", 5) != NULL;
}

struct thread {
    int id;
    uint64_t ran;
};

/* For how many nanoseconds a thread of the service has run. */
static uint64_t ran(int thread) {
    char path[64];
    unsigned long long time = 0;
    snprintf(path, sizeof path, "/proc/%d/task/%d/schedstat", service, thread);
    FILE *from = fopen(path, "r");
    if (from == NULL) return 0;
    if (fscanf(from, "%llu", &time) != 1) time = 0;
    fclose(from);
    return time;
}

static int threads_of_service(struct thread *threads) {
    char path[32];
    int count = 0;
    snprintf(path, sizeof path, "/proc/%d/task", service);
    DIR *from = opendir(path);
    if (from == NULL) die(path);
    for (struct dirent *entry; (entry = readdir(from)) != NULL && count < THREADS;) {
        int id = atoi(entry->d_name);
        if (id > 0) threads[count++] = (struct thread){id, ran(id)};
    }
    closedir(from);
    return count;
}

static void put_on(int thread, int core) {
    cpu_set_t cores;
    CPU_ZERO(&cores);
    CPU_SET(core, &cores);
    if (sched_setaffinity(thread, sizeof cores, &cores) != 0) die("sched_setaffinity");
}

/* Puts the caller and the thread that answers on its connection on one core. Nobody else sends meanwhile. */
static void share_core(int core, int fd, unsigned char *room) {
    static struct thread threads[THREADS];
    pthread_mutex_lock(&alone);
    int count = threads_of_service(threads), most = 0;
    for (int i = 0; i < TRIALS; i++) {
        send_all(fd, request, request_size);
        read_message(fd, room);
    }
    for (int i = 0; i < count; i++) {
        uint64_t by_now = ran(threads[i].id);
        threads[i].ran = by_now > threads[i].ran ? by_now - threads[i].ran : 0;
        if (threads[i].ran > threads[most].ran) most = i;
    }
    put_on(0, core);
    put_on(threads[most].id, core);
    pthread_mutex_unlock(&alone);
}

/* Notes when the first client began. */
static void begin(void) {
    uint64_t moment = now(), first = begun;
    while (moment < first && !atomic_compare_exchange_weak(&begun, &first, moment)) {
    }
}

static void *client(void *number) {
    unsigned char *room = malloc(ROOM);
    int fd = connected();
    if (service != 0) share_core((int)((intptr_t)number % sysconf(_SC_NPROCESSORS_ONLN)), fd, room);
    pthread_barrier_wait(&start);
    begin();
    for (;;) {
        int ticket = atomic_fetch_add(&next_ticket, 1);
        if (ticket >= requests) break;
        uint64_t sent = now();
        send_all(fd, request, request_size);
        size_t size = read_message(fd, room);
        waits[ticket] = now() - sent;
        if (is_good(room, size)) atomic_fetch_add(&good, 1);
        if (size == 0 || memmem(room, size, "Connection: close", 17) != NULL) {
            close(fd);
            fd = connected();
        }
    }
    close(fd);
    free(room);
    return NULL;
}

static int by_size(const void *one, const void *other) {
    uint64_t a = *(const uint64_t *)one, b = *(const uint64_t *)other;
    return a < b ? -1 : a > b;
}

static void run_clients(const char *file) {
    FILE *from = fopen(file, "rb");
    if (from == NULL) die(file);
    request = malloc(ROOM);
    request_size = fread(request, 1, ROOM, from);
    fclose(from);
    waits = calloc((size_t)requests, sizeof *waits);
    pthread_t threads[connections];
    pthread_barrier_init(&start, NULL, (unsigned)connections);
    for (intptr_t i = 0; i < connections; i++)
        if (pthread_create(&threads[i], NULL, client, (void *)i) != 0) die("thread");
    for (int i = 0; i < connections; i++) pthread_join(threads[i], NULL);
    double seconds = (double)(now() - begun) / 1e9;
    qsort(waits, (size_t)requests, sizeof *waits, by_size);
    printf("%.6f %d %.1f %.1f\n", seconds, good, (double)waits[requests / 2] / 1e3, (double)waits[requests * 99L / 100] / 1e3);
}

static void *peer(void *listener) {
    unsigned char *room = malloc(ROOM), answer[256];
    int head = snprintf((char *)answer, sizeof answer,
                        "HTTP/1.1 200 OK\r\nContent-Type: application/octet-stream\r\nContent-Length: %zu\r\n\r\n", sizeof fulfill);
    memcpy(answer + head, fulfill, sizeof fulfill);
    for (;;) {
        int fd = accept(*(int *)listener, NULL, NULL);
        if (fd < 0) continue;
        if (read_message(fd, room) > 0) send_all(fd, answer, (size_t)head + sizeof fulfill);
        close(fd);
    }
    return NULL;
}

static void run_peer(void) {
    struct sockaddr_in at = address();
    int yes = 1, listener = socket(AF_INET, SOCK_STREAM, 0);
    setsockopt(listener, SOL_SOCKET, SO_REUSEADDR, &yes, sizeof yes);
    if (bind(listener, (struct sockaddr *)&at, sizeof at) < 0 || listen(listener, 4096) < 0) die("listen");
    pthread_t thread;
    for (int i = 1; i < PEERS; i++)
        if (pthread_create(&thread, NULL, peer, &listener) != 0) die("thread");
    peer(&listener);
}

int main(int count, char **words) {
    if ((count == 6 || count == 7) && strcmp(words[1], "client") == 0) {
        port = atoi(words[2]);
        connections = atoi(words[3]);
        requests = atoi(words[4]);
        service = count == 7 ? atoi(words[6]) : 0;
        if (connections < 1 || requests < 1) return 2;
        run_clients(words[5]);
        return 0;
    }
    if (count == 3 && strcmp(words[1], "peer") == 0) {
        port = atoi(words[2]);
        run_peer();
    }
    return 2;
}
