/* Many connections to a server on loopback by one thread, and a bare echo over epoll to compare it with.
 *
 *   crowd load PORT SECONDS CONNECTIONS WINDOW EACH NAMES   so many connections at once, over each WINDOW queries under way: as many as were
 *                                        answered by one read are written together. Behind each EACH queries a connection is closed and
 *                                        another one made; 0 for none. NAMES is a file with one name in text a line; their A records are
 *                                        asked for in turn. Prints the replies, the seconds and the connections in one line.
 *   crowd idle PORT CONNECTIONS          so many connections that send nothing, until standard input ends; prints a line once they stand
 *   crowd echo PORT                      gives all bytes of each connection back, until standard input ends
 *
 * Whatever fails ends it with status 1. */
#define _GNU_SOURCE
#include <arpa/inet.h>
#include <errno.h>
#include <netinet/tcp.h>
#include <stdio.h>
#include <stdlib.h>
#include <string.h>
#include <sys/epoll.h>
#include <sys/resource.h>
#include <sys/socket.h>
#include <time.h>
#include <unistd.h>

enum { MOST = 65536, EVENTS = 256, SOURCES = 200 };

static unsigned char room[MOST];
static int set;

static void die(const char *what) {
    perror(what);
    exit(1);
}

static double now(void) {
    struct timespec t;
    clock_gettime(CLOCK_MONOTONIC, &t);
    return (double)t.tv_sec + (double)t.tv_nsec * 1e-9;
}

static void have_descriptors(void) {
    struct rlimit most;
    if (getrlimit(RLIMIT_NOFILE, &most)) die("getrlimit");
    most.rlim_cur = most.rlim_max;
    if (setrlimit(RLIMIT_NOFILE, &most)) die("setrlimit");
}

static void watch(int operation, int descriptor, unsigned events, void *link) {
    struct epoll_event event = {.events = events, .data.ptr = link};
    if (epoll_ctl(set, operation, descriptor, &event)) die("epoll_ctl");
}

/* Queries, each behind two bytes for its length. */
static unsigned char (*queries)[300];
static size_t *sizes, count, next;

static void read_names(const char *path) {
    FILE *file = fopen(path, "r");
    char line[256];
    size_t most = 0;
    if (!file) die(path);
    while (fgets(line, sizeof line, file)) {
        line[strcspn(line, "\r\n")] = 0;
        if (count == most) {
            most = most * 2 + 1024;
            if (!(queries = realloc(queries, most * sizeof *queries)) || !(sizes = realloc(sizes, most * sizeof *sizes))) die("memory");
        }
        unsigned char *start = queries[count], *at = start + 14;
        memcpy(start + 2, "\0\0\0\0\0\1\0\0\0\0\0\0", 12);
        start[2] = (unsigned char)(count >> 8);
        start[3] = (unsigned char)count;
        for (const char *name = line; *name;) {
            size_t size = strcspn(name, ".");
            *at++ = (unsigned char)size;
            memcpy(at, name, size);
            at += size;
            name += size + (name[size] == '.');
        }
        memcpy(at, "\0\0\1\0\1", 5);
        size_t size = (size_t)(at + 5 - start) - 2;
        start[0] = (unsigned char)(size >> 8);
        start[1] = (unsigned char)size;
        sizes[count++] = size + 2;
    }
    fclose(file);
    if (!count) die("no names");
}

/* The load. */

struct asker {
    int descriptor;
    size_t sent, got, left; /* bytes that are left of the reply that is being read */
    unsigned char head[2];
    int heads; /* bytes of its length that were read */
};

static size_t replies, made, each, window;
static int port;

/* Connects from one of many addresses of loopback, since each has a bounded number of ports. */
static int connected(size_t place, int flags) {
    struct sockaddr_in to = {.sin_family = AF_INET, .sin_port = htons((unsigned short)port)};
    struct sockaddr_in from = {.sin_family = AF_INET};
    int s = socket(AF_INET, SOCK_STREAM | flags, 0), on = 1;
    to.sin_addr.s_addr = htonl(INADDR_LOOPBACK);
    from.sin_addr.s_addr = htonl(INADDR_LOOPBACK + 1 + (unsigned)(place % SOURCES));
    if (s < 0) die("socket");
    setsockopt(s, IPPROTO_IP, IP_BIND_ADDRESS_NO_PORT, &on, sizeof on);
    setsockopt(s, IPPROTO_TCP, TCP_NODELAY, &on, sizeof on);
    if (bind(s, (struct sockaddr *)&from, sizeof from)) die("bind");
    if (connect(s, (struct sockaddr *)&to, sizeof to) && errno != EINPROGRESS) die("connect");
    return s;
}

static void begin(struct asker *asker) {
    *asker = (struct asker){.descriptor = connected(made++, SOCK_NONBLOCK)};
    watch(EPOLL_CTL_ADD, asker->descriptor, EPOLLOUT, asker);
}

static void ask(struct asker *asker, size_t more) {
    size_t used = 0;
    if (each && asker->sent + more > each) more = each - asker->sent;
    for (size_t i = 0; i < more; i++, next++) {
        memcpy(room + used, queries[next % count], sizes[next % count]);
        used += sizes[next % count];
    }
    asker->sent += more;
    if (used && send(asker->descriptor, room, used, MSG_NOSIGNAL) != (ssize_t)used) die("send");
}

/* How many replies end in these bytes. */
static size_t ended(struct asker *asker, const unsigned char *bytes, size_t size) {
    size_t done = 0;
    while (size) {
        if (asker->heads < 2) {
            asker->head[asker->heads++] = *bytes++;
            size--;
            if (asker->heads == 2) asker->left = (size_t)asker->head[0] << 8 | asker->head[1];
            continue;
        }
        size_t some = size < asker->left ? size : asker->left;
        asker->left -= some;
        bytes += some;
        size -= some;
        if (!asker->left) {
            asker->heads = 0;
            done++;
        }
    }
    return done;
}

static void go_on(struct asker *asker, unsigned events) {
    if (events & EPOLLOUT) {
        watch(EPOLL_CTL_MOD, asker->descriptor, EPOLLIN, asker);
        ask(asker, window);
        return;
    }
    ssize_t size = recv(asker->descriptor, room, sizeof room, 0);
    if (size <= 0) die("receive");
    size_t done = ended(asker, room, (size_t)size);
    replies += done;
    asker->got += done;
    if (each && asker->got == each) {
        close(asker->descriptor);
        begin(asker);
    } else if (done) {
        ask(asker, done);
    }
}

static void load(double seconds, size_t connections) {
    struct asker *askers = calloc(connections, sizeof *askers);
    struct epoll_event events[EVENTS];
    if (!askers) die("memory");
    double start = now(), end = start + seconds;
    for (size_t i = 0; i < connections; i++) begin(askers + i);
    while (now() < end) {
        int ready = epoll_wait(set, events, EVENTS, 100);
        for (int i = 0; i < ready; i++) go_on(events[i].data.ptr, events[i].events);
    }
    printf("%zu %f %zu\n", replies, now() - start, made);
}

static void idle(size_t connections) {
    char byte;
    for (size_t i = 0; i < connections; i++) connected(i, 0);
    printf("%zu\n", connections);
    fflush(stdout);
    while (read(0, &byte, 1) > 0) continue;
}

/* The echo. */

struct link {
    int descriptor;
    unsigned char *unsent;
    size_t size;
};

static void end_link(struct link *link) {
    close(link->descriptor);
    free(link->unsent);
    free(link);
}

static void accept_all(int listener) {
    int on = 1, s;
    while ((s = accept4(listener, 0, 0, SOCK_NONBLOCK)) >= 0) {
        struct link *link = calloc(1, sizeof *link);
        if (!link) die("memory");
        link->descriptor = s;
        setsockopt(s, IPPROTO_TCP, TCP_NODELAY, &on, sizeof on);
        watch(EPOLL_CTL_ADD, s, EPOLLIN, link);
    }
}

/* What the peer does not take at once is kept, and nothing more is read until it is gone. */
static void give_back(struct link *link, const unsigned char *bytes, size_t size) {
    ssize_t took = send(link->descriptor, bytes, size, MSG_NOSIGNAL);
    if (took < 0 && errno != EAGAIN) {
        end_link(link);
        return;
    }
    size_t taken = took < 0 ? 0 : (size_t)took;
    if (taken == size) {
        if (link->unsent) watch(EPOLL_CTL_MOD, link->descriptor, EPOLLIN, link);
        free(link->unsent);
        link->unsent = 0;
        return;
    }
    unsigned char *left = malloc(size - taken);
    if (!left) die("memory");
    memcpy(left, bytes + taken, link->size = size - taken);
    if (!link->unsent) watch(EPOLL_CTL_MOD, link->descriptor, EPOLLOUT, link);
    free(link->unsent);
    link->unsent = left;
}

static void echo(void) {
    struct sockaddr_in at = {.sin_family = AF_INET, .sin_port = htons((unsigned short)port)};
    struct epoll_event events[EVENTS];
    int listener = socket(AF_INET, SOCK_STREAM | SOCK_NONBLOCK, 0), on = 1;
    at.sin_addr.s_addr = htonl(INADDR_LOOPBACK);
    setsockopt(listener, SOL_SOCKET, SO_REUSEADDR, &on, sizeof on);
    if (bind(listener, (struct sockaddr *)&at, sizeof at) || listen(listener, 4096)) die("bind");
    watch(EPOLL_CTL_ADD, listener, EPOLLIN, &listener);
    watch(EPOLL_CTL_ADD, 0, EPOLLIN, 0);
    for (;;) {
        int ready = epoll_wait(set, events, EVENTS, -1);
        for (int i = 0; i < ready; i++) {
            struct link *link = events[i].data.ptr;
            if (!link) return;
            if ((void *)link == &listener) {
                accept_all(listener);
            } else if (link->unsent) {
                give_back(link, link->unsent, link->size);
            } else {
                ssize_t size = recv(link->descriptor, room, sizeof room, 0);
                if (size > 0) give_back(link, room, (size_t)size);
                else if (size == 0 || errno != EAGAIN) end_link(link);
            }
        }
    }
}

int main(int many, char **words) {
    have_descriptors();
    set = epoll_create1(0);
    if (set < 0) die("epoll_create1");
    port = many > 2 ? atoi(words[2]) : 0;
    if (many == 3 && !strcmp(words[1], "echo")) {
        echo();
        return 0;
    }
    if (many == 4 && !strcmp(words[1], "idle")) {
        idle((size_t)atol(words[3]));
        return 0;
    }
    if (many != 8 || strcmp(words[1], "load")) {
        fprintf(stderr, "crowd load PORT SECONDS CONNECTIONS WINDOW EACH NAMES, crowd idle PORT CONNECTIONS, or crowd echo PORT\n");
        return 1;
    }
    window = (size_t)atol(words[5]);
    each = (size_t)atol(words[6]);
    read_names(words[7]);
    load(atof(words[3]), (size_t)atol(words[4]));
    return 0;
}
