/* A load for a server on loopback, and a bare echo to compare it with.
 *
 *   load udp PORT SECONDS WINDOW NAMES   queries over one connected socket, WINDOW of them under way
 *   load tcp PORT SECONDS WINDOW NAMES [EACH]   queries over a connection, written WINDOW at a time and all read before the next; a new
 *                                               connection behind each EACH of them, 100 where it does not stand, 0 for one connection
 *   load echo PORT                       gives each datagram back, and all bytes of each connection, one after the other, until
 *                                        standard input ends
 *
 * NAMES is a file with one name in text a line; their A records are asked for in turn. Prints the replies, the seconds and the datagrams
 * that were lost, in one line. */
#include <arpa/inet.h>
#include <errno.h>
#include <netinet/tcp.h>
#include <poll.h>
#include <stdio.h>
#include <stdlib.h>
#include <string.h>
#include <sys/socket.h>
#include <time.h>
#include <unistd.h>

enum { MOST = 65535, WAIT = 200 };

static void die(const char *what) {
    perror(what);
    exit(1);
}

static double now(void) {
    struct timespec t;
    clock_gettime(CLOCK_MONOTONIC, &t);
    return (double)t.tv_sec + (double)t.tv_nsec * 1e-9;
}

static struct sockaddr_in loopback(int port) {
    struct sockaddr_in at = {.sin_family = AF_INET, .sin_port = htons((unsigned short)port)};
    at.sin_addr.s_addr = htonl(INADDR_LOOPBACK);
    return at;
}

/* Queries, each behind two bytes for its length. */
static unsigned char *queries;
static size_t *places, count;

static void add_query(const char *name, size_t *used, size_t *room) {
    if (*used + 300 > *room && !(queries = realloc(queries, *room = *room * 2 + 4096))) die("memory");
    unsigned char *start = queries + *used, *at = start + 14;
    memcpy(start + 2, "\0\0\1\0\0\1\0\0\0\0\0\0", 12);
    while (*name) {
        size_t size = strcspn(name, ".");
        if (size == 0) break;
        *at++ = (unsigned char)size;
        memcpy(at, name, size);
        at += size;
        name += size + (name[size] == '.');
    }
    memcpy(at, "\0\0\1\0\1", 5);
    at += 5;
    size_t size = (size_t)(at - start) - 2;
    start[0] = (unsigned char)(size >> 8);
    start[1] = (unsigned char)size;
    places[count++] = *used;
    *used += size + 2;
}

static void read_names(const char *path) {
    FILE *file = fopen(path, "r");
    char line[300];
    size_t used = 0, room = 0, most = 0;
    if (!file) die(path);
    while (fgets(line, sizeof line, file)) {
        line[strcspn(line, "\r\n")] = 0;
        if (count == most && !(places = realloc(places, (most = most * 2 + 1024) * sizeof *places))) die("memory");
        add_query(line, &used, &room);
    }
    fclose(file);
    if (!count) die("no names");
}

static size_t size_of(size_t place) {
    return (size_t)queries[place] << 8 | queries[place + 1];
}

static void ask_datagrams(int port, double seconds, int window) {
    struct sockaddr_in at = loopback(port);
    int s = socket(AF_INET, SOCK_DGRAM, 0), size = 4 << 20;
    static unsigned char reply[MOST];
    setsockopt(s, SOL_SOCKET, SO_RCVBUF, &size, sizeof size);
    if (s < 0 || connect(s, (struct sockaddr *)&at, sizeof at)) die("connect");
    size_t next = 0, replies = 0, lost = 0;
    int away = 0;
    double begin = now(), end = begin + seconds;
    while (now() < end) {
        for (; away < window; away++) {
            size_t place = places[next++ % count];
            if (send(s, queries + place + 2, size_of(place), 0) < 0) die("send");
        }
        struct pollfd wait = {.fd = s, .events = POLLIN};
        if (poll(&wait, 1, WAIT) == 0) {
            lost += (size_t)away;
            away = 0;
            continue;
        }
        while (away && recv(s, reply, sizeof reply, MSG_DONTWAIT) >= 0) away--, replies++;
        if (errno == ECONNREFUSED) die("receive");
    }
    printf("%zu %f %zu\n", replies, now() - begin, lost);
}

static void write_all(int s, const unsigned char *bytes, size_t size) {
    while (size) {
        ssize_t took = write(s, bytes, size);
        if (took <= 0) die("write");
        bytes += took;
        size -= (size_t)took;
    }
}

static int connected(int port) {
    struct sockaddr_in at = loopback(port);
    int s = socket(AF_INET, SOCK_STREAM, 0), on = 1;
    if (s < 0 || connect(s, (struct sockaddr *)&at, sizeof at)) die("connect");
    setsockopt(s, IPPROTO_TCP, TCP_NODELAY, &on, sizeof on);
    return s;
}

/* A new connection is made behind each `each` queries; 0 for one connection. */
static void ask_stream(int port, double seconds, int window, int each) {
    static unsigned char read_[1 << 20];
    unsigned char *out = malloc((size_t)window * 300);
    size_t next = 0, replies = 0;
    int s = -1, left = 0, on = 1;
    double begin = now(), end = begin + seconds;
    while (now() < end) {
        if (s < 0 || (each && !left)) {
            if (s >= 0) close(s);
            s = connected(port);
            left = each;
        }
        size_t used = 0, have = 0, cut = 0;
        int some = each && left < window ? left : window;
        left -= each ? some : 0;
        for (int i = 0; i < some; i++) {
            size_t place = places[next++ % count], size = size_of(place) + 2;
            memcpy(out + used, queries + place, size);
            used += size;
        }
        write_all(s, out, used);
        for (int i = 0; i < some; ) {
            if (have - cut >= 2 && have - cut >= 2 + (size_t)(read_[cut] << 8 | read_[cut + 1])) {
                cut += 2 + (size_t)(read_[cut] << 8 | read_[cut + 1]);
                i++, replies++;
                continue;
            }
            memmove(read_, read_ + cut, have -= cut);
            cut = 0;
            ssize_t more = read(s, read_ + have, sizeof read_ - have);
            if (more <= 0) die("read");
            have += (size_t)more;
            /* What came is acknowledged at once: a server that writes each reply by itself may wait for it, which Linux delays by 40 ms. */
            setsockopt(s, IPPROTO_TCP, TCP_QUICKACK, &on, sizeof on);
        }
    }
    printf("%zu %f 0\n", replies, now() - begin);
}

static void echo(int port) {
    struct sockaddr_in at = loopback(port), from;
    int u = socket(AF_INET, SOCK_DGRAM, 0), l = socket(AF_INET, SOCK_STREAM, 0), on = 1;
    setsockopt(l, SOL_SOCKET, SO_REUSEADDR, &on, sizeof on);
    if (bind(u, (struct sockaddr *)&at, sizeof at) || bind(l, (struct sockaddr *)&at, sizeof at) || listen(l, 128)) die("bind");
    static unsigned char room[MOST];
    if (fork() == 0) {
        for (;;) {
            int s = accept(l, 0, 0);
            ssize_t size;
            setsockopt(s, IPPROTO_TCP, TCP_NODELAY, &on, sizeof on);
            while ((size = read(s, room, 4096)) > 0) write_all(s, room, (size_t)size);
            close(s);
        }
    }
    for (;;) {
        socklen_t length = sizeof from;
        ssize_t size = recvfrom(u, room, sizeof room, 0, (struct sockaddr *)&from, &length);
        if (size >= 0) sendto(u, room, (size_t)size, 0, (struct sockaddr *)&from, length);
    }
}

int main(int many, char **words) {
    if (many == 3 && !strcmp(words[1], "echo")) echo(atoi(words[2]));
    if (many != 6 && many != 7) {
        fprintf(stderr, "load udp|tcp PORT SECONDS WINDOW NAMES [EACH], or load echo PORT\n");
        return 1;
    }
    read_names(words[5]);
    if (!strcmp(words[1], "udp")) ask_datagrams(atoi(words[2]), atof(words[3]), atoi(words[4]));
    else ask_stream(atoi(words[2]), atof(words[3]), atoi(words[4]), many == 7 ? atoi(words[6]) : 100);
    return 0;
}
