// Refuses a program that preloads it the calls of one kind, and tells it another time. What is refused stands in a page of
// memory that the file of CALLS_PAGE holds, so that whoever maps it too can change it while the program runs:
//
//   struct page { made, skip, left, refused, seconds, passed }   six numbers of 64 bits
//
// REFUSE_CALL names the kind, REFUSE_ERROR the number of the error. made counts the calls of this kind; of those that are made while
// left is not 0 the next skip pass, and so many as left says are refused behind them, all where left is below 0. refused counts these.
// seconds are added to the time of day (CLOCK_REALTIME), and passed to every clock, as where that much time went by.
//
// A kind is the name of a call, or NAME:WHAT where it is one with such a descriptor or of such an operation: connection (a stream with
// a peer), stream (one without), datagram, input, output, file; add, mod and del of epoll_ctl; lock, duplicate and flags of fcntl.
// Only calls of the program's own code come here, none of the C library's. A refused wait comes back behind the time that it may take where
// its error is EAGAIN, as the system's does.
//
//   cc -O1 -fPIC -shared -o refusing_calls.so refusing_calls.c

#define _GNU_SOURCE
#include <errno.h>
#include <fcntl.h>
#include <netinet/in.h>
#include <poll.h>
#include <pthread.h>
#include <stdarg.h>
#include <stdatomic.h>
#include <stdint.h>
#include <stdlib.h>
#include <string.h>
#include <dlfcn.h>
#include <sys/epoll.h>
#include <sys/file.h>
#include <sys/ioctl.h>
#include <sys/mman.h>
#include <sys/socket.h>
#include <sys/stat.h>
#include <sys/syscall.h>
#include <sys/time.h>
#include <sys/uio.h>
#include <time.h>
#include <unistd.h>

struct page {
  atomic_long made, skip, left, refused, seconds, passed;
};

static struct page none;
static struct page *page = &none;
static const char *wanted = "";
static int error_number;

__attribute__((constructor)) static void begin(void) {
  const char *name = getenv("CALLS_PAGE"), *call = getenv("REFUSE_CALL"), *error = getenv("REFUSE_ERROR");
  if (call)
    wanted = call;
  if (error)
    error_number = atoi(error);
  int file = name ? (int)syscall(SYS_openat, AT_FDCWD, name, O_RDWR | O_CLOEXEC) : -1;
  if (file < 0)
    return;
  void *found = mmap(NULL, sizeof(struct page), PROT_READ | PROT_WRITE, MAP_SHARED, file, 0);
  syscall(SYS_close, file);
  if (found != MAP_FAILED)
    page = found;
}

// What the descriptor is of, as a kind names it.
static const char *what_of(int file) {
  int type = 0;
  socklen_t size = sizeof type;
  if (syscall(SYS_getsockopt, file, SOL_SOCKET, SO_TYPE, &type, &size) == 0) {
    struct sockaddr_storage peer;
    socklen_t room = sizeof peer;
    if (type == SOCK_DGRAM)
      return "datagram";
    return syscall(SYS_getpeername, file, &peer, &room) == 0 ? "connection" : "stream";
  }
  return file == 0 ? "input" : file == 1 ? "output" : file == 2 ? "error" : "file";
}

// Whether the kind that is refused is the call of this name, with this operation or descriptor.
static int is_wanted(const char *name, const char *what, int file) {
  size_t length = strlen(name);
  if (strncmp(wanted, name, length) != 0)
    return 0;
  if (wanted[length] == 0)
    return 1;
  if (wanted[length] != ':')
    return 0;
  return strcmp(wanted + length + 1, what ? what : what_of(file)) == 0;
}

static int is_refused(const char *name, const char *what, int file) {
  int before = errno;
  int is_it = is_wanted(name, what, file);
  errno = before;
  if (!is_it)
    return 0;
  atomic_fetch_add(&page->made, 1);
  long left = atomic_load(&page->left);
  if (left == 0)
    return 0;
  if (atomic_load(&page->skip) > 0) {
    atomic_fetch_sub(&page->skip, 1);
    return 0;
  }
  if (left > 0)
    atomic_fetch_sub(&page->left, 1);
  atomic_fetch_add(&page->refused, 1);
  errno = error_number;
  return 1;
}

// Rests as a receive of nothing does that has a time to wait.
static void wait_for_nothing(int file) {
  struct timeval most = {0, 0};
  socklen_t size = sizeof most;
  if (error_number != EAGAIN)
    return;
  syscall(SYS_getsockopt, file, SOL_SOCKET, SO_RCVTIMEO, &most, &size);
  struct timespec rest = {most.tv_sec, most.tv_usec * 1000};
  syscall(SYS_nanosleep, &rest, NULL);
  errno = error_number;
}

#define REFUSE(name, what, file) \
  if (is_refused(name, what, file)) \
  return -1

int socket(int domain, int type, int protocol) {
  REFUSE("socket", (type & 0xf) == SOCK_DGRAM ? "datagram" : "stream", -1);
  return syscall(SYS_socket, domain, type, protocol);
}

int setsockopt(int file, int level, int name, const void *value, socklen_t size) {
  REFUSE("setsockopt", NULL, file);
  return syscall(SYS_setsockopt, file, level, name, value, size);
}

int bind(int file, const struct sockaddr *address, socklen_t size) {
  REFUSE("bind", NULL, file);
  return syscall(SYS_bind, file, address, size);
}

int listen(int file, int most) {
  REFUSE("listen", NULL, file);
  return syscall(SYS_listen, file, most);
}

int epoll_create1(int flags) {
  REFUSE("epoll_create1", NULL, -1);
  return syscall(SYS_epoll_create1, flags);
}

int epoll_ctl(int set, int operation, int file, struct epoll_event *event) {
  static const char *const operations[] = {"", "add", "del", "mod"};
  REFUSE("epoll_ctl", operations[operation & 3], file);
  return syscall(SYS_epoll_ctl, set, operation, file, event);
}

int epoll_wait(int set, struct epoll_event *events, int most, int wait) {
  REFUSE("epoll_wait", NULL, -1);
  return syscall(SYS_epoll_wait, set, events, most, wait);
}

int poll(struct pollfd *files, nfds_t count, int wait) {
  REFUSE("poll", NULL, -1);
  return syscall(SYS_poll, files, count, wait);
}

int accept4(int file, struct sockaddr *address, socklen_t *size, int flags) {
  REFUSE("accept4", NULL, -1);
  return syscall(SYS_accept4, file, address, size, flags);
}

ssize_t recvfrom(int file, void *room, size_t size, int flags, struct sockaddr *address, socklen_t *length) {
  if (is_refused("recvfrom", NULL, file)) {
    wait_for_nothing(file);
    return -1;
  }
  return syscall(SYS_recvfrom, file, room, size, flags, address, length);
}

ssize_t sendto(int file, const void *bytes, size_t size, int flags, const struct sockaddr *address, socklen_t length) {
  REFUSE("sendto", NULL, file);
  return syscall(SYS_sendto, file, bytes, size, flags, address, length);
}

// A read of a connection is one by read or by recv, and so with a write.

ssize_t read(int file, void *room, size_t size) {
  REFUSE("read", NULL, file);
  return syscall(SYS_read, file, room, size);
}

ssize_t recv(int file, void *room, size_t size, int flags) {
  REFUSE("read", NULL, file);
  return syscall(SYS_recvfrom, file, room, size, flags, NULL, NULL);
}

ssize_t write(int file, const void *bytes, size_t size) {
  REFUSE("write", NULL, file);
  return syscall(SYS_write, file, bytes, size);
}

ssize_t send(int file, const void *bytes, size_t size, int flags) {
  REFUSE("write", NULL, file);
  return syscall(SYS_sendto, file, bytes, size, flags, NULL, 0);
}

ssize_t writev(int file, const struct iovec *parts, int count) {
  REFUSE("write", NULL, file);
  return syscall(SYS_writev, file, parts, count);
}

ssize_t sendmsg(int file, const struct msghdr *message, int flags) {
  REFUSE("write", NULL, file);
  return syscall(SYS_sendmsg, file, message, flags);
}

int shutdown(int file, int how) {
  REFUSE("shutdown", NULL, file);
  return syscall(SYS_shutdown, file, how);
}

int getsockname(int file, struct sockaddr *address, socklen_t *size) {
  REFUSE("getsockname", NULL, file);
  return syscall(SYS_getsockname, file, address, size);
}

// A refused close has closed (close(2)).
int close(int file) {
  int refused = is_refused("close", NULL, file);
  int ended = syscall(SYS_close, file);
  if (!refused)
    return ended;
  errno = error_number;
  return -1;
}

int ioctl(int file, unsigned long request, ...) {
  va_list words;
  va_start(words, request);
  void *word = va_arg(words, void *);
  va_end(words);
  REFUSE("ioctl", NULL, file);
  return syscall(SYS_ioctl, file, request, word);
}

static int control(int file, int operation, void *word) {
  const char *what = operation == F_DUPFD_CLOEXEC || operation == F_DUPFD ? "duplicate" : operation == F_GETFL || operation == F_SETFL ? "flags" : "lock";
  REFUSE("fcntl", what, file);
  return syscall(SYS_fcntl, file, operation, word);
}

int fcntl(int file, int operation, ...) {
  va_list words;
  va_start(words, operation);
  void *word = va_arg(words, void *);
  va_end(words);
  return control(file, operation, word);
}

int fcntl64(int file, int operation, ...) {
  va_list words;
  va_start(words, operation);
  void *word = va_arg(words, void *);
  va_end(words);
  return control(file, operation, word);
}

// A thread's own call is clone3, which the C library makes.
int pthread_create(pthread_t *thread, const pthread_attr_t *given, void *(*run)(void *), void *argument) {
  static int (*create)(pthread_t *, const pthread_attr_t *, void *(*)(void *), void *);
  if (is_refused("pthread_create", NULL, -1))
    return error_number;
  if (!create)
    create = (int (*)(pthread_t *, const pthread_attr_t *, void *(*)(void *), void *))dlsym(RTLD_NEXT, "pthread_create");
  return create(thread, given, run, argument);
}

// Files.

int openat(int folder, const char *path, int flags, ...) {
  va_list words;
  va_start(words, flags);
  int mode = flags & (O_CREAT | O_TMPFILE) ? va_arg(words, int) : 0;
  va_end(words);
  REFUSE("openat", NULL, -1);
  return syscall(SYS_openat, folder, path, flags, mode);
}

int open(const char *path, int flags, ...) {
  va_list words;
  va_start(words, flags);
  int mode = flags & (O_CREAT | O_TMPFILE) ? va_arg(words, int) : 0;
  va_end(words);
  REFUSE("openat", NULL, -1);
  return syscall(SYS_openat, AT_FDCWD, path, flags, mode);
}

ssize_t pread(int file, void *room, size_t size, off_t at) {
  REFUSE("pread", NULL, file);
  return syscall(SYS_pread64, file, room, size, at);
}

ssize_t pwrite(int file, const void *bytes, size_t size, off_t at) {
  REFUSE("pwrite", NULL, file);
  return syscall(SYS_pwrite64, file, bytes, size, at);
}

off_t lseek(int file, off_t at, int from) {
  REFUSE("lseek", NULL, file);
  return syscall(SYS_lseek, file, at, from);
}

int fsync(int file) {
  REFUSE("fsync", NULL, file);
  return syscall(SYS_fsync, file);
}

int fdatasync(int file) {
  REFUSE("fdatasync", NULL, file);
  return syscall(SYS_fdatasync, file);
}

int ftruncate(int file, off_t size) {
  REFUSE("ftruncate", NULL, file);
  return syscall(SYS_ftruncate, file, size);
}

int flock(int file, int operation) {
  REFUSE("flock", NULL, file);
  return syscall(SYS_flock, file, operation);
}

int fchown(int file, uid_t owner, gid_t group) {
  REFUSE("fchown", NULL, file);
  return syscall(SYS_fchown, file, owner, group);
}

int fchmod(int file, mode_t mode) {
  REFUSE("fchmod", NULL, file);
  return syscall(SYS_fchmod, file, mode);
}

int unlink(const char *path) {
  REFUSE("unlink", NULL, -1);
  return syscall(SYS_unlink, path);
}

int statx(int folder, const char *restrict path, int flags, unsigned int mask, struct statx *restrict found) {
  REFUSE("statx", NULL, folder);
  return syscall(SYS_statx, folder, path, flags, mask, found);
}

// Clocks.

int clock_gettime(clockid_t clock, struct timespec *time) {
  static int (*get)(clockid_t, struct timespec *);
  REFUSE("clock_gettime", NULL, -1);
  if (!get)
    get = (int (*)(clockid_t, struct timespec *))dlsym(RTLD_NEXT, "clock_gettime");
  int told = get(clock, time);
  if (told != 0)
    return told;
  time->tv_sec += atomic_load(&page->passed);
  if (clock == CLOCK_REALTIME)
    time->tv_sec += atomic_load(&page->seconds);
  return 0;
}
