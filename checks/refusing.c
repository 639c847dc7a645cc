// Refuses a program that preloads it one call: the Nth growth of memory for REFUSE=growth:N, which answers that there is none,
// or the Nth reading, writing or syncing for REFUSE=transfer:N, which fails with EIO; counted from 1. Only calls of the
// program's own code count, so none of the C library or of the loader. When the call comes, the file REFUSE_TOLD is made.
//
//   cc -O1 -fPIC -shared -o refusing.so refusing.c; REFUSE=growth:1 REFUSE_TOLD=told LD_PRELOAD=./refusing.so PROGRAM ..

#define _GNU_SOURCE
#include <errno.h>
#include <fcntl.h>
#include <link.h>
#include <stdatomic.h>
#include <stdint.h>
#include <stdio.h>
#include <stdlib.h>
#include <sys/syscall.h>
#include <sys/uio.h>
#include <unistd.h>

extern void *__libc_malloc(size_t);
extern void *__libc_calloc(size_t, size_t);
extern void *__libc_realloc(void *, size_t);

struct calls {
  atomic_long count;
  long refused; // the number of the one that is refused, 0 for none
};

static struct calls growths, transfers;
static uintptr_t first, last; // where the program's own code stands

static int find_program(struct dl_phdr_info *info, size_t size, void *unused) {
  for (int i = 0; i < info->dlpi_phnum; i++) {
    const ElfW(Phdr) *part = &info->dlpi_phdr[i];
    if (part->p_type == PT_LOAD && (part->p_flags & PF_X)) {
      first = info->dlpi_addr + part->p_vaddr;
      last = first + part->p_memsz;
    }
  }
  return 1; // the program is told first
}

__attribute__((constructor)) static void begin(void) {
  const char *wanted = getenv("REFUSE");
  if (wanted && sscanf(wanted, "growth:%ld", &growths.refused) != 1)
    sscanf(wanted, "transfer:%ld", &transfers.refused);
  dl_iterate_phdr(find_program, NULL);
}

static int is_refused(struct calls *calls, const void *caller) {
  if ((uintptr_t)caller < first || last <= (uintptr_t)caller)
    return 0;
  if (atomic_fetch_add(&calls->count, 1) + 1 != calls->refused)
    return 0;
  const char *told = getenv("REFUSE_TOLD");
  if (told)
    syscall(SYS_close, syscall(SYS_openat, AT_FDCWD, told, O_CREAT | O_WRONLY, 0600));
  return 1;
}

#define GROWTH(call) \
  if (is_refused(&growths, __builtin_return_address(0))) { errno = ENOMEM; return NULL; } \
  return call

#define TRANSFER(call) \
  if (is_refused(&transfers, __builtin_return_address(0))) { errno = EIO; return -1; } \
  return call

void *malloc(size_t size) { GROWTH(__libc_malloc(size)); }
void *calloc(size_t count, size_t size) { GROWTH(__libc_calloc(count, size)); }
void *realloc(void *block, size_t size) { GROWTH(__libc_realloc(block, size)); }

ssize_t read(int file, void *room, size_t size) { TRANSFER(syscall(SYS_read, file, room, size)); }
ssize_t pread(int file, void *room, size_t size, off_t at) { TRANSFER(syscall(SYS_pread64, file, room, size, at)); }
ssize_t write(int file, const void *bytes, size_t size) { TRANSFER(syscall(SYS_write, file, bytes, size)); }
ssize_t __write(int file, const void *bytes, size_t size) { TRANSFER(syscall(SYS_write, file, bytes, size)); }
ssize_t pwrite(int file, const void *bytes, size_t size, off_t at) { TRANSFER(syscall(SYS_pwrite64, file, bytes, size, at)); }
ssize_t writev(int file, const struct iovec *parts, int count) { TRANSFER(syscall(SYS_writev, file, parts, count)); }
int fsync(int file) { TRANSFER(syscall(SYS_fsync, file)); }
int fdatasync(int file) { TRANSFER(syscall(SYS_fdatasync, file)); }
int ftruncate(int file, off_t size) { TRANSFER(syscall(SYS_ftruncate, file, size)); }
