// In front of the C library: refuses the request for memory, or the start of a thread, of the number in REFUSED, and
// writes to the file DONE what it has refused: `start`, or the thread that asked for memory, `first` or `other`.
// A start is refused by a limit under which the library's own call fails, as on a machine without memory for the
// thread's stack. It asks for a stack larger than any that an ended thread may have left, which would need no memory.
// (The declarations of the C library on x86-64 are here, so that no headers are needed.)

typedef unsigned long size_t;
typedef struct { unsigned long now, most; } Limit;

void *dlsym(void *handle, const char *name);
char *getenv(const char *name);
long atol(const char *text);
int open(const char *name, int flags, ...);
int close(int file);
long write(int file, const void *bytes, size_t length);
int getpid(void);
int gettid(void);
int pthread_attr_init(void *attributes);
int pthread_attr_setstacksize(void *attributes, size_t size);
int getrlimit(int which, Limit *limit);
int setrlimit(int which, const Limit *limit);
int *__errno_location(void);

#define NEXT ((void *)-1L)
#define NO_MEMORY 12
#define CREATE_AND_WRITE 0101
#define ADDRESS_SPACE 9
#define LARGE_STACK (1ul << 30)

static long seen;

static int refused(const char *what) {
  const char *number = getenv("REFUSED");
  if (!number || __atomic_add_fetch(&seen, 1, __ATOMIC_SEQ_CST) != atol(number)) return 0;
  const char *name = getenv("DONE");
  if (name) {
    int file = open(name, CREATE_AND_WRITE, 0600);
    write(file, what, 5);
    close(file);
  }
  *__errno_location() = NO_MEMORY;
  return 1;
}

static int refused_memory(void) {
  return refused(gettid() == getpid() ? "first" : "other");
}

void *malloc(size_t size) {
  static void *(*next)(size_t);
  if (!next) next = (void *(*)(size_t))dlsym(NEXT, "malloc");
  return refused_memory() ? (void *)0 : next(size);
}

void *calloc(size_t number, size_t size) {
  static void *(*next)(size_t, size_t);
  static int asks;
  static char room[4096];
  // (some libraries look a name up with memory from here)
  if (!next && asks) return room;
  if (!next) {
    asks = 1;
    next = (void *(*)(size_t, size_t))dlsym(NEXT, "calloc");
  }
  return refused_memory() ? (void *)0 : next(number, size);
}

void *realloc(void *old, size_t size) {
  static void *(*next)(void *, size_t);
  if (!next) next = (void *(*)(void *, size_t))dlsym(NEXT, "realloc");
  return refused_memory() ? (void *)0 : next(old, size);
}

void *aligned_alloc(size_t alignment, size_t size) {
  static void *(*next)(size_t, size_t);
  if (!next) next = (void *(*)(size_t, size_t))dlsym(NEXT, "aligned_alloc");
  return refused_memory() ? (void *)0 : next(alignment, size);
}

int posix_memalign(void **made, size_t alignment, size_t size) {
  static int (*next)(void **, size_t, size_t);
  if (!next) next = (int (*)(void **, size_t, size_t))dlsym(NEXT, "posix_memalign");
  return refused_memory() ? NO_MEMORY : next(made, alignment, size);
}

int pthread_create(void *thread, const void *attributes, void *(*work)(void *), void *given) {
  static int (*next)(void *, const void *, void *(*)(void *), void *);
  if (!next) next = (int (*)(void *, const void *, void *(*)(void *), void *))dlsym(NEXT, "pthread_create");
  if (!refused("start")) return next(thread, attributes, work, given);
  // (larger than the library's own record)
  long large[16];
  pthread_attr_init(large);
  pthread_attr_setstacksize(large, LARGE_STACK);
  Limit before, none;
  getrlimit(ADDRESS_SPACE, &before);
  none.now = 4096;
  none.most = before.most;
  setrlimit(ADDRESS_SPACE, &none);
  int answer = next(thread, large, work, given);
  setrlimit(ADDRESS_SPACE, &before);
  return answer;
}
