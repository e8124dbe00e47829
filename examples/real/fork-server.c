// A server that forks: it fills 64 pages, and each of its three children writes to five of them
// while the others live. When they have ended the server writes to all 64, and prints what it has
// mapped then.
#include <fcntl.h>
#include <sys/mman.h>
#include <sys/wait.h>
#include <unistd.h>

enum { PAGE = 4096, PAGES = 64, CHILDREN = 3, WRITES = 5 };

static void serve(char *cache, int child) {
  for (int page = child; page < child + WRITES; page++)
    cache[page * PAGE] = 2;
  usleep(100000);
  _exit(0);
}

static void print_maps(void) {
  static char text[4 * PAGE];
  int maps = open("/proc/self/maps", O_RDONLY);
  for (ssize_t size; (size = read(maps, text, sizeof text)) > 0;)
    if (write(1, text, size) != size)
      _exit(1);
}

int main(void) {
  int flags = MAP_PRIVATE | MAP_ANONYMOUS;
  char *cache = mmap(0, PAGES * PAGE, PROT_READ | PROT_WRITE, flags, -1, 0);
  if (cache == MAP_FAILED)
    return 1;
  for (int page = 0; page < PAGES; page++)
    cache[page * PAGE] = 1;
  for (int child = 0; child < CHILDREN; child++)
    if (fork() == 0)
      serve(cache, child);
  while (wait(0) > 0)
    ;
  for (int page = 0; page < PAGES; page++)
    cache[page * PAGE] = 3;
  print_maps();
  return 0;
}
