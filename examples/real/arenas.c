// A store that is saved while it changes: `fill` puts records into one arena and their log into
// another. Three children save both, and meanwhile `update` changes records, and `append` the log.
#include <stddef.h>
#include <sys/mman.h>
#include <sys/wait.h>
#include <unistd.h>

enum { PAGE = 4096, RECORDS = 48, LOG = 16, SAVES = 3 };

static volatile char *records, *journal;
static int logged;

static char *arena(size_t pages) {
  return mmap(0, pages * PAGE, PROT_READ | PROT_WRITE, MAP_PRIVATE | MAP_ANONYMOUS, -1, 0);
}

static void append(int record) { journal[logged++ * PAGE] = (char)record; }

static void fill(void) {
  for (int at = 0; at < RECORDS; at++)
    records[at * PAGE] = 1;
  append(0);
}

static void update(int first, int count) {
  for (int at = first; at < first + count; at++)
    records[at * PAGE] = 2;
  append(first);
}

static void save(void) {
  for (int at = 0; at < RECORDS; at++)
    (void)records[at * PAGE];
  usleep(50000);
  _exit(0);
}

int main(void) {
  records = arena(RECORDS);
  journal = arena(LOG);
  fill();
  for (int at = 0; at < SAVES; at++) {
    if (fork() == 0)
      save();
    update(at * 8, 8 + at);
    append(at);
    wait(0);
  }
  return 0;
}
