// A program in phases: it fills 60 pages, uses 12 of them for a while, then 24 others, and in the
// end all. It reads each page, and changes each third one then.
#include <sys/mman.h>

enum { PAGE = 4096, PAGES = 60 };

static volatile char *pages;

// Works for a while, without a page.
static void work(void) {
  for (volatile int step = 0; step < 2000000; step++)
    ;
}

static void use(int first, int past, int times) {
  for (; times > 0; times--)
    for (int page = first; page < past; page++) {
      char was = pages[page * PAGE];
      if (page % 3 == 0)
        pages[page * PAGE] = was + 1;
      work();
    }
}

int main(void) {
  int flags = MAP_PRIVATE | MAP_ANONYMOUS;
  pages = mmap(0, PAGES * PAGE, PROT_READ | PROT_WRITE, flags, -1, 0);
  if (pages == MAP_FAILED)
    return 1;
  for (int page = 0; page < PAGES; page++)
    pages[page * PAGE] = 1;
  use(0, 12, 8);
  use(30, 54, 4);
  use(0, PAGES, 2);
}
