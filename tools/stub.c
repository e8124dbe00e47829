/* A process of tools/on-linux. It makes its own system calls, loads and stores, as it is asked on
   descriptor 0, and ends when nobody asks any more: when the driver ends, however that is.

   It has no libc, so that nothing but what it is asked for maps memory, and is linked above all
   addresses that a trace can name (tools/stubs.py). */
#define _GNU_SOURCE
#include <asm/unistd.h>
#include <signal.h>
#include <sys/socket.h>
#include <ucontext.h>

typedef unsigned long word;

enum { CALL, FORK, READ, WRITE, READ_WITH_KEYS };
enum { BYTES = 4096, HEAD = 16, RESTORER = 0x04000000 };

static struct {
    word what, of[7];
    char bytes[BYTES];
} asked;
static struct {
    word result, signal;
    char bytes[BYTES];
} answer;

static word call(word number, word a, word b, word c, word d, word e, word f)
{
    register word r10 __asm__("r10") = d, r8 __asm__("r8") = e, r9 __asm__("r9") = f;
    __asm__ volatile("syscall"
                     : "+a"(number)
                     : "D"(a), "S"(b), "d"(c), "r"(r10), "r"(r8), "r"(r9)
                     : "rcx", "r11", "memory");
    return number;
}

static void end(void)
{
    for (;;)
        call(__NR_exit_group, 0, 0, 0, 0, 0, 0);
}

/* Copies byte by byte, and gives how many bytes are left: those from one on that faults. */
word copy(char *to, const char *from, word count);
extern char copied[], restore[];
__asm__("copy: mov %rdx, %rcx\n"
        "rep movsb\n"
        "copied: mov %rcx, %rax\n"
        "ret\n"
        "restore: mov $15, %eax\n"
        "syscall");

/* The handler of a fault: the process goes on behind the copying. */
static void fault(int number, void *info, ucontext_t *context)
{
    (void)info;
    answer.signal = number;
    context->uc_mcontext.gregs[REG_RIP] = (word)copied;
}

static void heed(int number, word handler)
{
    word action[4] = {handler, RESTORER, (word)restore, 0};

    call(__NR_rt_sigaction, number, (word)action, 0, sizeof action[3], 0, 0);
}

/* A read for which no protection key counts. */
static word read_with_keys(const char *from, word count)
{
    word keys, high, left;
    __asm__ volatile("rdpkru" : "=a"(keys), "=d"(high) : "c"(0));
    __asm__ volatile("wrpkru" : : "a"(0), "c"(0), "d"(0) : "memory");
    left = copy(answer.bytes, from, count);
    __asm__ volatile("wrpkru" : : "a"(keys), "c"(0), "d"(0) : "memory");
    return left;
}

/* Waits for what is asked, and gives the descriptor that came with it: the channel of a child. */
static int wait_for_ask(void)
{
    union {
        struct cmsghdr head;
        char room[CMSG_SPACE(sizeof(int))];
    } control;
    struct iovec whole = {&asked, sizeof asked};
    struct msghdr message = {.msg_iov = &whole,
                             .msg_iovlen = 1,
                             .msg_control = &control,
                             .msg_controllen = sizeof control};

    if ((long)call(__NR_recvmsg, 0, (word)&message, 0, 0, 0, 0) <= 0)
        end();
    return message.msg_controllen ? *(int *)CMSG_DATA(&control.head) : -1;
}

/* Forks. The child answers on its own channel from then on, and says nothing of the fork. */
static int is_child(int channel)
{
    word child = call(__NR_fork, 0, 0, 0, 0, 0, 0);
    if (!child)
        call(__NR_dup2, channel, 0, 0, 0, 0, 0);
    call(__NR_close, channel, 0, 0, 0, 0, 0);
    answer.result = child;
    return !child;
}

static int is_answered(int channel)
{
    word *of = asked.of;

    answer.result = answer.signal = 0;
    switch (asked.what) {
    case CALL:
        answer.result = call(of[0], of[1], of[2], of[3], of[4], of[5], of[6]);
        break;
    case FORK:
        return !is_child(channel);
    case READ:
        answer.result = of[1] - copy(answer.bytes, (char *)of[0], of[1]);
        break;
    case WRITE:
        answer.result = of[1] - copy((char *)of[0], asked.bytes, of[1]);
        break;
    case READ_WITH_KEYS:
        answer.result = of[1] - read_with_keys((char *)of[0], of[1]);
        break;
    }
    return 1;
}

void _start(void)
{
    heed(SIGSEGV, (word)fault);
    heed(SIGBUS, (word)fault);
    heed(SIGCHLD, (word)SIG_IGN);
    for (;;) {
        int channel = wait_for_ask();
        if (is_answered(channel)) {
            int reads = asked.what == READ || asked.what == READ_WITH_KEYS;
            word length = HEAD + (reads ? answer.result : 0);
            call(__NR_write, 0, (word)&answer, length, 0, 0, 0);
        }
    }
}
