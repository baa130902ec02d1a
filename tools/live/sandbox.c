/* The sandbox of a proved program: a library to be laid over it by LD_PRELOAD (docs/LIVE.md; program.c does it).
 *
 * Before the program's first own step the kernel is told what calls it may make from now on: it reads and writes the
 * files that it has, asks for memory and gives it back, looks at the clock, and ends. Whatever else it calls, it is
 * ended by signal SIGSYS at that call; so it is where it asks for memory whose bytes can be run. Where the kernel
 * doesn't take the filter, the program ends with 126 before it has read anything. */
#define _GNU_SOURCE
#include <linux/audit.h>
#include <linux/filter.h>
#include <linux/seccomp.h>
#include <stddef.h>
#include <string.h>
#include <sys/mman.h>
#include <sys/prctl.h>
#include <sys/resource.h>
#include <sys/syscall.h>
#include <unistd.h>

#define LOOK(field) BPF_STMT(BPF_LD | BPF_W | BPF_ABS, offsetof(struct seccomp_data, field))
#define END BPF_STMT(BPF_RET | BPF_K, SECCOMP_RET_KILL_PROCESS)
#define ALLOW BPF_STMT(BPF_RET | BPF_K, SECCOMP_RET_ALLOW)
#define UNLESS(number, skipped) BPF_JUMP(BPF_JMP | BPF_JEQ | BPF_K, number, 0, skipped)
/* A call that is allowed whatever its arguments. */
#define MAY(call) UNLESS(SYS_##call, 1), ALLOW
/* One that is allowed unless its third argument, a protection, lets bytes be run. */
#define MAY_UNRUN(call) \
    UNLESS(SYS_##call, 4), LOOK(args[2]), BPF_JUMP(BPF_JMP | BPF_JSET | BPF_K, PROT_EXEC, 0, 1), END, ALLOW

static struct sock_filter filter[] = {
    LOOK(arch),
    UNLESS(AUDIT_ARCH_X86_64, 1),
    BPF_JUMP(BPF_JMP | BPF_JA, 1, 0, 0),
    END,
    LOOK(nr),
    MAY(read),
    MAY(write),
    MAY_UNRUN(mmap),
    MAY_UNRUN(mprotect),
    MAY(munmap),
    MAY(mremap),
    MAY(madvise),
    MAY(brk),
    MAY(futex),
    MAY(getrandom),
    MAY(clock_gettime),
    /* SIGPIPE is passed over, so that a write that fails is told. */
    MAY(rt_sigaction),
    MAY(rt_sigreturn),
    MAY(exit),
    MAY(exit_group),
    END,
};

__attribute__((constructor)) static void confine(void)
{
    static const char line[] = "the kernel takes no filter for calls to the system";
    struct sock_fprog program = {sizeof filter / sizeof *filter, filter};
    struct rlimit none = {0, 0};
    setrlimit(RLIMIT_CORE, &none);
    if (prctl(PR_SET_NO_NEW_PRIVS, 1, 0, 0, 0) == 0 && prctl(PR_SET_SECCOMP, SECCOMP_MODE_FILTER, &program) == 0)
        return;
    if (write(STDERR_FILENO, line, strlen(line)) < 0)
        _exit(126);
    _exit(126);
}
