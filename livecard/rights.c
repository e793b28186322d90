/* Capabilities by the system's own calls: no library beside the C library's. */
#include "rights.h"

#include <errno.h>
#include <grp.h>
#include <linux/capability.h>
#include <pwd.h>
#include <sched.h>
#include <string.h>
#include <sys/mman.h>
#include <sys/prctl.h>
#include <sys/syscall.h>
#include <sys/types.h>
#include <unistd.h>

#include "tell.h"

/* Above what the system runs as ordinary, below what its own threads have. */
#define REAL_TIME_PRIORITY 10

void rights_real_time(void)
{
    struct sched_param priority = {.sched_priority = REAL_TIME_PRIORITY};

    /* neither the disk's thread nor the follower inherits it */
    if (sched_setscheduler(0, SCHED_FIFO | SCHED_RESET_ON_FORK, &priority) < 0)
        fail("--real-time: %s%s", strerror(errno),
             errno == EPERM ? " (CAP_SYS_NICE is missing)" : "");
    /* what is mapped now is all that the loop uses; what comes later would count against a limit */
    if (mlockall(MCL_CURRENT) < 0)
        tell("--real-time: memory may be paged out: %s (CAP_IPC_LOCK or LimitMEMLOCK would help)",
             strerror(errno));
}

static void become(const char *name)
{
    struct passwd *user = getpwnam(name);

    if (!user)
        fail("--user %s: no such user", name);
    if (setgroups(0, NULL) < 0 || setgid(user->pw_gid) < 0 || setuid(user->pw_uid) < 0)
        fail("--user %s: %s", name, strerror(errno));
}

void rights_drop(const char *user)
{
    struct __user_cap_header_struct head = {_LINUX_CAPABILITY_VERSION_3, 0};
    struct __user_cap_data_struct none[_LINUX_CAPABILITY_U32S_3] = {{0, 0, 0}};

    if (user)
        become(user);
    if (prctl(PR_CAP_AMBIENT, PR_CAP_AMBIENT_CLEAR_ALL, 0, 0, 0) < 0 && errno != EINVAL)
        fail("rights cannot be dropped: %s", strerror(errno));
    if (prctl(PR_SET_NO_NEW_PRIVS, 1, 0, 0, 0) < 0 || syscall(SYS_capset, &head, none) < 0)
        fail("rights cannot be dropped: %s", strerror(errno));
}
