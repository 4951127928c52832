/* Wakes threads for no reason, as the kernel may: every second wait ends at once, so that a wait which
 * does not look again shows. Link it into a program with
 * -Wl,--wrap=syscall,--wrap=pthread_cond_timedwait. */
#include <linux/futex.h>
#include <pthread.h>
#include <sched.h>
#include <stdarg.h>
#include <stdatomic.h>
#include <sys/syscall.h>
#include <time.h>

long __real_syscall(long number, ...);
long __wrap_syscall(long number, ...);
int __real_pthread_cond_timedwait(pthread_cond_t *condition, pthread_mutex_t *lock,
                                  const struct timespec *deadline);
int __wrap_pthread_cond_timedwait(pthread_cond_t *condition, pthread_mutex_t *lock,
                                  const struct timespec *deadline);

static atomic_uint waits;

static int is_spurious(void) { return atomic_fetch_add(&waits, 1) % 2; }

long __wrap_syscall(long number, ...) {
    long words[6];
    va_list more;
    va_start(more, number);
    for (int i = 0; i < 6; i++) words[i] = va_arg(more, long);
    va_end(more);
    if (number == SYS_futex && (words[1] & FUTEX_CMD_MASK) == FUTEX_WAIT_BITSET && is_spurious()) {
        sched_yield();
        return 0;
    }
    return __real_syscall(number, words[0], words[1], words[2], words[3], words[4], words[5]);
}

int __wrap_pthread_cond_timedwait(pthread_cond_t *condition, pthread_mutex_t *lock,
                                  const struct timespec *deadline) {
    if (!is_spurious()) return __real_pthread_cond_timedwait(condition, lock, deadline);
    pthread_mutex_unlock(lock);
    sched_yield();
    pthread_mutex_lock(lock);
    return 0;
}
