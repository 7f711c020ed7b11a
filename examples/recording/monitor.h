/* The monitor of the read-write examples, a POSIX mutex and a condition. It counts its sections for
   LR_SECTION.

   SPDX-License-Identifier: Apache-2.0 OR MIT */

typedef struct {
    pthread_mutex_t mutex;
    pthread_cond_t changed;
    uint64_t sections; /* what LR_SECTION counts */
} rw_monitor;

static void monitor_open(rw_monitor *own)
{
    pthread_mutex_init(&own->mutex, NULL);
    pthread_cond_init(&own->changed, NULL);
}

static void monitor_enter(rw_monitor *own) { LR_LOCK(pthread_mutex_lock(&own->mutex)); }

static void monitor_leave(rw_monitor *own)
{
    LR_BROADCAST(&own->changed, pthread_cond_broadcast(&own->changed));
    LR_UNLOCK(pthread_mutex_unlock(&own->mutex));
}

static void monitor_wait(rw_monitor *own)
{
    LR_WAIT(&own->changed, pthread_mutex_unlock(&own->mutex),
            pthread_cond_wait(&own->changed, &own->mutex), pthread_mutex_lock(&own->mutex));
}
