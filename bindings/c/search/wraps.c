/* The calls of the proved library and of the system by which the scheduler's C works: the linker (--wrap) leads them here. A call of the library
 * is one step, as its proofs allow; one of the system is search.c's. */

/* A call that changes what others may see. */
#define STEP(name, parameters, arguments) \
    zelamiku_status __real_##name parameters; \
    zelamiku_status __wrap_##name parameters { \
        search_step(); \
        return __real_##name arguments; \
    }
STEP(zelamiku_try_enter, (zelamiku_handle *session, uint32_t object), (session, object))
STEP(zelamiku_exit, (zelamiku_handle *session, uint32_t object), (session, object))
STEP(zelamiku_begin_wait, (zelamiku_handle *session, uint32_t object), (session, object))
STEP(zelamiku_try_resume, (zelamiku_handle *session), (session))
STEP(zelamiku_notify, (zelamiku_handle *session, uint32_t object, uint32_t *lane), (session, object, lane))
STEP(zelamiku_notify_all, (zelamiku_handle *session, uint32_t object, uint64_t *lanes), (session, object, lanes))
STEP(zelamiku_look, (zelamiku_handle *session, uint32_t object, zelamiku_sight *sight), (session, object, sight))
STEP(zelamiku_store, (zelamiku_handle *session, uint32_t field, uint64_t value), (session, field, value))
STEP(zelamiku_acknowledged, (zelamiku_handle *heap, uint32_t lane, uint64_t *sections), (heap, lane, sections))
STEP(zelamiku_session, (zelamiku_handle *heap, zelamiku_handle *session), (heap, session))
STEP(zelamiku_end, (zelamiku_handle *session), (session))
STEP(zelamiku_close, (zelamiku_handle *heap), (heap))

static bool searched_is_bounded; /* the last round has taken as much as it might */

/* A round takes some time for each record, by which the scheduler's C bounds the next one. */
zelamiku_status __real_zelamiku_round(zelamiku_handle *heap, uint64_t most, uint64_t *applied);
zelamiku_status __wrap_zelamiku_round(zelamiku_handle *heap, uint64_t most, uint64_t *applied) {
    search_step();
    zelamiku_status status = __real_zelamiku_round(heap, most, applied);
    searched_is_bounded = *applied == most;
    search_pass(*applied * (search_chance() % 100));
    search_step();
    return status;
}

static long searched_processors = 2;
long __real_sysconf(int name);

/* How many processors there are is the program's. */
long __wrap_sysconf(int name) {
    return name == _SC_NPROCESSORS_ONLN ? searched_processors : __real_sysconf(name);
}

/* All tasks are one thread of the system, which keeps its name. */
int __wrap_pthread_setname_np(pthread_t thread, const char *name) {
    (void)thread, (void)name;
    return 0;
}
