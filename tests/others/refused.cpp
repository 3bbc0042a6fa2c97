// Refuses the N-th allocation, thread or read of standard input: for LD_PRELOAD, with `new N` (`thread N`, `read N`) in
// REFUSED.
#include <dlfcn.h>
#include <pthread.h>
#include <unistd.h>

#include <atomic>
#include <cerrno>
#include <cstdlib>
#include <cstring>
#include <new>

// Whether this call, of this kind, is refused.
static bool is_refused(const char *kind, std::atomic<long> &count) {
    const char *refused = std::getenv("REFUSED");
    const size_t length = std::strlen(kind);
    return refused && !std::strncmp(refused, kind, length) && ++count == std::atol(refused + length);
}

void *operator new(size_t size) {
    static std::atomic<long> count{0};
    void *found = is_refused("new ", count) ? nullptr : std::malloc(size ? size : 1);
    if (!found)
        throw std::bad_alloc();
    return found;
}

void operator delete(void *place) noexcept {
    std::free(place);
}

void operator delete(void *place, size_t) noexcept {
    std::free(place);
}

extern "C" int pthread_create(pthread_t *thread, const pthread_attr_t *how, void *(*run)(void *), void *given) {
    using Create = int (*)(pthread_t *, const pthread_attr_t *, void *(*)(void *), void *);
    static std::atomic<long> count{0};
    if (is_refused("thread ", count))
        return EAGAIN;
    return reinterpret_cast<Create>(dlsym(RTLD_NEXT, "pthread_create"))(thread, how, run, given);
}

extern "C" ssize_t read(int descriptor, void *room, size_t size) {
    using Read = ssize_t (*)(int, void *, size_t);
    static std::atomic<long> count{0};
    if (descriptor == STDIN_FILENO && is_refused("read ", count)) {
        errno = EIO;
        return -1;
    }
    return reinterpret_cast<Read>(dlsym(RTLD_NEXT, "read"))(descriptor, room, size);
}
