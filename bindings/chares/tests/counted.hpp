// Memory that is counted, and of which one request is refused: for tests that are linked with malloc, calloc, realloc and free wrapped. The requests
// of MPI are its own. One file of a program has this.
#ifndef COUNTED_HPP
#define COUNTED_HPP

#include <atomic>
#include <cstdlib>
#include <malloc.h>
#include <new>

extern "C" {
void *__real_malloc(std::size_t size);
void *__real_calloc(std::size_t count, std::size_t size);
void *__real_realloc(void *at, std::size_t size);
void __real_free(void *at);
void *__wrap_malloc(std::size_t size);
void *__wrap_calloc(std::size_t count, std::size_t size);
void *__wrap_realloc(void *at, std::size_t size);
void __wrap_free(void *at);
}

namespace tests {

inline std::atomic<long> requests{0}, refused_at{0}; // the request with this number is refused, where it is not 0
inline std::atomic<long> live{0}, most{0};

inline bool refuses() { return ++requests == refused_at.load(); }
inline void *counted(void *at)
{
    if (at) {
        const long now = live += static_cast<long>(malloc_usable_size(at));
        if (now > most.load()) most = now;
    }
    return at;
}
inline void gone(void *at)
{
    if (at) live -= static_cast<long>(malloc_usable_size(at));
}

// What is taken from here on: the most at a time, and what is left of it.
class taken {
public:
    taken() : before_(live.load()) { most = before_; }
    long at_most() const { return most.load() - before_; }
    long now() const { return live.load() - before_; }

private:
    const long before_;
};

} // namespace tests

void *__wrap_malloc(std::size_t size) { return tests::refuses() ? nullptr : tests::counted(__real_malloc(size)); }
void *__wrap_calloc(std::size_t count, std::size_t size) { return tests::refuses() ? nullptr : tests::counted(__real_calloc(count, size)); }
void *__wrap_realloc(void *at, std::size_t size)
{
    if (tests::refuses()) return nullptr;
    tests::gone(at);
    return tests::counted(__real_realloc(at, size));
}
void __wrap_free(void *at)
{
    tests::gone(at);
    __real_free(at);
}
void *operator new(std::size_t size)
{
    void *at = __wrap_malloc(size ? size : 1);
    if (!at) throw std::bad_alloc();
    return at;
}
void operator delete(void *at) noexcept { __wrap_free(at); }
void operator delete(void *at, std::size_t) noexcept { __wrap_free(at); }

#endif
