/* What the header for C++ answers where there is no memory for a seat's place: NO_MEMORY, and nothing has changed. The
   program has an operator new of its own, which gives nothing while that is asked for. */
#include "gz_range.hpp"

#include <cstddef>
#include <cstdio>
#include <cstdlib>
#include <new>

namespace {

bool gives_nothing = false;

template <class T> void show(const char *call, const gz::result<T> &result) {
    std::printf("%s: %s\n", call, result.text());
}

} // namespace

void *operator new(std::size_t size, const std::nothrow_t &) noexcept {
    return gives_nothing ? nullptr : std::malloc(size);
}
void *operator new(std::size_t size) {
    if (void *place = std::malloc(size)) return place;
    std::abort();
}
void operator delete(void *place) noexcept { std::free(place); }
void operator delete(void *place, std::size_t) noexcept { std::free(place); }

int main() {
    gives_nothing = true;
    show("a table, without memory", gz::table::open(2));
    gives_nothing = false;
    auto table = gz::table::open(2);
    show("a table", table);
    gives_nothing = true;
    show("a seat, without memory", table->take_seat());
    gives_nothing = false;
    auto first = table->take_seat(), last = table->take_seat();
    show("a seat", first);
    show("the last seat", last);
    gives_nothing = true;
    show("10 to 20, which takes no memory", first->try_write(10, 20));
    return 0;
}
