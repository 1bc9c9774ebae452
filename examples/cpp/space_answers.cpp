/* What gz_space.hpp answers on one thread: bad openings, closed and moved callers, a held reply whose pages nobody else
   gets, one that outlives its caller, and what the constructor of a space throws. It prints a line for each, with the
   library's number and text. */
#include "gz_space.hpp"

#include <cstdio>
#include <vector>

static const uint32_t READ_WRITE = GZ_SPACE_READ | GZ_SPACE_WRITE, AT = GZ_SPACE_PRIVATE | GZ_SPACE_FIXED;

static void says(const char *call, gz_space_answer answer) {
    std::printf("%-40s %2u %s\n", call, (unsigned)answer, gz_space_text(answer));
}

static void says(const char *call, const gz::reply &reply) {
    says(call, reply.answer);
    std::printf("    kind %u error %u cause %u at %#lx, as asked: %s\n", reply.said.kind, reply.said.error,
                reply.said.cause, (unsigned long)reply.said.at, reply ? "yes" : "no");
}

static void says(const char *call, const gz::area_reply &area) {
    says(call, area.answer);
    std::printf("    pages %#lx to %#lx, prot %u, an area: %s\n", (unsigned long)area.found.lo,
                (unsigned long)area.found.hi, area.found.prot, area ? "yes" : "no");
}

static void says(const char *call, const gz::areas_reply &came, const std::vector<gz_space_mapping> &areas) {
    says(call, came.answer);
    std::printf("    areas %lu, pages %lu:", (unsigned long)came.counts.areas, (unsigned long)came.counts.pages);
    for (const gz_space_mapping &area : areas)
        std::printf(" %#lx to %#lx prot %u", (unsigned long)area.lo, (unsigned long)area.hi, area.prot);
    std::printf(" as asked: %s\n", came ? "yes" : "no");
}

static void shows(const char *whose, const gz::caller &caller) {
    gz_space_range held;
    says(whose, caller.held(held));
    std::printf("    caller %u, pages %#lx to %#lx\n", held.caller, (unsigned long)held.lo, (unsigned long)held.hi);
}

static void openings() {
    gz::space space;
    gz::caller first, second, third;
    says("take of a closed space", space.take_caller(first));
    says("open of no caller", space.open(0));
    says("open of 17 callers", space.open(17));
    says("open of 17 regions", space.open(2, 17));
    says("open of 2 callers", space.open(2, 7, 16));
    says("open once more", space.open(2));
    says("take", space.take_caller(first));
    says("take into an open caller", space.take_caller(first));
    says("take of the last", space.take_caller(second));
    says("take where none is left", space.take_caller(third));
    says("area by what was never opened", third.area(0x10000));
    std::vector<gz_space_mapping> areas(3);
    says("areas by it", third.areas(0, 1, areas), areas);
    says("count by it", third.count(0, 1), areas);
    says("close of the first", first.close());
    says("take of its caller", space.take_caller(third));
    says("close of the space", space.close());
    says("map by what is left", second.map(0x10000, 4096, READ_WRITE, AT));
}

static void holding() {
    gz::space space;
    gz::caller first, second;
    if (space.open(2) || space.take_caller(first) || space.take_caller(second)) return;
    {
        gz::held_reply held = first.map_held(0x10000, 3 * 4096, READ_WRITE, AT);
        says("map, held", held);
        shows("what it holds", first);
        says("map by the caller meanwhile", first.map(0x20000, 4096, READ_WRITE, AT));
        says("area by the caller meanwhile", first.area(0x10000));
        gz::held_reply moved = std::move(held);
        says("done of what was moved from", held.done());
        shows("what it holds", first);
    }
    shows("what it holds after the scope", first);
    {
        gz::held_reply one = first.fault_held(0x10000, GZ_SPACE_WRITE, true);
        gz::held_reply two = second.fault_held(0x11000, GZ_SPACE_READ, true);
        says("fault alone, held", one);
        says("another's of the next page", two);
        says("done", one.done());
        says("done once more", one.done());
        one = first.fault_held(0x40000, GZ_SPACE_READ);
        says("fault of no page, held", one);
        shows("what it holds", first);
    }
    says("remap, held and let go", first.remap_held(0x10000, 4096, 0));
    says("unmap", second.unmap(0x11000, 4096));
    says("protect", second.protect(0x10000, 2 * 4096, GZ_SPACE_READ));
    says("remap", second.remap(0x12000, 4096, 2 * 4096, GZ_SPACE_MAYMOVE, 0x30000));
    says("brk", second.brk(0x30000, 0x33000));
    says("seal", second.seal(0x10000, 4096));
    says("unmap of what is sealed", second.unmap(0x10000, 4096));
    says("area", second.area(0x31000));
    says("area of no page", second.area(0x12000));
    std::vector<gz_space_mapping> areas;
    says("areas", second.areas(0, GZ_SPACE_LIMIT, areas), areas);
    says("areas of page 49", second.areas(0x31, 0x32, areas), areas);
    says("areas of no page", second.areas(0x31, 0x31, areas), areas);
    gz_space_mapping only = {};
    gz::areas_reply came = second.areas(0, GZ_SPACE_LIMIT, &only, 1);
    areas.assign(1, only);
    says("areas, room for one", came, areas);
    areas.clear();
    says("count", second.count(0, GZ_SPACE_LIMIT), areas);
    gz::held_reply outlives = first.unmap_held(0x40000, 4096);
    gz::caller moved = std::move(first);
    shows("what the moved one holds", moved);
    says("fault by what was moved from", first.fault(0x10000, GZ_SPACE_READ));
    says("close of the caller", moved.close());
    says("another's fault", second.fault(0x10000, GZ_SPACE_READ));
    says("done of the reply that is left", outlives.done());
}

int main() {
    openings();
    holding();
#ifdef __cpp_exceptions
    try {
        gz::space space(17);
    } catch (const gz::space_error &error) {
        std::printf("thrown: %s\n", error.what());
    }
#endif
    return 0;
}
