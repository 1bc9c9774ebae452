/* The address space of gz_space.h for C++17: the same calls, with objects that give back what they hold.

   A `space` hands out its callers one by one, a caller to each thread. Each call of a caller gives a `reply`, which
   says what the call came to; a held one gives a `held_reply`, whose end gives the pages back. Nothing here throws but
   the constructor of a space, where exceptions are on, and a vector that grows.

       #include <gz_space.hpp>
       #include <cstdio>

       int main() {
           gz::space space;
           gz::caller first, second;
           if (space.open(2) || space.take_caller(first) || space.take_caller(second)) return 1;
           {
               gz::held_reply held = first.map_held(0x10000, 8192, GZ_SPACE_READ, GZ_SPACE_PRIVATE);
               if (!held) return 1;
               std::printf("mapped at %#lx, ", (unsigned long)held.said.at);
           } // what was to be done at that address is done
           gz::reply fault = second.fault(0x11000, GZ_SPACE_WRITE);
           if (fault.said.kind != GZ_SPACE_ACCERR) return 1;
           std::printf("page %lu may not be written\n", (unsigned long)fault.said.at);
       }

   It prints: mapped at 0x10000, page 17 may not be written.

   What you may rely on beside what gz_space.h says of each call:
   - A space, a caller and a held reply move and don't copy. A space or a caller that was moved from, closed or never
     opened answers IS_CLOSED to each call; a held reply that was moved from or given back holds nothing. It may be
     assigned to, or opened, again.
   - A held reply that outlives its caller holds nothing, and its end does nothing: the caller's end has given the pages
     back. A caller may outlive its space, and a held reply may stay where it is while its caller moves.
   - While a held reply of a caller holds pages, another call of that caller answers HOLDS.

   What you owe, as in C: a caller and the held reply that it gave are used by one thread at a time, and so is a space;
   no call is made in a signal handler, or in the forked child of a process that has threads; what is done under held
   pages waits for no other caller.

   The calls of the archive are proved; this header isn't. */
#ifndef GZ_SPACE_HPP
#define GZ_SPACE_HPP

#if __cplusplus < 201703L
#error "gz_space.hpp: the header is for C++17 and later, as by -std=c++17; gz_space.h is for C++11 too"
#endif

#include "gz_space.h"

#include <cstddef>
#include <new>
#include <utility>

#ifdef __cpp_exceptions
#include <stdexcept>
#endif

namespace gz {

/* What a call came to: what it returned, and what the space said, which is all 0 unless that is DONE. As a condition it
   is true where the call was done as asked: it has an address, or success, or a granted fault. */
struct [[nodiscard]] reply {
    gz_space_answer answer = GZ_SPACE_IS_CLOSED;
    gz_space_reply said = {};

    explicit operator bool() const noexcept {
        return said.kind == GZ_SPACE_ADDRESS || said.kind == GZ_SPACE_ZERO || said.kind == GZ_SPACE_GRANTED;
    }
};

/* What a look for an area came to: what it returned, and the area, which is all 0 unless that is DONE and the page is
   mapped. As a condition it is true where there is an area. */
struct [[nodiscard]] area_reply {
    gz_space_answer answer = GZ_SPACE_IS_CLOSED;
    gz_space_mapping found = {};

    explicit operator bool() const noexcept { return found.mapped != 0; }
};

/* What a look for the areas of a span came to: what it returned, and how many areas there are, with their pages, which
   is all 0 unless that is DONE. As a condition it is true where it is DONE. */
struct [[nodiscard]] areas_reply {
    gz_space_answer answer = GZ_SPACE_IS_CLOSED;
    gz_space_counts counts = {};

    explicit operator bool() const noexcept { return answer == GZ_SPACE_DONE; }
};

namespace detail {

/* A handle at a place of its own, since a handle isn't copied. It goes with its caller, or with the held reply where
   that ends later. */
struct space_place {
    gz_space handle = GZ_SPACE_CLOSED;
    bool guarded = false; /* a held reply names it */
    bool left = false;    /* its caller is gone */
};

} // namespace detail

class caller;
class space;

/* A reply with the pages that are held. Its end gives them back. Where nothing is held, as after a call that its
   arguments decided, the end does nothing. */
class [[nodiscard]] held_reply : public reply {
  public:
    held_reply(held_reply &&from) noexcept : reply(from), place_(std::exchange(from.place_, nullptr)) {}
    held_reply &operator=(held_reply &&from) noexcept {
        if (this != &from) {
            done();
            reply::operator=(from);
            place_ = std::exchange(from.place_, nullptr);
        }
        return *this;
    }
    ~held_reply() { done(); }

    /* Gives the pages back before its scope ends.
       DONE; HOLDS_NONE where it holds none; IS_CLOSED where its caller is gone, which gave them back. */
    gz_space_answer done() noexcept {
        detail::space_place *place = std::exchange(place_, nullptr);
        if (!place) return GZ_SPACE_HOLDS_NONE;
        place->guarded = false;
        if (!place->left) return gz_space_done(&place->handle);
        delete place;
        return GZ_SPACE_IS_CLOSED;
    }

  private:
    friend class caller;
    explicit held_reply(const reply &came) noexcept : reply(came) {}
    void guard(detail::space_place *place) noexcept {
        place_ = place;
        place->guarded = true;
    }

    detail::space_place *place_ = nullptr;
};

/* A caller of a space: the right of one thread to make one call after the other. A caller that wasn't taken from a
   space, or was moved from, is closed. Addresses and lengths are in bytes; the names and numbers are those of
   gz_space.h. */
class caller {
  public:
    caller() noexcept = default;
    caller(caller &&from) noexcept : place_(std::exchange(from.place_, nullptr)) {}
    caller &operator=(caller &&from) noexcept {
        if (this != &from) {
            close();
            place_ = std::exchange(from.place_, nullptr);
        }
        return *this;
    }
    ~caller() { close(); }

    bool is_open() const noexcept { return place_ != nullptr; }

    /* Each makes its call, however long that takes, and gives the pages back: gz_space_map and so on. */
    reply map(uint64_t addr, uint64_t len, uint32_t prot, uint32_t flags) noexcept {
        return make({ GZ_SPACE_MAP, prot, flags, 0, addr, len, 0, 0 });
    }
    reply unmap(uint64_t addr, uint64_t len) noexcept { return make({ GZ_SPACE_UNMAP, 0, 0, 0, addr, len, 0, 0 }); }
    reply protect(uint64_t addr, uint64_t len, uint32_t prot) noexcept {
        return make({ GZ_SPACE_PROTECT, prot, 0, 0, addr, len, 0, 0 });
    }
    reply remap(uint64_t addr, uint64_t old_len, uint64_t new_len, uint32_t flags = 0, uint64_t place = 0) noexcept {
        return make({ GZ_SPACE_REMAP, 0, flags, 0, addr, old_len, new_len, place });
    }
    reply seal(uint64_t addr, uint64_t len) noexcept { return make({ GZ_SPACE_SEAL, 0, 0, 0, addr, len, 0, 0 }); }
    reply brk(uint64_t base, uint64_t end) noexcept { return make({ GZ_SPACE_BRK, 0, 0, 0, end, 0, 0, base }); }
    reply fault(uint64_t addr, uint32_t access) noexcept { return fault_by(addr, access, false, false); }
    reply make(const gz_space_call &call) noexcept { return make_by(call, false); }

    /* Each does the same and goes on holding its pages, as long as the held reply is there. */
    held_reply map_held(uint64_t addr, uint64_t len, uint32_t prot, uint32_t flags) noexcept {
        return make_held({ GZ_SPACE_MAP, prot, flags, 0, addr, len, 0, 0 });
    }
    held_reply unmap_held(uint64_t addr, uint64_t len) noexcept {
        return make_held({ GZ_SPACE_UNMAP, 0, 0, 0, addr, len, 0, 0 });
    }
    held_reply protect_held(uint64_t addr, uint64_t len, uint32_t prot) noexcept {
        return make_held({ GZ_SPACE_PROTECT, prot, 0, 0, addr, len, 0, 0 });
    }
    held_reply remap_held(uint64_t addr, uint64_t old_len, uint64_t new_len, uint32_t flags = 0,
                          uint64_t place = 0) noexcept {
        return make_held({ GZ_SPACE_REMAP, 0, flags, 0, addr, old_len, new_len, place });
    }
    held_reply seal_held(uint64_t addr, uint64_t len) noexcept {
        return make_held({ GZ_SPACE_SEAL, 0, 0, 0, addr, len, 0, 0 });
    }
    held_reply brk_held(uint64_t base, uint64_t end) noexcept {
        return make_held({ GZ_SPACE_BRK, 0, 0, 0, end, 0, 0, base });
    }
    held_reply fault_held(uint64_t addr, uint32_t access, bool alone = false) noexcept {
        return guarded(fault_by(addr, access, alone, true));
    }
    held_reply make_held(const gz_space_call &call) noexcept { return guarded(make_by(call, true)); }

    /* The area of the byte at addr, with its exact ends, at one moment: gz_space_area. */
    area_reply area(uint64_t addr) noexcept {
        area_reply came;
        if (place_) came.answer = gz_space_area(&place_->handle, addr, &came.found);
        return came;
    }

    /* The areas of the pages from lo on and below hi, by their numbers, clipped to them, at one moment: gz_space_areas.
       The first go to `areas`, as far as there is room; the counts are of all. */
    areas_reply areas(uint64_t lo, uint64_t hi, gz_space_mapping *areas, size_t room) noexcept {
        areas_reply came;
        if (place_) came.answer = gz_space_areas(&place_->handle, lo, hi, areas, room, &came.counts);
        return came;
    }

    /* The same with all areas in a vector, in place of what it had, by as many looks as it takes: the areas are those
       of the last one. What its resize throws goes through; nothing is held then. It is empty unless the answer is
       DONE. */
    template <class Vector> areas_reply areas(uint64_t lo, uint64_t hi, Vector &into) {
        areas_reply came;
        into.resize(into.capacity() > 0 ? into.capacity() : 1);
        while ((came = areas(lo, hi, into.data(), into.size())) && came.counts.areas > into.size())
            into.resize(static_cast<size_t>(came.counts.areas));
        into.resize(static_cast<size_t>(came.counts.areas));
        return came;
    }

    /* How many areas they have, and how many pages are mapped: gz_space_count. */
    areas_reply count(uint64_t lo, uint64_t hi) noexcept {
        areas_reply came;
        if (place_) came.answer = gz_space_count(&place_->handle, lo, hi, &came.counts);
        return came;
    }

    /* What the caller holds, with its number, in `held`: gz_space_held. */
    gz_space_answer held(gz_space_range &held) const noexcept {
        held = {};
        return place_ ? gz_space_held(&place_->handle, &held) : GZ_SPACE_IS_CLOSED;
    }

    /* Gives back what the caller holds, and ends it: gz_space_close. */
    gz_space_answer close() noexcept {
        detail::space_place *place = std::exchange(place_, nullptr);
        if (!place) return GZ_SPACE_IS_CLOSED;
        gz_space_answer answer = gz_space_close(&place->handle);
        if (place->guarded) place->left = true;
        else delete place;
        return answer;
    }

  private:
    friend class space;

    /* Opens this caller, which is closed, by a call that opens a handle. */
    template <class Open> gz_space_answer fill(Open open) noexcept {
        detail::space_place *place = new (std::nothrow) detail::space_place;
        if (!place) return GZ_SPACE_NO_MEMORY;
        gz_space_answer answer = open(&place->handle);
        if (answer == GZ_SPACE_DONE) place_ = place;
        else delete place;
        return answer;
    }

    /* One more caller of the same space, in `further`, which is closed: gz_space_share. */
    gz_space_answer share(caller &further) noexcept {
        return further.fill([this](gz_space *handle) noexcept { return gz_space_share(&place_->handle, handle); });
    }

    reply make_by(const gz_space_call &call, bool keep) noexcept {
        reply came;
        if (place_) came.answer = gz_space_make(&place_->handle, &call, keep, &came.said);
        return came;
    }
    reply fault_by(uint64_t addr, uint32_t access, bool alone, bool keep) noexcept {
        reply came;
        if (place_) came.answer = gz_space_fault_by(&place_->handle, addr, access, alone, keep, &came.said);
        return came;
    }
    held_reply guarded(const reply &came) noexcept {
        held_reply kept(came);
        gz_space_range range;
        if (came.answer == GZ_SPACE_DONE && held(range) == GZ_SPACE_DONE) kept.guard(place_);
        return kept;
    }

    detail::space_place *place_ = nullptr;
};

#ifdef __cpp_exceptions
/* What the constructor of a space throws. */
class space_error : public std::runtime_error {
  public:
    explicit space_error(gz_space_answer answer) : std::runtime_error(gz_space_text(answer)), answer_(answer) {}
    gz_space_answer answer() const noexcept { return answer_; }

  private:
    gz_space_answer answer_;
};
#endif

/* An address space, as it hands out its callers. It is used by one thread at a time, and may end before its callers:
   the space itself is there as long as one caller is. A space that wasn't opened, or was moved from, is closed. */
class space {
  public:
    space() noexcept = default;
    space(space &&from) noexcept : last_(std::move(from.last_)), took_last_(std::exchange(from.took_last_, false)) {}
    space &operator=(space &&from) noexcept {
        if (this != &from) {
            last_ = std::move(from.last_);
            took_last_ = std::exchange(from.took_last_, false);
        }
        return *this;
    }

#ifdef __cpp_exceptions
    /* Opens a space as the call below does, and throws gz::space_error where that is refused. */
    explicit space(uint32_t callers, uint32_t regions = 1, uint32_t bits = 16) {
        gz_space_answer answer = open(callers, regions, bits);
        if (answer != GZ_SPACE_DONE) throw space_error(answer);
    }
#endif

    /* Opens a space of so many callers, 1 to 16, cut into regions: gz_space_open. IS_OPEN where it is open. */
    [[nodiscard]] gz_space_answer open(uint32_t callers, uint32_t regions = 1, uint32_t bits = 16) noexcept {
        if (last_.place_) return GZ_SPACE_IS_OPEN;
        gz_space_answer answer = last_.fill(
            [=](gz_space *handle) noexcept { return gz_space_open(callers, regions, bits, handle); });
        if (answer == GZ_SPACE_DONE) took_last_ = false;
        return answer;
    }

    /* Hands out a caller that wasn't taken, in `into`, which has to be closed; the space's own one comes last.
       NONE_LEFT when they are out, IS_CLOSED of a closed space, IS_OPEN of an open `into`, NO_MEMORY. */
    [[nodiscard]] gz_space_answer take_caller(caller &into) noexcept {
        if (into.place_) return GZ_SPACE_IS_OPEN;
        if (!last_.place_) return took_last_ ? GZ_SPACE_NONE_LEFT : GZ_SPACE_IS_CLOSED;
        gz_space_answer answer = last_.share(into);
        if (answer != GZ_SPACE_NONE_LEFT) return answer;
        took_last_ = true;
        into = std::move(last_);
        return GZ_SPACE_DONE;
    }

    /* Gives up the callers that weren't taken. DONE, or IS_CLOSED where it is closed or has none. */
    gz_space_answer close() noexcept {
        took_last_ = false;
        return last_.close();
    }

  private:
    caller last_; /* the one that all others are shared from, and that is taken last */
    bool took_last_ = false;
};

} // namespace gz

#endif
