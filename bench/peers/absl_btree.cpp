/* What one writes with Abseil: a B-tree of the ranges that are held, by their lowest number, under absl::Mutex, which wakes
   a thread that waits when no range in conflict is in the tree. Built where Debian's libabsl-dev is. */
#include "peer.h"

#include <absl/container/btree_map.h>
#include <absl/synchronization/mutex.h>
#include <utility>

namespace {

struct range {
    uint64_t hi;
    bool writer;
};

absl::Mutex mutex;
absl::btree_map<std::pair<uint64_t, unsigned>, range> held; /* by the lowest number and the thread */

struct asked {
    uint64_t lo, hi;
    bool writer;
    bool is_free() const {
        for (const auto &[place, other] : held) {
            if (place.first >= hi) break;
            if (other.hi > lo && (writer || other.writer)) return false;
        }
        return true;
    }
};

void open_map(unsigned, uint64_t, unsigned) { held.clear(); }

void take(unsigned thread, uint64_t lo, uint64_t hi, bool writer) {
    const asked mine = { lo, hi, writer };
    mutex.LockWhen(absl::Condition(&mine, &asked::is_free));
    held[{ lo, thread }] = { hi, writer };
    mutex.Unlock();
}

void give_back(unsigned thread, uint64_t lo, uint64_t, bool) {
    mutex.Lock();
    held.erase({ lo, thread });
    mutex.Unlock();
}

void close_map() {}

} // namespace

extern "C" const peer absl_btree = { "absl::Mutex, B-tree", true, open_map, take, give_back, close_map };
