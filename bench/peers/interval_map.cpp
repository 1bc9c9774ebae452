/* What one writes with Boost: its interval_map from numbers to the threads that hold them, under std::mutex. Who gives back
   wakes all that wait. Built where Debian's libboost-dev is. */
#include "peer.h"

#include <boost/icl/interval_map.hpp>
#include <condition_variable>
#include <mutex>
#include <set>

namespace {

using boost::icl::interval;
using threads = std::set<unsigned>; /* a writer by its number and MOST_THREADS */

std::mutex mutex;
std::condition_variable given_back;
boost::icl::interval_map<uint64_t, threads> held;

interval<uint64_t>::type numbers(uint64_t lo, uint64_t hi) { return interval<uint64_t>::right_open(lo, hi); }

bool is_free(uint64_t lo, uint64_t hi, bool writer) {
    const auto among = held.equal_range(numbers(lo, hi));
    for (auto at = among.first; at != among.second; ++at)
        if (writer || *at->second.rbegin() >= MOST_THREADS) return false;
    return true;
}

threads one(unsigned thread, bool writer) { return { writer ? thread + MOST_THREADS : thread }; }

void open_map(unsigned, uint64_t, unsigned) { held.clear(); }

void take(unsigned thread, uint64_t lo, uint64_t hi, bool writer) {
    std::unique_lock<std::mutex> lock(mutex);
    given_back.wait(lock, [=] { return is_free(lo, hi, writer); });
    held += std::make_pair(numbers(lo, hi), one(thread, writer));
}

void give_back(unsigned thread, uint64_t lo, uint64_t hi, bool writer) {
    {
        std::lock_guard<std::mutex> lock(mutex);
        held -= std::make_pair(numbers(lo, hi), one(thread, writer));
    }
    given_back.notify_all();
}

void close_map() {}

} // namespace

extern "C" const peer interval_map = { "mutex, interval_map", true, open_map, take, give_back, close_map };
