// The peers of the shared deque and the shared bag, each under the loop of `bench_objects`: so many threads, each of
// which makes so many pairs of calls, one that puts an item in and one that takes one out.
//
//   objects PEER THREADS PAIRS
//
// Prints the nanoseconds of a call of one thread, from before the threads start until all have ended.
#include <atomic>
#include <chrono>
#include <concurrentqueue.h>
#include <cstdint>
#include <cstdio>
#include <cstdlib>
#include <deque>
#include <functional>
#include <map>
#include <memory>
#include <mutex>
#include <string>
#include <tbb/concurrent_queue.h>
#include <thread>
#include <vector>

using Word = std::atomic<std::uint64_t>;

constexpr std::size_t LINE = 64;
constexpr std::uint32_t CAPACITY = 1024; // of the deque
constexpr std::uint32_t SEGMENTS = 4;    // of the bag, in each locale
constexpr std::uint32_t ROOM = 1024;     // of a segment

// Takes the oldest item of a deque, and the newest of a vector.
inline void take_one(std::deque<std::uint64_t> &items) { items.pop_front(); }
inline void take_one(std::vector<std::uint64_t> &items) { items.pop_back(); }

// One mutex round a collection.
template <class Items> class Locked {
    std::mutex mutex;
    Items items;

  public:
    explicit Locked(std::uint32_t = 0) {}
    void put(std::uint32_t, std::uint64_t item) {
        std::lock_guard<std::mutex> guard(mutex);
        items.push_back(item);
    }
    bool take(std::uint32_t) {
        std::lock_guard<std::mutex> guard(mutex);
        if (items.empty()) return false;
        take_one(items);
        return true;
    }
};
using LockedDeque = Locked<std::deque<std::uint64_t>>;
using LockedVector = Locked<std::vector<std::uint64_t>>;

// A mutex and a vector for each thread, on cache lines of their own. Nobody takes another's items.
class OwnVectors {
    struct alignas(2 * LINE) Own : LockedVector {};
    std::unique_ptr<Own[]> owns;

  public:
    explicit OwnVectors(std::uint32_t threads) : owns(new Own[threads]) {}
    void put(std::uint32_t thread, std::uint64_t item) { owns[thread].put(thread, item); }
    bool take(std::uint32_t thread) { return owns[thread].take(thread); }
};

class TbbQueue {
    tbb::concurrent_queue<std::uint64_t> items;

  public:
    explicit TbbQueue(std::uint32_t) {}
    void put(std::uint32_t, std::uint64_t item) { items.push(item); }
    bool take(std::uint32_t) {
        std::uint64_t item;
        return items.try_pop(item);
    }
};

// A queue that keeps an order for each thread alone.
class MoodyQueue {
    moodycamel::ConcurrentQueue<std::uint64_t> items;

  public:
    explicit MoodyQueue(std::uint32_t) {}
    void put(std::uint32_t, std::uint64_t item) { items.enqueue(item); }
    bool take(std::uint32_t) {
        std::uint64_t item;
        return items.try_dequeue(item);
    }
};

// Exchanges the word, and gives what it found.
inline std::uint64_t exchange(Word &word, std::uint64_t from, std::uint64_t to) {
    word.compare_exchange_strong(from, to);
    return from;
}

enum class Reply { Done, Refused, Busy };

// The atomic steps of the shared deque, on the same words: the ends, and a turn and a value for each cell.
class DequeSteps {
    std::uint64_t cells = CAPACITY;
    std::unique_ptr<Word[]> words{new Word[2 * CAPACITY + 1]()};

    std::uint64_t wrap(std::uint64_t place) const { return place < cells ? place : place % cells; }

  public:
    explicit DequeSteps(std::uint32_t) {}
    Reply try_put(std::uint32_t caller, std::uint64_t item) {
        const std::uint64_t ends = words[0].load();
        const std::uint64_t head = ends >> 32, size = ends & 0xffffffff;
        if (size == cells) return Reply::Refused;
        const std::uint64_t cell = wrap(head + size);
        Word &turn = words[2 * cell + 1];
        if (exchange(turn, 0, caller + 1) != 0) return Reply::Busy;
        if (exchange(words[0], ends, ends + 1) != ends) {
            turn.store(0);
            return Reply::Busy;
        }
        words[2 * cell + 2].store(item);
        turn.store(0);
        return Reply::Done;
    }
    Reply try_take(std::uint32_t caller) {
        const std::uint64_t ends = words[0].load();
        const std::uint64_t head = ends >> 32, size = ends & 0xffffffff;
        if (size == 0) return Reply::Refused;
        Word &turn = words[2 * head + 1];
        if (exchange(turn, 0, caller + 1) != 0) return Reply::Busy;
        words[2 * head + 2].load();
        const std::uint64_t next = wrap(head + 1) << 32 | (size - 1);
        const std::uint64_t found = exchange(words[0], ends, next);
        turn.store(0);
        return found == ends ? Reply::Done : Reply::Busy;
    }
};

// The atomic steps of the shared bag, each turn and each segment on cache lines of its own: the count, which all
// callers share, a turn for each segment, and a segment that is moved out of its place and back.
class BagSteps {
    using Segment = std::vector<std::uint64_t>;
    struct alignas(2 * LINE) Place {
        Word turn{0};
        alignas(LINE) Segment segment;
    };
    struct alignas(2 * LINE) Count {
        Word word{0};
    };
    std::uint32_t threads;
    std::unique_ptr<Place[]> places;
    Count count;

  public:
    explicit BagSteps(std::uint32_t threads) : threads(threads), places(new Place[threads * SEGMENTS]) {}
    Reply try_put(std::uint32_t caller, std::uint64_t item) {
        Reply reply = Reply::Refused;
        for (std::uint32_t number = 0; number < SEGMENTS; ++number) {
            Place &place = places[caller * SEGMENTS + number];
            if (exchange(place.turn, 0, caller + 1) != 0) {
                reply = Reply::Busy;
                continue;
            }
            Segment moved = std::move(place.segment);
            const bool room = moved.size() < ROOM;
            if (room) {
                moved.push_back(item);
                count.word.fetch_add(1);
            }
            place.segment = std::move(moved);
            place.turn.store(0);
            if (room) return Reply::Done;
        }
        return reply;
    }
    Reply try_take(std::uint32_t caller) {
        if (count.word.load() == 0) return Reply::Refused;
        for (std::uint32_t number = 0; number < threads * SEGMENTS; ++number) {
            const std::uint32_t at = caller * SEGMENTS + number;
            Place &place = places[at < threads * SEGMENTS ? at : at - threads * SEGMENTS];
            if (exchange(place.turn, 0, caller + 1) != 0) continue;
            Segment moved = std::move(place.segment);
            const bool some = !moved.empty();
            if (some) {
                moved.pop_back();
                count.word.fetch_sub(1);
            }
            place.segment = std::move(moved);
            place.turn.store(0);
            if (some) return Reply::Done;
        }
        return count.word.load() == 0 ? Reply::Refused : Reply::Busy;
    }
};

// One try of each call.
template <class Steps> class Trying : Steps {
  public:
    using Steps::Steps;
    void put(std::uint32_t caller, std::uint64_t item) { Steps::try_put(caller, item); }
    bool take(std::uint32_t caller) { return Steps::try_take(caller) == Reply::Done; }
};

// Gives the processor up, each time twice as often, at most so many times.
class Pause {
    static constexpr int MOST_YIELDS = 64;
    int yields = 1;

  public:
    void wait() {
        for (int number = 0; number < yields; ++number) std::this_thread::yield();
        if (yields < MOST_YIELDS) yields *= 2;
    }
};

// Repeats a try while it is busy, with a pause before each further one.
template <class Steps> class Waiting : Steps {
  public:
    using Steps::Steps;
    void put(std::uint32_t caller, std::uint64_t item) {
        for (Pause pause; Steps::try_put(caller, item) == Reply::Busy;) pause.wait();
    }
    bool take(std::uint32_t caller) {
        for (Pause pause;;) {
            const Reply reply = Steps::try_take(caller);
            if (reply != Reply::Busy) return reply == Reply::Done;
            pause.wait();
        }
    }
};

template <class Peer> double time_pairs(std::uint32_t threads, std::uint64_t pairs) {
    const auto peer = std::make_unique<Peer>(threads);
    std::vector<std::thread> others;
    const auto work = [&peer = *peer, pairs](std::uint32_t thread) {
        for (std::uint64_t number = 0; number < pairs; ++number) {
            peer.put(thread, number);
            peer.take(thread);
        }
    };
    const auto begin = std::chrono::steady_clock::now();
    for (std::uint32_t thread = 1; thread < threads; ++thread) others.emplace_back(work, thread);
    work(0);
    for (std::thread &other : others) other.join();
    const std::chrono::duration<double, std::nano> taken = std::chrono::steady_clock::now() - begin;
    return taken.count() / (2.0 * static_cast<double>(pairs));
}

int main(int argc, char **argv) {
    const std::map<std::string, std::function<double(std::uint32_t, std::uint64_t)>> peers = {
        {"locked-deque", time_pairs<LockedDeque>},
        {"locked-vector", time_pairs<LockedVector>},
        {"own-vectors", time_pairs<OwnVectors>},
        {"tbb", time_pairs<TbbQueue>},
        {"moodycamel", time_pairs<MoodyQueue>},
        {"deque-try", time_pairs<Trying<DequeSteps>>},
        {"deque-wait", time_pairs<Waiting<DequeSteps>>},
        {"bag-try", time_pairs<Trying<BagSteps>>},
        {"bag-wait", time_pairs<Waiting<BagSteps>>},
    };
    const auto peer = peers.find(argc == 4 ? argv[1] : "");
    if (peer == peers.end()) {
        std::fprintf(stderr, "objects PEER THREADS PAIRS\n");
        return 2;
    }
    const auto threads = static_cast<std::uint32_t>(std::strtoul(argv[2], nullptr, 10));
    const std::uint64_t pairs = std::strtoull(argv[3], nullptr, 10);
    std::printf("%.1f\n", peer->second(threads, pairs));
}
