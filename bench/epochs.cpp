// Peers of the epoch manager, each under the loop of `bench_objects`, on one cell that all threads share: its own atomic
// steps, on the same words, and liburcu's memb flavour.
//
//   epochs PEER OBJECTS WIDTH THREADS TIMES
//
// Each thread has a locale of so many objects, whose rows have so many words; a manager's shape isn't known before it is opened
// either. Prints the nanoseconds of a turn of the loop in one thread, from before the threads start until all have ended.
#include <array>
#include <atomic>
#include <chrono>
#include <cstdint>
#include <cstdio>
#include <cstdlib>
#include <functional>
#include <map>
#include <memory>
#include <string>
#include <thread>
#include <urcu/urcu-memb.h>
#include <vector>

constexpr std::uint64_t LINE = 8; // the words of a cache line
constexpr std::uint64_t TOKENS = 2; // of each locale
constexpr std::uint64_t PER_RECLAIM = 64;
constexpr std::uint64_t MOST_GATHERED = 32; // in a chain

// Keeps the compiler from leaving a load out.
inline void use(std::uint64_t value) { asm volatile("" : : "r"(value)); }

// A pointer is a locale, an index from 1 and a count of 32 bits; a header is a count and a state; a stack's head is a count and an
// index.
enum State : std::uint64_t { FREE, OWN, SHOWN };
constexpr std::uint64_t PENDING = ~0ull;
inline std::uint64_t pointer(std::uint64_t locale, std::uint64_t index, std::uint64_t count) {
    return locale << 56 | index << 32 | count;
}
inline std::uint64_t locale_of(std::uint64_t pointer) { return pointer >> 56; }
inline std::uint64_t index_of(std::uint64_t pointer) { return pointer >> 32 & 0xffffff; }
inline std::uint64_t count_of(std::uint64_t pointer) { return pointer & 0xffffffff; }

// How much there is, as a manager knows it: only when it is opened.
struct Sizes {
    std::uint32_t locales;
    std::uint64_t objects; // of each locale
    std::uint64_t width;   // words of a row
};

// The atomic steps of a manager's calls, where no caller stops in their midst: a token is one thread's, and has a locale of its own.
// All words stand in one table, as a manager's do: the two global ones, the locales', the tokens, the objects, and the cell, each word
// that one caller writes often on a line of its own.
class Steps {
  public:
    // A thread's own numbers: its locale, and where its token stands.
    struct Caller {
        std::uint32_t locale;
        std::uint64_t token, deferrals = 0;
    };

  private:
    using Word = std::atomic<std::uint64_t>;
    static constexpr std::uint64_t EPOCH = 0, ELECTION = LINE, LOCALES = 2 * LINE, LOCALE = 5 * LINE;
    // Released objects of one home locale, on their way there.
    struct Chain {
        std::uint64_t top = 0, tail = 0, many = 0;
    };
    Sizes sizes;
    std::uint64_t tokens, objects, cell, object_words, locale_words;
    std::unique_ptr<Word[]> words;

    Word &epoch(std::uint64_t locale) { return words[LOCALES + locale * LOCALE]; }
    Word &election(std::uint64_t locale) { return words[LOCALES + locale * LOCALE + LINE]; }
    Word &list(std::uint64_t locale, std::uint64_t number) { return words[LOCALES + locale * LOCALE + 2 * LINE + number]; }
    Word &free(std::uint64_t locale) { return words[LOCALES + locale * LOCALE + 3 * LINE]; }
    Word &home(std::uint64_t locale) { return words[LOCALES + locale * LOCALE + 4 * LINE]; }
    // The words of an object: its header, its next word and its row.
    Word *object(std::uint64_t locale, std::uint64_t index) {
        return &words[objects + locale * locale_words + (index - 1) * object_words];
    }
    Word *object(std::uint64_t pointer) { return object(locale_of(pointer), index_of(pointer)); }
    Word &header(std::uint64_t pointer) { return object(pointer)[0]; }
    Word &next(std::uint64_t pointer) { return object(pointer)[1]; }
    Word &row(std::uint64_t pointer, std::uint64_t at) { return object(pointer)[2 + at]; }

    std::uint64_t next_of(std::uint64_t pointer) {
        for (;;) {
            const std::uint64_t found = next(pointer).load();
            if (found != PENDING) return found;
        }
    }
    static std::uint64_t raised(std::uint64_t head, std::uint64_t index) { return ((head >> 24) + 1) << 24 | index; }

    // Off the stack of free objects. 0 where it is empty.
    std::uint64_t pop(std::uint64_t locale) {
        for (;;) {
            std::uint64_t head = free(locale).load();
            const std::uint64_t index = head & 0xffffff;
            if (index == 0) return 0;
            const std::uint64_t below = object(locale, index)[1].load();
            if (free(locale).compare_exchange_strong(head, raised(head, index_of(below)))) return pointer(locale, index, 0);
        }
    }
    // The first of those on their way home; the others go onto the stack. 0 where there are none.
    std::uint64_t take_home(std::uint64_t locale) {
        const std::uint64_t first = home(locale).exchange(0);
        if (first == 0) return 0;
        const std::uint64_t top = next_of(first);
        if (top == 0) return first;
        std::uint64_t tail = top;
        for (std::uint64_t after = next_of(tail); after != 0; after = next_of(after)) tail = after;
        for (;;) {
            std::uint64_t head = free(locale).load();
            next(tail).store((head & 0xffffff) == 0 ? 0 : pointer(locale, head & 0xffffff, 0));
            if (free(locale).compare_exchange_strong(head, raised(head, index_of(top)))) return first;
        }
    }
    std::uint64_t take(std::uint32_t locale) {
        std::uint64_t taken = pop(locale);
        if (taken == 0) taken = take_home(locale);
        if (taken == 0) return 0;
        Word &word = header(taken);
        std::uint64_t found = word.load();
        word.compare_exchange_strong(found, (found & ~3ull) | OWN);
        return pointer(locale, index_of(taken), found >> 2);
    }
    void hand_home(Chain &chain) {
        if (chain.many == 0) return;
        next(chain.tail).store(home(locale_of(chain.top)).exchange(chain.top));
        chain = Chain{};
    }
    void release(std::uint64_t head, std::vector<Chain> &chains) {
        while (head != 0) {
            const std::uint64_t after = next(head).load();
            const std::uint64_t count = count_of(head) + 1;
            header(head).store(count << 2 | FREE);
            Chain &chain = chains[locale_of(head)];
            next(head).store(chain.many == 0 ? PENDING : chain.top);
            chain.top = pointer(locale_of(head), index_of(head), count);
            if (chain.many == 0) chain.tail = chain.top;
            if (++chain.many == MOST_GATHERED) hand_home(chain);
            head = after;
        }
        for (Chain &chain : chains) hand_home(chain);
    }
    void leave(std::uint32_t locale, bool global) {
        if (global) words[ELECTION].store(0);
        election(locale).store(0);
    }
    void reclaim(std::uint32_t locale) {
        std::uint64_t nobody = 0;
        if (!election(locale).compare_exchange_strong(nobody, 1)) return;
        if (!words[ELECTION].compare_exchange_strong(nobody, 1)) return leave(locale, false);
        const std::uint64_t now = words[EPOCH].load();
        for (std::uint64_t at = 0; at < sizes.locales * TOKENS; ++at) {
            const std::uint64_t word = words[tokens + at * LINE].load();
            if (word > 1 && word != now + 2) return leave(locale, true);
        }
        words[EPOCH].store(now + 1);
        for (std::uint32_t at = 0; at < sizes.locales; ++at) epoch(at).store(now + 1);
        std::vector<Chain> chains(sizes.locales);
        for (std::uint32_t at = 0; at < sizes.locales; ++at) release(list(at, (now + 2) % 4).exchange(0), chains);
        leave(locale, true);
    }

  public:
    explicit Steps(Sizes sizes)
        : sizes(sizes), tokens(LOCALES + sizes.locales * LOCALE), objects(tokens + sizes.locales * TOKENS * LINE),
          cell(objects + sizes.locales * sizes.objects * (sizes.width + 2)), object_words(sizes.width + 2),
          locale_words(sizes.objects * object_words), words(new Word[cell + LINE]{}) {
        words[EPOCH].store(1);
        for (std::uint32_t locale = 0; locale < sizes.locales; ++locale) {
            epoch(locale).store(1);
            for (std::uint64_t index = 1; index < sizes.objects; ++index) object(locale, index)[1].store(pointer(locale, index + 1, 0));
            free(locale).store(1);
        }
        const std::uint64_t first = take(0);
        header(first).store(count_of(first) << 2 | SHOWN);
        words[cell].store(first);
    }
    Caller enter(std::uint32_t thread) {
        const Caller own{thread, tokens + thread * TOKENS * LINE};
        words[own.token].store(1);
        return own;
    }
    void exit(Caller &own) { words[own.token].store(0); }
    void read(Caller &own) {
        words[own.token].store(epoch(own.locale).load() + 2);
        use(row(words[cell].load(), 0).load());
        words[own.token].store(1);
    }
    void replace(Caller &own, std::uint64_t number) {
        std::uint64_t taken = take(own.locale);
        while (taken == 0) {
            reclaim(own.locale);
            taken = take(own.locale);
        }
        for (std::uint64_t at = 0; at < sizes.width; ++at) row(taken, at).store(number);
        words[own.token].store(epoch(own.locale).load() + 2);
        header(taken).store(count_of(taken) << 2 | SHOWN);
        const std::uint64_t old = words[cell].exchange(taken);
        Word &deferred = list(own.locale, epoch(own.locale).load() % 4);
        next(old).store(deferred.exchange(old));
        words[own.token].store(1);
        if (++own.deferrals % PER_RECLAIM == 0) reclaim(own.locale);
    }
};

// A row is replaced by another that stays, as what is measured is reading.
class Urcu {
    struct Row {
        std::array<std::uint64_t, 2> words;
    };
    Row row{};
    Row *cell = &row;

  public:
    struct Caller {};
    explicit Urcu(Sizes) {}
    Caller enter(std::uint32_t) {
        urcu_memb_register_thread();
        return Caller{};
    }
    void exit(Caller &) { urcu_memb_unregister_thread(); }
    void read(Caller &) {
        urcu_memb_read_lock();
        use(rcu_dereference(cell)->words[0]);
        urcu_memb_read_unlock();
    }
};

template <class Turn> double time_turns(std::uint32_t threads, std::uint64_t times, Turn turn) {
    std::vector<std::thread> others;
    const auto work = [&](std::uint32_t thread) { turn(thread, times); };
    const auto begin = std::chrono::steady_clock::now();
    for (std::uint32_t thread = 1; thread < threads; ++thread) others.emplace_back(work, thread);
    work(0);
    for (std::thread &other : others) other.join();
    const std::chrono::duration<double, std::nano> taken = std::chrono::steady_clock::now() - begin;
    return taken.count() / static_cast<double>(times);
}

template <class Peer> double time_reads(Sizes sizes, std::uint64_t times) {
    const auto peer = std::make_unique<Peer>(sizes);
    return time_turns(sizes.locales, times, [&](std::uint32_t thread, std::uint64_t many) {
        auto own = peer->enter(thread);
        for (std::uint64_t number = 0; number < many; ++number) peer->read(own);
        peer->exit(own);
    });
}

double time_replaces(Sizes sizes, std::uint64_t times) {
    const auto peer = std::make_unique<Steps>(sizes);
    return time_turns(sizes.locales, times, [&](std::uint32_t thread, std::uint64_t many) {
        auto own = peer->enter(thread);
        for (std::uint64_t number = 0; number < many; ++number) peer->replace(own, number);
        peer->exit(own);
    });
}

int main(int argc, char **argv) {
    const std::map<std::string, std::function<double(Sizes, std::uint64_t)>> peers = {
        {"read-steps", time_reads<Steps>},
        {"replace-steps", time_replaces},
        {"read-urcu", time_reads<Urcu>},
    };
    const auto peer = peers.find(argc == 6 ? argv[1] : "");
    if (peer == peers.end()) {
        std::fprintf(stderr, "epochs PEER OBJECTS WIDTH THREADS TIMES\n");
        return 2;
    }
    const auto number = [&](int at) { return std::strtoull(argv[at], nullptr, 10); };
    const Sizes sizes{static_cast<std::uint32_t>(number(4)), number(2), number(3)};
    std::printf("%.1f\n", peer->second(sizes, number(5)));
}
