// A script of one round on a std::deque, or on a std::vector in place of a bag, behind one std::mutex: a std::thread for
// each caller makes its calls, and the replies are written as pgas writes them. It reads standard input, and takes the
// script to be good. Which caller is first is open, so two runs may differ.
#include <algorithm>
#include <deque>
#include <iostream>
#include <mutex>
#include <string>
#include <thread>
#include <vector>

using std::string;

enum class Kind { Add, PushBack, PushFront, Remove, PopBack, PopFront };

struct Call {
    Kind kind;
    unsigned long long item;
};

struct Reply {
    bool takes, well;
    unsigned long long item;
};

// Items behind a lock. A bag takes and gives at the end of a std::vector, a deque at either end.
template <class Items> class Locked {
    std::mutex lock;
    Items items;
    size_t capacity;

  public:
    explicit Locked(size_t most) : capacity(most) {}

    Reply make(const Call &call) {
        std::lock_guard<std::mutex> held(lock);
        if (call.kind < Kind::Remove) {
            if (items.size() == capacity) {
                return {false, false, 0};
            }
            if constexpr (std::is_same_v<Items, std::deque<unsigned long long>>) {
                if (call.kind == Kind::PushFront) {
                    items.push_front(call.item);
                    return {false, true, 0};
                }
            }
            items.push_back(call.item);
            return {false, true, 0};
        }
        if (items.empty()) {
            return {true, false, 0};
        }
        unsigned long long item;
        if constexpr (std::is_same_v<Items, std::deque<unsigned long long>>) {
            if (call.kind == Kind::PopFront) {
                item = items.front();
                items.pop_front();
                return {true, true, item};
            }
        }
        item = items.back();
        items.pop_back();
        return {true, true, item};
    }

    Items &left() { return items; }
};

template <class Items> int run(const std::vector<std::vector<Call>> &calls, size_t capacity, const char *added) {
    Locked<Items> object(capacity);
    std::vector<std::vector<Reply>> replies(calls.size());
    std::vector<std::thread> threads;
    for (size_t caller = 0; caller < calls.size(); caller++) {
        threads.emplace_back([&, caller] {
            replies[caller].reserve(calls[caller].size());
            for (const Call &call : calls[caller]) {
                replies[caller].push_back(object.make(call));
            }
        });
    }
    for (auto &thread : threads) {
        thread.join();
    }
    for (size_t caller = 0; caller < calls.size(); caller++) {
        std::cout << "caller " << caller << '\n';
        for (const Reply &reply : replies[caller]) {
            if (!reply.takes) {
                std::cout << (reply.well ? added : "full") << '\n';
            } else if (reply.well) {
                std::cout << "took " << reply.item << '\n';
            } else {
                std::cout << "empty\n";
            }
        }
    }
    Items &left = object.left();
    if constexpr (std::is_same_v<Items, std::vector<unsigned long long>>) {
        std::sort(left.begin(), left.end());
    }
    std::cout << "left";
    for (auto item : left) {
        std::cout << ' ' << item;
    }
    std::cout << '\n';
    return 0;
}

int main() {
    std::ios::sync_with_stdio(false);
    std::cin.tie(nullptr);
    string word, object;
    size_t numbers[3] = {1, 1, 1}, callers = 1, caller = 0;
    std::cin >> word >> word >> word >> object;
    for (int k = 0; k < (object == "bag" ? 3 : 2); k++) {
        std::cin >> numbers[k];
    }
    std::cin >> word >> callers;
    std::vector<std::vector<Call>> calls(callers);
    const std::pair<const char *, Kind> names[] = {{"add", Kind::Add},       {"push_back", Kind::PushBack},
                                                   {"push_front", Kind::PushFront}, {"remove", Kind::Remove},
                                                   {"pop_back", Kind::PopBack},   {"pop_front", Kind::PopFront}};
    while (std::cin >> word && word != "end") {
        if (word == "caller") {
            std::cin >> caller;
            continue;
        }
        for (auto [name, kind] : names) {
            if (word == name) {
                unsigned long long item = 0;
                if (kind < Kind::Remove) {
                    std::cin >> item;
                }
                calls[caller].push_back({kind, item});
                break;
            }
        }
    }
    return object == "bag" ? run<std::vector<unsigned long long>>(calls, numbers[0] * numbers[1] * numbers[2], "added")
                           : run<std::deque<unsigned long long>>(calls, numbers[1], "pushed");
}
