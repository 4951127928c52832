// A program in C++: a group of the library, a pool of sflight_do.h with a lambda that loads, and a cache of
// sflight_cache.h with functions that are declared to throw nothing.
#include "sflight.h"
#include "sflight_cache.h"
#include "sflight_do.h"
#include <cstdint>
#include <cstdio>
#include <string>
#include <thread>
#include <type_traits>
#include <vector>

static const std::uint8_t *bytes(const std::string &key) {
    return reinterpret_cast<const std::uint8_t *>(key.data());
}

static bool by_the_library() {
    sflight_handle one = SFLIGHT_HANDLE_NONE, other = SFLIGHT_HANDLE_NONE;
    sflight_call leader = SFLIGHT_CALL_NONE, joiner = SFLIGHT_CALL_NONE;
    const std::string key(70000, 'k');
    sflight_id led, joined;
    sflight_stamp stamp;
    sflight_audience audience;
    std::uint64_t value = 0, last = 0;
    bool holds = sflight_open(&one, 16, 1, 2) == SFLIGHT_DONE;
    holds = holds && sflight_split(&one, &other) == SFLIGHT_DONE;
    holds = holds && sflight_make(&one, &leader) == SFLIGHT_DONE && sflight_make(&other, &joiner) == SFLIGHT_DONE;
    holds = holds && sflight_ask(&one, &leader, bytes(key), key.size(), 64, &led, &stamp) == SFLIGHT_LED;
    holds = holds && sflight_ask(&other, &joiner, bytes(key), key.size(), 64, &joined, &stamp) == SFLIGHT_JOINED;
    holds = holds && led.generation == joined.generation && led.cell == joined.cell;
    holds = holds && sflight_settle(&one, &leader, 7, &audience) == SFLIGHT_TOLD && audience.holders == 2;
    holds = holds && sflight_look(&other, &joiner, &value) == SFLIGHT_DONE && value == 7;
    holds = holds && sflight_leave(&one, &leader, &last) == SFLIGHT_DONE;
    holds = holds && sflight_leave(&other, &joiner, &last) == SFLIGHT_LAST && last == 7;
    holds = holds && sflight_is_still(&other, &stamp);
    holds = holds && sflight_free(&leader) == SFLIGHT_DONE && sflight_free(&joiner) == SFLIGHT_DONE;
    sflight_close(&other);
    sflight_close(&one);
    one = SFLIGHT_HANDLE_NONE;
    return holds;
}

static bool by_a_pool() {
    sflight_pool *pool = sflight_do_open(0, nullptr);
    if (!pool) return false;
    std::vector<std::thread> threads;
    std::vector<int> well(4);
    for (auto &one : well) {
        threads.emplace_back([pool, &one] {
            const std::string key = "user-7";
            auto load = [](void *, const std::uint8_t *, std::size_t len) noexcept -> std::uint64_t {
                return len;
            };
            sflight_got got;
            int code = sflight_do(pool, bytes(key), key.size(), load, nullptr, SFLIGHT_DO_FOREVER,
                                  &got);
            one = code == SFLIGHT_DO_DONE && got.value == key.size();
        });
    }
    for (auto &thread : threads) thread.join();
    sflight_do_close(pool);
    return well == std::vector<int>(4, 1);
}

#if __cplusplus >= 201703L
// A load that may throw would shut its key for good, so it does not compile.
using throws = std::uint64_t (*)(void *, const std::uint8_t *, std::size_t);
static_assert(!std::is_convertible<throws, sflight_load *>::value, "a load throws nothing");
using keeps = void (*)(void *, const std::uint8_t *, std::size_t, std::uint64_t, const sflight_do_stamp *);
static_assert(!std::is_convertible<keeps, sflight_keep *>::value, "a cache that keeps throws nothing");
using writes = int (*)(void *, const char *, std::size_t);
static_assert(!std::is_convertible<writes, sflight_write *>::value, "a writer throws nothing");
using gets = int (*)(void *, const std::uint8_t *, std::size_t, sflight_cache_loaded *);
static_assert(!std::is_convertible<gets, sflight_cache_load *>::value, "a load throws nothing");
using drops = void (*)(void *, void *);
static_assert(!std::is_convertible<drops, decltype(sflight_cache_options::drop)>::value,
              "a drop function throws nothing");
using shares = void (*)(std::uint64_t, std::uint32_t);
static_assert(!std::is_invocable<decltype(sflight_do_open), std::uint32_t, shares>::value,
              "a share function throws nothing");
#endif

static bool by_a_cache() {
    sflight_cache_options options = {};
    options.limit = 10;
    options.entries = 10;
    options.load = [](void *, const std::uint8_t *key, std::size_t len,
                      sflight_cache_loaded *loaded) noexcept -> int {
        loaded->value = new std::string(reinterpret_cast<const char *>(key), len);
        return SFLIGHT_CACHE_LOADED;
    };
    options.drop = [](void *, void *value) noexcept { delete static_cast<std::string *>(value); };
    sflight_cache *cache = sflight_cache_open(&options);
    if (!cache) return false;
    const std::string key = "user-7";
    bool holds = true;
    for (int want : {SFLIGHT_CACHE_LOADED, SFLIGHT_CACHE_HIT}) {
        sflight_value value;
        holds = holds && sflight_cache_get(cache, bytes(key), key.size(), &value) == want;
        holds = holds && *static_cast<std::string *>(value.at) == key;
        sflight_cache_release(cache, &value);
    }
    sflight_cache_close(cache);
    return holds;
}

int main() {
    bool holds = by_the_library() && by_a_pool() && by_a_cache();
    holds = holds && std::string(sflight_version()) == SFLIGHT_VERSION;
    std::puts(holds ? "well" : "FAILED");
    return holds ? 0 : 1;
}
