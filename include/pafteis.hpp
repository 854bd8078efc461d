// Pafteis for C++17 and later: the calls of pafteis.h with strings, exceptions, and worlds that
// free themselves. What each call takes and answers is said there.
#pragma once
#include "pafteis.h"

#include <stdexcept>
#include <string>
#include <string_view>
#include <utility>
#include <vector>

namespace pafteis {
// What is thrown where nothing is answered: the call's status, and the verdict on a set that is
// refused or faulty. `what` is the fault in the program's words where a command tells one.
struct error : std::runtime_error {
    uint32_t status;
    pafteis_verdict verdict;
    error(uint32_t status, const std::string &told, const pafteis_verdict &verdict = {})
        : std::runtime_error(told), status(status), verdict(verdict) {}
};
inline void expect(uint32_t status, const pafteis_verdict &verdict = {}) {
    if (status != PAFTEIS_DONE)
        throw error(status, "pafteis: status " + std::to_string(status), verdict);
}

// A handle of the library, which is freed where this ends. It can be moved, and not copied.
template <typename Handle, auto Free> struct owned {
    Handle handle{};
    owned() = default;
    owned(owned &&other) noexcept : handle(std::exchange(other.handle, Handle{})) {}
    owned &operator=(owned other) noexcept { return std::swap(handle, other.handle), *this; }
    ~owned() { Free(&handle); }
};

inline auto bytes(std::string_view text) { return reinterpret_cast<const uint8_t *>(text.data()); }
inline auto bytes(std::string &text) { return reinterpret_cast<uint8_t *>(text.data()); }
// What a command writes, and whether its exit status is 0. The library makes it once.
struct answer { std::string text; bool done; };
template <auto Call, typename... Words> answer command(std::string_view set, Words... words) {
    owned<pafteis_answer, pafteis_answer_free> made;
    size_t length = 0;
    uint32_t status = Call(bytes(set), set.size(), words..., &made.handle, &length);
    std::string text(length, '\0');
    pafteis_answer_read(&made.handle, 0, bytes(text), length, &length);
    if (status >= PAFTEIS_FAULTY)
        throw error(status, text);
    return {std::move(text), status == PAFTEIS_DONE};
}
template <auto Call> answer run(std::string_view set, std::string_view events, uint32_t flags) {
    return command<Call>(set, bytes(events), events.size(), flags);
}
inline constexpr auto explain = command<pafteis_answer_explain, uint32_t>;
inline constexpr auto trace = run<pafteis_answer_trace>;
inline constexpr auto tell = run<pafteis_answer_tell>;
inline constexpr auto draw = run<pafteis_answer_draw>;
inline constexpr auto hunt = command<pafteis_answer_hunt, const pafteis_hunting *>;
inline constexpr auto mend = command<pafteis_answer_mend, uint64_t>;
inline constexpr auto list = command<pafteis_answer_list>;

// What a call puts into a buffer: put(pafteis_name_of, PAFTEIS_NAME_OF_RULE, 11).
template <typename Call, typename... Words> std::string put(Call call, Words... words) {
    size_t length = 0;
    expect(call(words..., nullptr, 0, &length));
    std::string text(length, '\0');
    expect(call(words..., bytes(text), length, &length));
    return text;
}
// The verdict: its rule is 0 where the set is accepted.
inline pafteis_verdict check(std::string_view set) {
    pafteis_verdict verdict;
    uint32_t status = pafteis_check(bytes(set), set.size(), &verdict);
    expect(status == PAFTEIS_REFUSED ? 0 : status, verdict);
    return verdict;
}

// The world of an accepted set, or another of a world's set. Calls of C take it as &world.handle.
struct world : owned<pafteis_world, pafteis_world_free> {
    world(std::string_view set, uint8_t threads) {
        pafteis_verdict verdict;
        expect(pafteis_world_new(bytes(set), set.size(), threads, &handle, &verdict), verdict);
    }
    world(const world &of, uint8_t threads) {
        expect(pafteis_world_another(&of.handle, threads, &handle));
    }
    void reset(uint8_t threads) { expect(pafteis_world_reset(&handle, threads)); }
    pafteis_reply apply(const pafteis_event &event) {
        pafteis_reply reply;
        expect(pafteis_world_apply(&handle, &event, &reply));
        return reply;
    }
    // A reply for each event. Where one names none, those before it are applied, and it throws.
    std::vector<pafteis_reply> apply(const std::vector<pafteis_event> &events) {
        std::vector<pafteis_reply> replies(events.size());
        size_t n = events.size();
        expect(pafteis_world_apply_all(&handle, events.data(), n, replies.data(), n, &n));
        return replies;
    }
    pafteis_reply issue(uint8_t thread, uint8_t device, uint8_t major, uint64_t argument) {
        return apply({0, argument, PAFTEIS_ISSUE, thread, device, major, 0});
    }
    pafteis_reply step(uint8_t thread) { return apply({0, 0, PAFTEIS_STEP, thread, 0, 0, 0}); }
    // What a call tells of it: look<pafteis_thread>(pafteis_world_thread, 0).
    template <typename Found, typename Call, typename... Numbers>
    Found look(Call call, Numbers... numbers) const {
        Found found;
        expect(call(&handle, numbers..., &found));
        return found;
    }
};
} // namespace pafteis
