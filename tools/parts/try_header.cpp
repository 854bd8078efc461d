// Each call of pafteis.hpp once: what it answers, what it throws, and what becomes of a world that
// is moved. tools/try library runs it on a set with its schedule, a refused set and a faulty text.
#include "pafteis.hpp"

#include <cstdio>
#include <fstream>
#include <iterator>

using namespace pafteis;

static int calls, wrong;

static void want(bool right, const char *told) {
    calls++;
    if (!right)
        std::printf("%s: otherwise\n", told), wrong++;
}

static std::string content(const char *name) {
    std::ifstream file(name, std::ios::binary);
    return {std::istreambuf_iterator<char>(file), std::istreambuf_iterator<char>()};
}

static bool has(const std::string &text, const char *part) {
    return text.find(part) != std::string::npos;
}

// What a call throws: its status, and what it tells.
template <typename Call> static error thrown(Call call) {
    try {
        call();
    } catch (const error &fault) {
        return fault;
    }
    return error(PAFTEIS_DONE, "nothing");
}

static void words(const std::string &set, const std::string &events, const std::string &refused) {
    answer lines = trace(set, events, PAFTEIS_CHECKED);
    want(lines.done && lines.text.substr(0, 2) == "0 ", "trace");
    want(has(tell(set, events, PAFTEIS_CHECKED).text, "nothing is amiss"), "tell");
    want(draw(set, events, PAFTEIS_CHECKED).text.substr(0, 5) == "<?xml", "draw");
    want(explain(set, PAFTEIS_FIRST).done && !explain(refused, PAFTEIS_EACH).done, "explain");
    want(list(set).text.substr(0, 7) == "driver ", "list");
    const pafteis_hunting asked = {1, 1000, 0, 0, 2, 0};
    want(hunt(set, &asked).done, "hunt");
    want(mend(set, PAFTEIS_USUAL_TRIES).done, "mend");
    want(put(pafteis_name_of, PAFTEIS_NAME_OF_RULE, 11) == "V11 Guard", "put");
    want(check(set).rule == 0 && check(refused).rule != 0, "check");
    want(!trace(refused, events, PAFTEIS_CHECKED).done, "trace of a refused set");
}

static void faults(const std::string &refused, const std::string &faulty) {
    error fault = thrown([&] { check(faulty); });
    want(fault.status == PAFTEIS_FAULTY && fault.verdict.text_fault != 0, "check of a fault");
    fault = thrown([&] { list(faulty); });
    want(fault.status == PAFTEIS_FAULTY && has(fault.what(), "line"), "list of a fault");
    fault = thrown([&] { world(refused, 2); });
    want(fault.status == PAFTEIS_REFUSED && fault.verdict.rule != 0, "a world of a refused set");
    want(thrown([&] { put(pafteis_name_of, 99, 0); }).status == PAFTEIS_WRONG_ARGUMENT, "put");
}

static void worlds(const std::string &set) {
    world first(set, 2);
    want(thrown([&] { first.apply(pafteis_event{}); }).status == PAFTEIS_WRONG_ARGUMENT, "apply");
    want(first.issue(0, 0, PAFTEIS_READ, 7).kind == PAFTEIS_STARTED, "issue");
    want(first.look<pafteis_thread>(pafteis_world_thread, 0).frames == 1, "look at a thread");
    want(!first.look<pafteis_owner>(pafteis_world_lock, 0, 0).owned, "look at a lock");
    uint64_t slot = first.look<pafteis_words>(pafteis_world_words, 0).words[0];
    want(first.look<uint64_t>(pafteis_world_number, slot) == 0, "look at a register");
    world moved(std::move(first));
    want(thrown([&] { first.step(0); }).status == PAFTEIS_NO_WORLD, "step of a moved world");
    std::vector<pafteis_reply> replies = moved.apply({{0, 0, PAFTEIS_STEP, 0, 0, 0, 0},
                                                      {0, 0, PAFTEIS_STEP, 1, 0, 0, 0}});
    want(replies.size() == 2 && replies[0].kind == PAFTEIS_STEPPED, "a batch");
    want(replies[1].kind == PAFTEIS_IDLE, "the second of a batch");
    world another(moved, 1);
    want(another.step(0).kind == PAFTEIS_IDLE, "another world");
    another = std::move(moved);
    want(another.step(0).kind != PAFTEIS_IDLE, "an assigned world");
    another.reset(1);
    want(another.step(0).kind == PAFTEIS_IDLE, "a world begun anew");
    want(thrown([&] { another.reset(0); }).status == PAFTEIS_WRONG_ARGUMENT, "reset");
}

int main(int, char **names) {
    std::string set = content(names[1]), refused = content(names[3]);
    words(set, content(names[2]), refused);
    faults(refused, content(names[2]));
    worlds(set);
    std::printf("%d tried, %d wrong\n", calls, wrong);
    return wrong > 0;
}
