/* Cases that the records of the watch must meet: equal answers say nothing of one that none met. */
#ifndef CASES_H
#define CASES_H

#include <algorithm>

#include "feed.h"

class Cases {
public:
    void count(const Call &call)
    {
        const watch_call &given = call.watched;
        switch (call.kind) {
        case FRESH:
            at = &of[FRESH];
            place = 0;
            met("a count", given.state.count > 0);
            met("gains", std::any_of(given.state.gains, given.state.gains + GAINS,
                                     [](int16_t gain) { return gain != 0; }));
            run = 0;
            break;
        case WATCH:
            run = UNKNOWN;
            break;
        case SPECTRUM: spectrum(given); break;
        case LIMIT: limit(given); break;
        case COMMIT: commit(given); break;
        default: break;
        }
    }

    void print(std::ostream &out, const std::string &feed) const
    {
        for (int kind = 0; kind < KINDS; kind++)
            for (auto &[name, count] : of[kind])
                out << "case\t" << feed << '\t' << NAMES[kind] << '\t' << name << '\t' << count
                    << '\n';
    }

private:
    struct Case {
        std::string name;
        long count;
    };

    static const long UNKNOWN = -1;

    std::vector<Case> of[KINDS], *at = nullptr;
    size_t place = 0;
    /* So many spectra with a gap below its bound came one after the other. */
    long run = 0;

    /* Every record of a kind asks for the same cases in the same order. */
    void met(const std::string &name, bool is)
    {
        if (place == at->size())
            at->push_back({name, 0});
        (*at)[place++].count += is;
    }

    static int clipped(int value)
    {
        return std::clamp(value, -32768, 32767);
    }

    void spectrum(const watch_call &given)
    {
        static const std::string PLACES[] = {"", "second", "third", "fourth", "fifth", "sixth",
                                             "seventh", "eighth"};
        static const struct {
            int second, from, to;
            const char *name;
        } SECONDS[] = {
            {30500, 800, 1100, "the second value 30500, a lower gap from 800 to 1099 decides"},
            {30501, 800, 1100, "the second value 30501, a lower gap from 800 to 1099, none below"},
            {32000, 600, 800, "the second value 32000, a lower gap from 600 to 799 decides"},
            {32001, 600, 800, "the second value 32001, a lower gap from 600 to 799, none below"},
        };
        const int16_t *words = given.spectrum;
        int second = words[1], threshold = second > 32000 ? 600 : second > 30500 ? 800 : 1100;
        auto exact = [&](int i) { return words[i] - words[i + 1]; };
        auto bound = [&](int i) { return i < 3 ? threshold : 1500; };
        int least[2] = {32767, 32767}, below = 0;
        bool unordered = false;
        for (int i = 1; i < 8; i++) {
            least[i >= 3] = std::min(least[i >= 3], clipped(exact(i)));
            below += clipped(exact(i)) < bound(i);
            unordered |= exact(i) < 0;
        }
        auto [lower, upper] = least;
        bool near[2] = {lower < threshold, upper < 1500};

        at = &of[SPECTRUM];
        place = 0;
        for (int value : {1499, 1500, 1501})
            met("the least upper gap " + std::to_string(value) + ", no lower one below",
                upper == value && !near[0]);
        for (int other : {600, 800, 1100})
            for (int value : {other - 1, other, other + 1})
                met("the least lower gap " + std::to_string(value) + ", the threshold "
                        + std::to_string(other) + ", no upper one below",
                    lower == value && threshold == other && !near[1]);
        for (auto &asked : SECONDS)
            met(asked.name, second == asked.second && lower >= asked.from && lower < asked.to
                                && !near[1]);
        for (int i = 1; i < 8; i++)
            met("the " + PLACES[i] + " value's gap alone below",
                below == 1 && clipped(exact(i)) < bound(i));
        met("the first value's gap below 600, no other", below == 0 && exact(0) < 600);
        met("the ninth value's gap below 600, no other", below == 0 && exact(8) < 600);
        for (bool up : {false, true}) {
            std::string name = up ? "an upper gap" : "a lower gap";
            auto any = [&](auto condition) {
                for (int i = up ? 3 : 1; i < (up ? 8 : 3); i++)
                    if (condition(exact(i)))
                        return true;
                return false;
            };
            met(name + " clipped to 32767, none below",
                below == 0 && any([](int gap) { return gap > 32767; }));
            met(name + " clipped to -32768, it alone below",
                below == 1 && any([](int gap) { return gap < -32768; }));
        }
        met("words out of order", unordered);

        int count = given.state.count;
        met("a gap below, the count 0", below && count == 0);
        met("a gap below, the count 10", below && count == 10);
        met("a gap below, the count 11", below && count == 11);
        met("a gap below, the count 12", below && count == 12);
        met("a gap below, the count above 12", below && count > 12);
        met("a gap below, the count 255", below && count == 255);
        met("none below, the count 11", !below && count == 11);
        met("none below, the count 12", !below && count == 12);
        met("none below, the count above 12", !below && count > 12);
        for (int length : {1, 11, 12, 13})
            met("a run of " + std::to_string(length) + " ends", !below && run == length);
        run = !below ? 0 : run == UNKNOWN ? UNKNOWN : run + 1;
    }

    void limit(const watch_call &given)
    {
        const int16_t *gains = given.state.gains;
        int gain = given.gain, eighth = gain >> 3, sum = eighth, all = eighth;
        bool above = false, under = false;
        for (int i = 0; i < GAINS; i++) {
            above |= sum + gains[i] > 32767;
            under |= sum + gains[i] < -32768;
            sum = clipped(sum + gains[i]);
            all += gains[i];
        }
        int last = 0, turned = eighth;
        for (int i = 0; i < GAINS; i++) {
            last = clipped(last + gains[i]);
            turned = clipped(turned + gains[GAINS - 1 - i]);
        }
        last = clipped(last + eighth);
        bool resonant = given.state.resonant, asked = resonant && gain > 15565;

        at = &of[LIMIT];
        place = 0;
        for (int value : {15564, 15565, 15566})
            met("the sum " + std::to_string(value) + ", all else for the limit",
                sum == value && asked);
        for (int value : {15564, 15565, 15566})
            met("the gain " + std::to_string(value) + ", all else for the limit",
                gain == value && resonant && sum > 15565);
        met("not resonant, all else for the limit", !resonant && gain > 15565 && sum > 15565);
        met("the count above 12, the limit", asked && given.state.count > 12 && sum > 15565);
        met("the sum clipped at 32767, the limit", asked && above && sum > 15565);
        met("the sum clipped at 32767, then not above 15565", asked && above && sum <= 15565);
        met("the sum clipped at -32768, then above 15565", asked && under && sum > 15565);
        met("the exact sum not above 15565, the clipped one is",
            asked && all <= 15565 && sum > 15565);
        met("the exact sum above 15565, the clipped one is not",
            asked && all > 15565 && sum <= 15565);
        met("the eighth added last would decide otherwise",
            asked && (last > 15565) != (sum > 15565));
        met("the newest gain added first would decide otherwise",
            asked && (turned > 15565) != (sum > 15565));
        met("a negative gain", gain < 0);
    }

    void commit(const watch_call &given)
    {
        at = &of[COMMIT];
        place = 0;
        met("a gain that 8 does not divide", given.gain > 0 && given.gain % 8 != 0);
        met("a negative gain that 8 does not divide", given.gain < 0 && given.gain % 8 != 0);
        for (int value : {-32768, 32767})
            met("the gain " + std::to_string(value), given.gain == value);
    }
};

#endif
