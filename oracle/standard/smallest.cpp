/* See smallest.h. A text of classes looks so; words that are not named are 0, subframe 1, lags 80, the
 * pulses' lag 40:
 *
 *   class pulses: NAME
 *   where FUNCTION, WHAT CLIPS
 *   reset
 *   pulses target[39]=1 impulse[0..3]=4096 gain=16384
 *   rust 6 15
 *   package 6 7
 *
 * `where` is what readers.h's `why` says of the class's records; a class may have several. The answers
 * are those to the last record. Of `filter`, whose answer has 160 words, the first word that differs is
 * told, as target[3]=5. */
#include "smallest.h"

#include <algorithm>
#include <climits>
#include <cstdlib>
#include <sstream>
#include <tuple>

namespace {

struct Field {
    const char *name;
    int count, bytes, usual;
};

/* The fields of a record's body. */
const std::vector<Field> &fields_of(Kind kind)
{
    static const std::vector<Field> fields[KINDS] = {
        {},
        {{"words", 80, 2, 0}},
        {{"subframe", 1, 1, 1},
         {"excitation", PAST + SUBFRAME, 2, 0},
         {"target", SUBFRAME, 2, 0},
         {"impulse", SUBFRAME, 2, 0},
         {"lag1", 1, 1, 80},
         {"lag2", 1, 1, 80}},
        {{"target", SUBFRAME, 2, 0}, {"impulse", SUBFRAME, 2, 0}, {"lag", 1, 1, 40}, {"gain", 1, 2, 0}},
        {{"target", SUBFRAME, 2, 0},
         {"adaptive", SUBFRAME, 2, 0},
         {"filtered", SUBFRAME, 2, 0},
         {"exponent", 1, 2, 0},
         {"fraction", 1, 2, 0},
         {"limit", 1, 1, 0}},
        {{"speech", ORDER + SUBFRAME, 2, 0},
         {"coefficients", ORDER + 1, 2, 0},
         {"quantized", ORDER + 1, 2, 0},
         {"error", ORDER, 2, 0},
         {"weighting", ORDER, 2, 0}},
        {{"subframe", 1, 1, 1}, {"index", 1, 1, 0}},
        {},
        {{"count", 1, 1, 0}, {"gains", GAINS, 2, 0}},
        {{"words", ORDER, 2, 0}},
        {{"gain", 1, 2, 0}},
        {{"gain", 1, 2, 0}},
    };
    return fields[kind];
}

/* A word of a call that may be made smaller: its usual value, and its ends. */
struct Part {
    int16_t *word;
    int usual, least, most;
};

std::vector<Part> parts_of(Call &call)
{
    std::vector<Part> parts;
    auto add = [&](int16_t *list, int count, int usual = 0, int least = -32768, int most = 32767) {
        for (int i = 0; i < count; i++)
            parts.push_back({list + i, usual, least, most});
    };
    switch (call.kind) {
    case OPEN:
        add(call.words, HISTORY + HALF_FRAME);
        break;
    case PITCH:
        add(&call.pitch.subframe, 1, 1, 1, 4);
        add(call.pitch.excitation, PAST + SUBFRAME);
        add(call.pitch.target, SUBFRAME);
        add(call.pitch.impulse, SUBFRAME);
        add(call.pitch.lags, 2, 80, 20, 143);
        break;
    case PULSES:
        add(call.pulses.target, SUBFRAME);
        add(call.pulses.impulse, SUBFRAME);
        add(&call.pulses.lag, 1, 40, 19, 144);
        add(&call.pulses.gain, 1);
        break;
    case GAIN:
        add(call.gain.target, SUBFRAME);
        add(call.gain.adaptive, SUBFRAME);
        add(call.gain.filtered, SUBFRAME);
        add(&call.gain.exponent, 1, 0, -128, 127);
        add(&call.gain.fraction, 1, 0, 0, 32767);
        add(&call.gain.limit, 1, 32767, 15565, 15565);
        break;
    case FILTER:
        add(call.filter.speech, ORDER + SUBFRAME);
        add(call.filter.coefficients, ORDER + 1);
        add(call.filter.quantized, ORDER + 1);
        add(call.filter.error, ORDER);
        add(call.filter.weighting, ORDER);
        break;
    case SPECTRUM:
        add(&call.watched.state.count, 1, 0, 0, 255);
        add(call.watched.spectrum, ORDER);
        break;
    default:
        break;
    }
    return parts;
}

bool differs(const Call &call)
{
    answer left = answer_of(quoted_reader, call), right = answer_of(package_reader, call);
    return !std::equal(left.fields, left.fields + left.count, right.fields);
}

/* How long it takes to tell a call's words: a run of one value counts as eight words more; then how
 * far they are from the usual ones. */
std::pair<int, long> size_of(const std::vector<Part> &parts)
{
    std::pair<int, long> size;
    const Part *last = nullptr;
    for (auto &part : parts) {
        if (*part.word != part.usual) {
            bool more = last && last + 1 == &part && *last->word == *part.word;
            size.first += more ? 1 : 9;
            size.second += std::labs(long(*part.word) - part.usual);
            last = &part;
        }
    }
    return size;
}

std::pair<int, long> size_of(Call call)
{
    return size_of(parts_of(call));
}

class Smaller {
public:
    explicit Smaller(Call given) : call(given), name(why(given)), parts(parts_of(call)) {}

    Call made()
    {
        if (call.kind == PITCH && call.pitch.subframe != 1)
            begin_at_one();
        std::pair<int, long> before;
        do {
            before = size_of(parts);
            for (size_t length = parts.size(); length > 0; length /= 2)
                for (size_t start = 0; start < parts.size(); start += length) {
                    size_t end = std::min(start + length, parts.size());
                    set(start, end, nullptr);
                    for (size_t from : {start, end - 1, start ? start - 1 : 0}) {
                        int16_t value = *parts[from].word;
                        set(start, end, &value);
                    }
                }
            for (auto &part : parts)
                shrink(part);
        } while (size_of(parts) < before);
        return call;
    }

private:
    Call call;
    std::string name;
    std::vector<Part> parts;

    bool holds()
    {
        return differs(call) && name == why(call);
    }

    /* A record of subframe 1 needs none before it. */
    void begin_at_one()
    {
        pitch_call kept = call.pitch;
        call.pitch.subframe = 1;
        call.pitch.lags[1] = 80;
        for (int lag = 20; lag <= 143; lag++) {
            call.pitch.lags[0] = lag;
            if (holds())
                return;
        }
        call.pitch = kept;
    }

    /* Gives a block one value, or the usual ones, where that makes the call smaller. */
    void set(size_t start, size_t end, const int16_t *value)
    {
        auto before = size_of(parts);
        std::vector<int16_t> kept;
        for (size_t i = start; i < end; i++) {
            kept.push_back(*parts[i].word);
            int wished = value ? *value : parts[i].usual;
            if (wished >= parts[i].least && wished <= parts[i].most)
                *parts[i].word = wished;
        }
        if (size_of(parts) < before && holds())
            return;
        for (size_t i = start; i < end; i++)
            *parts[i].word = kept[i - start];
    }

    bool put(Part &part, long value)
    {
        if (value < part.least || value > part.most)
            return false;
        auto before = size_of(parts);
        int16_t kept = *part.word;
        *part.word = value;
        if (size_of(parts) <= before && holds())
            return true;
        *part.word = kept;
        return false;
    }

    /* Towards the usual value: by powers of two from below, then by halves of what is left. */
    void shrink(Part &part)
    {
        long distance = long(*part.word) - part.usual;
        long sign = distance < 0 ? -1 : 1;
        distance *= sign;
        if (distance == 0)
            return;
        for (long smaller = 1; smaller < distance; smaller *= 2)
            if (put(part, part.usual + smaller) || put(part, part.usual - smaller))
                return;
        for (long step = distance / 2; step > 0; step /= 2)
            while (distance > step && put(part, part.usual + sign * (distance - step)))
                distance -= step;
        if (sign < 0)
            put(part, part.usual + distance);
    }
};

/* ---- text */

void print_words(std::ostream &out, const char *name, const int16_t *words, int count, int usual = 0)
{
    for (int i = 0; i < count;) {
        int end = i + 1;
        while (end < count && words[end] == words[i])
            end++;
        if (words[i] != usual) {
            out << ' ' << name;
            if (count > 1)
                out << '[' << i;
            if (end > i + 1)
                out << ".." << end - 1;
            out << (count > 1 ? "]=" : "=") << words[i];
        }
        i = end;
    }
}

void print_record(std::ostream &out, const Call &call)
{
    if (call.kind == OPEN) {
        // 143 old words are the last 63 of one half frame and all 80 of the next.
        int16_t halves[3 * HALF_FRAME] = {};
        std::copy(call.words, call.words + HISTORY + HALF_FRAME, halves + 3 * HALF_FRAME - 223);
        bool begun = false;
        for (int i = 0; i < 3; i++) {
            const int16_t *half = halves + i * HALF_FRAME;
            begun |= i == 2 || std::any_of(half, half + HALF_FRAME, [](int16_t w) { return w != 0; });
            if (begun) {
                out << NAMES[OPEN];
                print_words(out, "words", half, HALF_FRAME);
                out << '\n';
            }
        }
        return;
    }
    if (call.kind == SPECTRUM && call.watched.state.count != 0)
        out << NAMES[WATCH] << " count=" << call.watched.state.count << '\n';
    out << NAMES[call.kind];
    switch (call.kind) {
    case PITCH:
        print_words(out, "subframe", &call.pitch.subframe, 1, 1);
        print_words(out, "excitation", call.pitch.excitation, PAST + SUBFRAME);
        print_words(out, "target", call.pitch.target, SUBFRAME);
        print_words(out, "impulse", call.pitch.impulse, SUBFRAME);
        print_words(out, "lag1", &call.pitch.lags[0], 1, 80);
        print_words(out, "lag2", &call.pitch.lags[1], 1, 80);
        break;
    case PULSES:
        print_words(out, "target", call.pulses.target, SUBFRAME);
        print_words(out, "impulse", call.pulses.impulse, SUBFRAME);
        print_words(out, "lag", &call.pulses.lag, 1, 40);
        print_words(out, "gain", &call.pulses.gain, 1);
        break;
    case GAIN:
        print_words(out, "target", call.gain.target, SUBFRAME);
        print_words(out, "adaptive", call.gain.adaptive, SUBFRAME);
        print_words(out, "filtered", call.gain.filtered, SUBFRAME);
        print_words(out, "exponent", &call.gain.exponent, 1);
        print_words(out, "fraction", &call.gain.fraction, 1);
        if (call.gain.limit != 32767)
            out << " limit=1";
        break;
    case FILTER:
        print_words(out, "speech", call.filter.speech, ORDER + SUBFRAME);
        print_words(out, "coefficients", call.filter.coefficients, ORDER + 1);
        print_words(out, "quantized", call.filter.quantized, ORDER + 1);
        print_words(out, "error", call.filter.error, ORDER);
        print_words(out, "weighting", call.filter.weighting, ORDER);
        break;
    case SPECTRUM:
        print_words(out, "words", call.watched.spectrum, ORDER);
        break;
    default:
        break;
    }
    out << '\n';
}

/* The fields of an answer; of a filter's the first that differs from the other answer. */
std::string told(Kind kind, const answer &own, const answer &other)
{
    std::string text;
    for (int i = 0; i < own.count; i++) {
        if (kind != FILTER) {
            text += (i ? " " : "") + std::to_string(own.fields[i]);
        } else if (own.fields[i] != other.fields[i]) {
            static const char *const lists[] = {"residual", "impulse", "target", "error"};
            return std::string(lists[i / SUBFRAME]) + '[' + std::to_string(i % SUBFRAME)
                   + "]=" + std::to_string(own.fields[i]);
        }
    }
    return text;
}

struct Class {
    std::string name, rust, package;
    std::vector<std::string> where;
    std::vector<std::vector<uint8_t>> records;
};

[[noreturn]] void bad(const std::string &line)
{
    std::cerr << "a class can't be read: " << line << '\n';
    exit(2);
}

std::vector<uint8_t> record_of(const std::string &line)
{
    std::istringstream stream(line);
    std::string name, token;
    stream >> name;
    int kind = 0;
    while (kind < KINDS && name != NAMES[kind])
        kind++;
    if (kind == KINDS)
        bad(line);
    std::vector<uint8_t> bytes = {uint8_t(kind)};
    auto &fields = fields_of(Kind(kind));
    std::vector<size_t> starts;
    for (auto &field : fields) {
        starts.push_back(bytes.size());
        for (int i = 0; i < field.count; i++) {
            if (field.bytes == 2)
                bytes.push_back(0);
            bytes.push_back(field.usual);
        }
    }
    while (stream >> token) {
        size_t equal = token.find('='), bracket = token.find('[');
        if (equal == std::string::npos)
            bad(line);
        std::string field = token.substr(0, std::min(equal, bracket));
        int value = std::stoi(token.substr(equal + 1)), first = 0, last = 0;
        if (bracket != std::string::npos) {
            size_t dots = token.find("..");
            first = last = std::stoi(token.substr(bracket + 1));
            if (dots != std::string::npos)
                last = std::stoi(token.substr(dots + 2));
        }
        size_t found = 0;
        while (found < fields.size() && field != fields[found].name)
            found++;
        if (found == fields.size() || first < 0 || last >= fields[found].count)
            bad(line);
        for (int i = first; i <= last; i++) {
            uint8_t *at = &bytes[starts[found] + i * fields[found].bytes];
            if (fields[found].bytes == 2)
                *at++ = value >> 8;
            *at = value;
        }
    }
    return bytes;
}

std::vector<Class> classes_of(const std::string &file)
{
    std::ifstream stream(file);
    std::vector<Class> classes;
    std::string line;
    auto rest = [&](size_t length) { return line.substr(std::min(length, line.size())); };
    while (std::getline(stream, line)) {
        if (line.empty() || line[0] == '#')
            continue;
        if (line.rfind("class ", 0) == 0)
            classes.push_back({rest(6), "", "", {}, {}});
        else if (classes.empty())
            bad(line);
        else if (line.rfind("where ", 0) == 0)
            classes.back().where.push_back(rest(6));
        else if (line.rfind("rust ", 0) == 0)
            classes.back().rust = rest(5);
        else if (line.rfind("package ", 0) == 0)
            classes.back().package = rest(8);
        else
            classes.back().records.push_back(record_of(line));
    }
    if (classes.empty())
        bad(file);
    return classes;
}

} // namespace

Call smallest(const std::vector<Call> &calls)
{
    Call least = Smaller(calls[0]).made();
    for (size_t i = 1; i < calls.size(); i++) {
        Call made = Smaller(calls[i]).made();
        if (size_of(made) < size_of(least))
            least = made;
    }
    return least;
}

void print_class(std::ostream &out, const std::string &name, const Call &call)
{
    answer standard = answer_of(quoted_reader, call), package = answer_of(package_reader, call);
    out << "class " << name << "\nwhere " << why(call) << "\nreset\n";
    print_record(out, call);
    out << "rust " << told(call.kind, standard, package) << '\n';
    out << "package " << told(call.kind, package, standard) << "\n\n";
}

int write_classes(const std::string &file, const std::string &feed)
{
    std::ofstream out(feed, std::ios::binary);
    for (auto &given : classes_of(file))
        for (auto &record : given.records)
            out.write(reinterpret_cast<const char *>(record.data()), record.size());
    return out ? 0 : 2;
}

int check_classes(const std::string &file, const std::vector<std::string> &lines)
{
    State state;
    Call call;
    size_t number = 0;
    int wrong = 0;
    for (auto &given : classes_of(file)) {
        answer rust, standard, package;
        for (auto &bytes : given.records) {
            if (number == lines.size() || call_of({bytes[0], bytes.data() + 1}, state, call).number)
                bad(given.name);
            std::istringstream stream(lines[number++]);
            std::string name;
            stream >> name;
            rust = {};
            standard = answer_of(quoted_reader, call);
            package = answer_of(package_reader, call);
            while (rust.count < standard.count && stream >> rust.fields[rust.count])
                rust.count++;
            advance(state, call, rust.fields);
        }
        bool alike = line_of(call.kind, standard) == line_of(call.kind, rust);
        std::string own = told(call.kind, rust, package), other = told(call.kind, package, rust);
        auto &where = given.where;
        bool recorded = alike && own == given.rust && other == given.package
                        && std::find(where.begin(), where.end(), why(call)) != where.end();
        wrong += !recorded;
        std::cout << given.name << ": Rust " << own << ", standard "
                  << (alike ? "the same" : told(call.kind, standard, rust)) << ", package " << other
                  << (recorded ? "" : std::string("  NOT AS RECORDED: ") + why(call)) << '\n';
    }
    std::cout << wrong << " classes not as recorded\n";
    return wrong != 0;
}
