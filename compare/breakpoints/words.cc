// Reads sums from its arguments, and prints what they come to: a program of some length, with classes, templates and lambdas.
#include <algorithm>
#include <cstdio>
#include <functional>
#include <map>
#include <memory>
#include <numeric>
#include <stdexcept>
#include <string>
#include <utility>
#include <vector>

namespace {

enum class Kind { number, name, plus, minus, times, open, close, end };

struct Word {
    Kind kind;
    std::string text;
};

class Words {
public:
    explicit Words(const std::string &text)
    {
        std::size_t at = 0;
        while (at < text.size()) {
            char c = text[at];
            if (c == ' ') {
                at++;
                continue;
            }
            std::size_t first = at;
            if (is_digit(c)) {
                while (at < text.size() && is_digit(text[at]))
                    at++;
                words.push_back({Kind::number, text.substr(first, at - first)});
            } else if (is_letter(c)) {
                while (at < text.size() && is_letter(text[at]))
                    at++;
                words.push_back({Kind::name, text.substr(first, at - first)});
            } else {
                words.push_back({sign(c), std::string(1, c)});
                at++;
            }
        }
        words.push_back({Kind::end, ""});
    }

    const Word &first() const
    {
        return words[next];
    }

    Word take()
    {
        Word word = words[next];
        if (next + 1 < words.size())
            next++;
        return word;
    }

    bool take_if(Kind kind)
    {
        if (first().kind != kind)
            return false;
        take();
        return true;
    }

private:
    static bool is_digit(char c)
    {
        return c >= '0' && c <= '9';
    }

    static bool is_letter(char c)
    {
        return c >= 'a' && c <= 'z';
    }

    static Kind sign(char c)
    {
        switch (c) {
        case '+':
            return Kind::plus;
        case '-':
            return Kind::minus;
        case '*':
            return Kind::times;
        case '(':
            return Kind::open;
        case ')':
            return Kind::close;
        default:
            throw std::runtime_error(std::string("unknown: ") + c);
        }
    }

    std::vector<Word> words;
    std::size_t next = 0;
};

using Values = std::map<std::string, long>;

struct Term {
    virtual ~Term() = default;
    virtual long value(const Values &values) const = 0;
};

using Pointer = std::unique_ptr<Term>;

struct Number : Term {
    long own;
    explicit Number(long n) : own(n) {}
    long value(const Values &) const override
    {
        return own;
    }
};

struct Name : Term {
    std::string own;
    explicit Name(std::string text) : own(std::move(text)) {}
    long value(const Values &values) const override
    {
        auto found = values.find(own);
        if (found == values.end())
            throw std::runtime_error("no value: " + own);
        return found->second;
    }
};

template <typename Operation> struct Pair : Term {
    Pointer left;
    Pointer right;
    Pair(Pointer l, Pointer r) : left(std::move(l)), right(std::move(r)) {}
    long value(const Values &values) const override
    {
        long first = left->value(values);
        long second = right->value(values);
        return Operation()(first, second);
    }
};

Pointer sum_of(Words &words);

Pointer atom_of(Words &words)
{
    Word word = words.take();
    switch (word.kind) {
    case Kind::number:
        return std::make_unique<Number>(std::stol(word.text));
    case Kind::name:
        return std::make_unique<Name>(word.text);
    case Kind::open: {
        Pointer inner = sum_of(words);
        if (!words.take_if(Kind::close))
            throw std::runtime_error("no ) follows");
        return inner;
    }
    default:
        throw std::runtime_error("no number: " + word.text);
    }
}

Pointer product_of(Words &words)
{
    Pointer left = atom_of(words);
    while (words.take_if(Kind::times))
        left = std::make_unique<Pair<std::multiplies<long>>>(std::move(left), atom_of(words));
    return left;
}

Pointer sum_of(Words &words)
{
    Pointer left = product_of(words);
    for (;;) {
        if (words.take_if(Kind::plus))
            left = std::make_unique<Pair<std::plus<long>>>(std::move(left), product_of(words));
        else if (words.take_if(Kind::minus))
            left = std::make_unique<Pair<std::minus<long>>>(std::move(left), product_of(words));
        else
            return left;
    }
}

long total(const std::vector<long> &numbers)
{
    auto add = [](long sum, long n) {
        long next = sum + n;
        return next;
    };
    return std::accumulate(numbers.begin(), numbers.end(), 0L, add);
}

} // namespace

int main(int count, char **arguments)
{
    Values values{{"one", 1}, {"two", 2}, {"three", 3}};
    std::vector<long> results;
    int faults = 0;
    for (int i = 1; i < count; i++) {
        try {
            Words words(arguments[i]);
            Pointer sum = sum_of(words);
            if (words.first().kind != Kind::end)
                throw std::runtime_error("more follows: " + words.first().text);
            long result = sum->value(values);
            results.push_back(result);
            std::printf("%s = %ld\n", arguments[i], result);
        } catch (const std::exception &fault) {
            std::printf("%s: %s\n", arguments[i], fault.what());
            faults++;
        }
    }
    std::sort(results.begin(), results.end());
    auto last = std::unique(results.begin(), results.end());
    results.erase(last, results.end());
    std::printf("%zu results, which come to %ld\n", results.size(), total(results));
    return faults == 0 ? 0 : 1;
}
