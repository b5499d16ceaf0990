#ifndef FAULTS_HPP
#define FAULTS_HPP

#include <exception>

// A fault with three bases that have destructors of their own, so that the destructor of a Noted has thunks.
struct Shown {
    virtual ~Shown() noexcept {}
    virtual Shown *twin() const = 0;
};

struct Place {
    virtual ~Place() noexcept {}
    const char *file = nullptr;
    int line = 0;
};

template <typename Cause>
struct Noted : Shown, Cause, Place {
    explicit Noted(const Cause &cause) : Cause(cause) {}

    virtual ~Noted() noexcept override {
        delete[] note;
    }

    Shown *twin() const override {
        return new Noted(static_cast<const Cause &>(*this));
    }

    char *note = new char[16];
};

inline int clamped(int number) {
    if (number < 0) {
        return 0;
    }
    return number > 9 ? 9 : number;
}

void first_fault();
void second_fault();
int weighted(int count);

#endif
