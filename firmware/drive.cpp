// A small drive firmware for the audit: destructors, VFP code, nested calls, and functions that cannot throw.
#include <cstdint>

namespace {

volatile std::uint32_t pages[16];
volatile double wear[8];

struct Slot {
    std::uint32_t page;
    explicit Slot(std::uint32_t p) : page(p) { pages[p % 16] = 1; }
    ~Slot() { pages[page % 16] = 0; }
};

struct Lock {
    Lock() { pages[15] += 1; }
    ~Lock() { pages[15] -= 1; }
};

}  // namespace

struct Fault {
    std::uint32_t code;
};

__attribute__((noinline)) std::uint32_t program(std::uint32_t page) {
    if (page % 7 == 3) throw Fault{page};
    pages[page % 16] = page;
    return page + 1;
}

__attribute__((noinline)) double level(double a, double b, std::uint32_t page) {
    Slot slot(page);
    double x = a * b + wear[page % 8];
    double y = a - b * wear[(page + 1) % 8];
    program(page);
    wear[page % 8] = x + y;
    return x * y + a;
}

__attribute__((noinline)) std::uint32_t write_pair(std::uint32_t page) {
    Lock lock;
    Slot first(page);
    std::uint32_t next = program(page);
    Slot second(next);
    return program(next) + first.page + second.page;
}

__attribute__((noinline)) std::uint32_t command(std::uint32_t page) {
    Lock lock;
    try {
        return write_pair(page) + static_cast<std::uint32_t>(level(1.5, page, page));
    } catch (const Fault& f) {
        return f.code;
    }
}

__attribute__((noinline)) std::uint32_t idle() noexcept {
    return pages[0];
}

int main() {
    std::uint32_t sum = 0;
    for (std::uint32_t page = 0; page < 100; page++) sum += command(page);
    return static_cast<int>(sum + idle());
}
