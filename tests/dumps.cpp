// Tells what the C++ runtime does on a real stack: the frames that it finds from a leaf, and the landing pad that it takes in each frame that an exception passes.
#include <unwind.h>

#include <algorithm>
#include <cstdint>
#include <cstdio>
#include <functional>
#include <stdexcept>
#include <vector>

extern "C" void *__libc_stack_end;
static int kept; // slots that are not freed yet

struct Slot {
    Slot() { kept++; }
    ~Slot() { kept--; }
};

static void print_registers(const char *what, _Unwind_Context *frame)
{
    std::printf("%s", what);
    for (int n = 0; n < 16; n++)
        std::printf(" %x", static_cast<unsigned>(_Unwind_GetGR(frame, n)));
    std::printf("\n");
}

static _Unwind_Reason_Code on_frame(_Unwind_Context *frame, void *seen)
{
    int &count = *static_cast<int *>(seen);
    if (count++ == 0) {
        const uint8_t *from = reinterpret_cast<const uint8_t *>(_Unwind_GetGR(frame, 13));
        const uint8_t *to = static_cast<const uint8_t *>(__libc_stack_end);
        std::printf("stack %x ", static_cast<unsigned>(reinterpret_cast<uintptr_t>(from)));
        for (const uint8_t *p = from; p < to; p++)
            std::printf("%02x", *p);
        std::printf("\n");
    }
    print_registers("frame", frame);
    return _URC_NO_REASON;
}

__attribute__((noinline)) void trace()
{
    int count = 0;
    _Unwind_Backtrace(on_frame, &count);
    std::printf("end\n");
}

// Every entry of the image names this one: the linker wraps the runtime's.
extern "C" _Unwind_Reason_Code __real___gxx_personality_v0(_Unwind_State, _Unwind_Control_Block *, _Unwind_Context *);
extern "C" _Unwind_Reason_Code __wrap___gxx_personality_v0(_Unwind_State state, _Unwind_Control_Block *block, _Unwind_Context *frame)
{
    unsigned counter = _Unwind_GetGR(frame, 15);
    _Unwind_Reason_Code code = __real___gxx_personality_v0(state, block, frame);
    if (code == _URC_INSTALL_CONTEXT)
        std::printf("pad %x %x\n", counter, static_cast<unsigned>(_Unwind_GetGR(frame, 15)));
    return code;
}

__attribute__((noinline)) void leaf(int n)
{
    if (n % 3 == 0)
        trace();
    if (n % 5 == 0)
        throw std::runtime_error("a task has panicked");
}

__attribute__((noinline)) int many(int a, int b, int c, int d, int e, int f, int g, int h)
{
    Slot slot;
    int sum = a * b + c * d + e * f + g * h;
    leaf(sum);
    return sum + a + b + c + d + e + f + g + h;
}

__attribute__((noinline)) int deep(int n)
{
    Slot slot;
    volatile int room[40];
    room[n % 40] = n;
    if (n == 0) {
        leaf(15);
        return 0;
    }
    int below = deep(n - 1);
    Slot another;
    return below + room[n % 40];
}

__attribute__((noinline)) int far(int n)
{
    volatile uint8_t large[5000];
    large[n] = n;
    return deep(n % 7) + large[n];
}

// Numbers that live across calls, so that registers of the VFP are saved where there are any.
__attribute__((noinline)) double scaled(double x, double y, int n)
{
    Slot slot;
    double sum = x * y;
    for (int k = 0; k < n; k++) {
        leaf(k);
        sum += x / (y + k);
    }
    return sum;
}

int caught(const std::function<int()> &work)
{
    try {
        return work();
    } catch (const std::runtime_error &) {
        return -1;
    } catch (int n) {
        return n;
    }
}

int main()
{
    int sum = 0;
    for (int n = 0; n < 12; n++) {
        sum += caught([=] { return deep(n); });
        sum += caught([=] { return far(n); });
        sum += caught([=] { return many(n, 1, n, 2, n, 3, n, 4); });
        sum += caught([=] { return static_cast<int>(scaled(n, 0.5, n)); });
        sum += caught([=]() -> int { Slot slot; throw n; });
        sum += caught([=] {
            std::vector<int> order = {5, 3, 9, n};
            std::sort(order.begin(), order.end(), [](int a, int b) { leaf(a * 3 + b); return a < b; });
            return order[0];
        });
    }
    trace();
    std::printf("kept %d sum %d\n", kept, sum);
}
