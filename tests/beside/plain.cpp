// All pairs the plain way: for every two pieces the signs of four orientations. It knows neither marks nor ends that
// touch, so it serves only charts where none do. Reads how many batches of how many calls, n, and five numbers a
// piece; tells how many pairs, and the nanoseconds of one call in the quickest batch.
#include <algorithm>
#include <chrono>
#include <cstddef>
#include <cstdint>
#include <iostream>
#include <vector>

struct Piece {
    int64_t kind, x1, y1, x2, y2;
};

static int64_t side(const Piece &p, int64_t x, int64_t y) {
    return (p.x2 - p.x1) * (y - p.y1) - (p.y2 - p.y1) * (x - p.x1);
}

static bool parts(const Piece &p, const Piece &q) {
    return (side(p, q.x1, q.y1) > 0) != (side(p, q.x2, q.y2) > 0);
}

// Not inlined, so that no call is left out or moved from its batch.
__attribute__((noinline)) static size_t all_pairs(const std::vector<Piece> &pieces, std::vector<uint8_t> &pairs) {
    size_t count = 0;
    for (size_t a = 0; a < pieces.size(); a++)
        for (size_t b = 0; b < a; b++)
            if (parts(pieces[a], pieces[b]) && parts(pieces[b], pieces[a])) {
                pairs[2 * count] = a;
                pairs[2 * count + 1] = b;
                count++;
            }
    asm volatile("" ::: "memory");
    return count;
}

int main() {
    using Clock = std::chrono::steady_clock;
    size_t n, batches, calls, count = 0;
    std::cin >> batches >> calls >> n;
    std::vector<Piece> pieces(n);
    for (Piece &p : pieces) std::cin >> p.kind >> p.x1 >> p.y1 >> p.x2 >> p.y2;
    if (!std::cin) return 1;
    std::vector<uint8_t> pairs(n * n);
    double least = 1e300;
    for (size_t batch = 0; batch < batches; batch++) {
        auto start = Clock::now();
        for (size_t call = 0; call < calls; call++) count = all_pairs(pieces, pairs);
        std::chrono::duration<double, std::nano> took = Clock::now() - start;
        least = std::min(least, took.count() / calls);
    }
    std::cout << count << ' ' << least << '\n';
}
