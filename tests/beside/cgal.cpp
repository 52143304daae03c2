// The crossings of charts by CGAL's Surface_sweep_2 with its exact kernel. Reads how many batches of how many calls, how
// many charts, and of each n and five numbers a piece; calls go through the charts in turn. Tells how many crossings all
// charts have, and the nanoseconds of one call in the quickest batch. A call's segments are made before its time begins,
// anew each time: the kernel keeps what it found out about them.
#include <CGAL/Arr_segment_traits_2.h>
#include <CGAL/Exact_predicates_exact_constructions_kernel.h>
#include <CGAL/Surface_sweep_2_algorithms.h>

#include <algorithm>
#include <array>
#include <chrono>
#include <iostream>
#include <iterator>
#include <vector>

using Traits = CGAL::Arr_segment_traits_2<CGAL::Exact_predicates_exact_constructions_kernel>;
using Segment = Traits::Curve_2;
using Point = Traits::Point_2;

int main() {
    using Clock = std::chrono::steady_clock;
    size_t batches, calls, many;
    std::cin >> batches >> calls >> many;
    std::vector<std::vector<std::array<int, 5>>> charts(many);
    std::vector<size_t> counts(many);
    for (auto &pieces : charts) {
        size_t n;
        std::cin >> n;
        pieces.resize(n);
        for (auto &piece : pieces)
            for (int &v : piece) std::cin >> v;
    }
    if (!std::cin) return 1;
    double least = 1e300;
    for (size_t batch = 0; batch < batches; batch++) {
        std::chrono::duration<double, std::nano> took{};
        for (size_t call = 0; call < calls; call++) {
            std::vector<Segment> segments;
            for (auto [kind, x1, y1, x2, y2] : charts[call % many]) segments.emplace_back(Point(x1, y1), Point(x2, y2));
            std::vector<Point> points;
            auto start = Clock::now();
            CGAL::compute_intersection_points(segments.begin(), segments.end(), std::back_inserter(points));
            took += Clock::now() - start;
            counts[call % many] = points.size();
        }
        least = std::min(least, took.count() / calls);
    }
    size_t all = 0;
    for (size_t count : counts) all += count;
    std::cout << all << ' ' << least << '\n';
}
