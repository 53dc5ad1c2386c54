// Ports with owners, and three tasks one after another. The same program stands in C, Python and Rust, and writes the same text.
#include "intervallum_handles.hpp"
#include "intervallum_model.hpp"

#include <iostream>
#include <string>

int main() {
    // the free ports in pages, and who holds the others
    ivl::paged_set<int> free{{1024, 65535}};
    ivl::map<int, std::string> owners;
    for (auto [name, count] : {std::pair{"anna", 8}, {"bela", 4}, {"cleo", 2}}) {
        auto ports = free.take_first_fit(count).value();
        owners.insert(ports, name);
    }
    // bela gives two back, and cleo gets one of anna's
    owners.erase({1034, 1035});
    free.insert({1034, 1035});
    owners.insert({1031, 1031}, "cleo");
    for (auto [ports, name] : owners)
        std::cout << ports.lower << ".." << ports.upper << ' ' << name << '\n';
    std::cout << free.member_count() << " ports are free, in " << free.size() << " runs\n";
    auto room = owners.first_fit({1024, 2000}, 5).value();
    std::cout << "the lowest 5 without an owner: " << room.lower << ".." << room.upper << '\n';

    // a copy of 3 hours, then a check of 2; a transfer of 4, from hour 5 on; one at a time, and over as soon as they can be
    ivl::model<int> day;
    auto copy = day.variable({0, 20}), check = day.variable({0, 20}), transfer = day.variable({5, 20}), end = day.variable({0, 24});
    day.no_overlap({{copy, 3}, {check, 2}, {transfer, 4}});
    day.at_most(copy, 3, check);
    day.at_most(check, 2, end);
    day.at_most(transfer, 4, end);
    auto best = day.minimize(end).solution.value();
    std::cout << "copy at " << best[copy] << ", check at " << best[check] << ", transfer at " << best[transfer] << ", over at " << best[end] << '\n';
    day.restrict(end, {0, 12});
    std::cout << day.count().count << " plans are over by 12\n";
    day.restrict(end, {0, 8});
    std::cout << "over by 8: " << (day.first().solution ? "yes" : "no") << '\n';
}
