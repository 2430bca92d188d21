/*
 * One pass over the unit in a file: `pass law.unit` prints the answer, and for a rewritten function a line for each
 * retained instruction: new place, old place, op, flags, a, b, c.
 *
 *     tools/install target/installed
 *     export PKG_CONFIG_PATH=target/installed/lib/pkgconfig
 *     c++ -O2 examples/pass.cpp $(pkg-config --cflags --libs lampruda) -o target/pass
 *     target/pass examples/law.unit
 *
 * It ends with 0 for unchanged and rewritten, 1 for refused, 2 where the file could not be read.
 */
#include "lampruda.h"

#include <cstdint>
#include <fstream>
#include <iostream>
#include <iterator>
#include <vector>

/* Never empty: the library is lent no null pointers. */
template <typename T> static std::vector<T> buffer(std::size_t length)
{
    return std::vector<T>(length + 1);
}

static unsigned field(const std::uint8_t *at)
{
    return at[0] | unsigned(at[1]) << 8;
}

int main(int count, char **words)
{
    if (count != 2) {
        std::cerr << "usage: " << words[0] << " UNIT\n";
        return 2;
    }
    std::ifstream file(words[1], std::ios::binary);
    std::vector<char> bytes((std::istreambuf_iterator<char>(file)), std::istreambuf_iterator<char>());
    if (!file) {
        std::cerr << words[1] << ": cannot be read\n";
        return 2;
    }
    std::vector<std::uint8_t> unit(bytes.begin(), bytes.end());
    const std::size_t unit_length = unit.size();
    unit.push_back(0);

    std::size_t out_length = 0, work32_length = 0, work64_length = 0;
    if (lampruda_worked_on(unit.data(), unit_length)) {
        const std::uint32_t n = lampruda_word(unit.data(), 0), s = lampruda_word(unit.data(), 2),
                            l = lampruda_word(unit.data(), 16);
        out_length = lampruda_out_length(n, l);
        work32_length = lampruda_work32_length(n);
        work64_length = lampruda_work64_length(n, s);
    }
    auto out = buffer<std::uint8_t>(out_length);
    auto work32 = buffer<std::uint32_t>(work32_length);
    auto work64 = buffer<std::uint64_t>(work64_length);

    const lampruda_answer answer = lampruda_pass(unit.data(), unit_length, out.data(), out_length, work32.data(),
                                                 work32_length, work64.data(), work64_length);
    if (answer.kind == LAMPRUDA_UNCHANGED) {
        std::cout << "unchanged\n";
    } else if (answer.kind == LAMPRUDA_REFUSED) {
        std::cout << "refused " << answer.number << ' ' << answer.place << '\n';
    } else {
        std::cout << "rewritten " << answer.number << '\n';
        const std::uint8_t *code = out.data() + lampruda_word(out.data(), 1);
        const std::uint8_t *places = out.data() + lampruda_word(out.data(), 3);
        for (std::uint32_t place = 0; place < answer.number; place++, code += 8)
            std::cout << place << ' ' << lampruda_word(places, place) << ' ' << unsigned(code[0]) << ' '
                      << unsigned(code[1]) << ' ' << field(code + 2) << ' ' << field(code + 4) << ' '
                      << field(code + 6) << '\n';
    }
    return answer.kind == LAMPRUDA_REFUSED;
}
