// Prints the path, line and column of addresses of a program, as examples/c/where_is.c does: an index as a class, which is asked for all
// addresses at once.
//
//   where_is PROGRAM ADDRESS..      in hexadecimal
#include <cstddef>
#include <cstdint>
#include <cstdlib>
#include <exception>
#include <fstream>
#include <iostream>
#include <iterator>
#include <memory>
#include <stdexcept>
#include <string>
#include <vector>

#include "gimli_line.h"

namespace {

// The index of an ELF file.
class Index {
  public:
    explicit Index(const std::vector<char> &file) {
        std::uint8_t *made = nullptr;
        require(gimli_line_index_of_elf(file.data(), file.size(), &made, &size));
        bytes.reset(made);
    }

    // The places of addresses, in their order.
    std::vector<gimli_line_place> find(const std::vector<std::uint64_t> &addresses) const {
        std::vector<gimli_line_place> places(addresses.size());
        for (std::size_t i = 0; i < places.size(); i++) places[i].address = addresses[i];
        require(gimli_line_index_find_all(bytes.get(), size, places.data(), places.size()));
        return places;
    }

    // The whole path of a place.
    std::string path(const gimli_line_place &place) const {
        const char *path = gimli_line_place_path(bytes.get(), &place);
        return path == nullptr ? "??" : path;
    }

  private:
    struct Free {
        void operator()(std::uint8_t *made) const { std::free(made); }
    };

    static void require(gimli_line_status status) {
        if (status != GIMLI_LINE_OK) throw std::runtime_error(gimli_line_status_sentence(status));
    }

    std::unique_ptr<std::uint8_t[], Free> bytes;
    std::size_t size = 0;
};

} // namespace

int main(int argc, char **argv) try {
    if (argc < 2) throw std::runtime_error("usage: where_is PROGRAM ADDRESS..");
    std::ifstream file(argv[1], std::ios::binary);
    const std::vector<char> program{std::istreambuf_iterator<char>(file), std::istreambuf_iterator<char>()};
    const Index index(program);
    std::vector<std::uint64_t> addresses;
    for (int i = 2; i < argc; i++) addresses.push_back(std::strtoull(argv[i], nullptr, 16));
    for (const gimli_line_place &place : index.find(addresses)) {
        if (place.known) std::cout << index.path(place) << ':' << place.line << ':' << place.column << '\n';
        else std::cout << "none\n";
    }
    return 0;
} catch (const std::exception &error) {
    std::cerr << error.what() << '\n';
    return 1;
}
