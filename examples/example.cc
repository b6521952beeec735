// Writes a mark for a serial, damages it within reach and reads it back; then damages it beyond reach, and it is refused.
#include "han_xin.h"

#include <cstddef>
#include <cstdint>
#include <iostream>
#include <stdexcept>
#include <string>
#include <vector>

struct Refused : std::runtime_error {
    explicit Refused(hx_status status) : std::runtime_error(std::to_string(status) + ", " + hx_refusal_words(status)) {}
};

struct Mark {
    std::size_t version, side;
    std::vector<std::uint8_t> square; // row by row from the top left
    std::uint8_t &at(std::size_t row, std::size_t column) { return square.at(row * side + column); }
};

// The smallest mark at level 2 with mask 0, one numeric segment.
static Mark write_serial(const std::string &digits)
{
    std::vector<std::uint8_t> square(HX_SIZE_SQUARE), payload(digits.begin(), digits.end());
    const std::uint8_t script[] = {HX_MODE_NUMERIC, std::uint8_t(digits.size() / 256), std::uint8_t(digits.size() % 256)};
    hx_answer answer =
        hx_write_smallest(2, 0, script, sizeof script, payload.data(), payload.size(), square.data(), square.size());
    if (answer.status != HX_OK)
        throw Refused(answer.status);
    std::size_t side = HX_SIDE(answer.value);
    square.resize(side * side);
    return Mark{answer.value, side, square};
}

static void read_serial(const Mark &mark)
{
    std::vector<std::uint8_t> payload(HX_SIZE_BUFFER), script(HX_SIZE_BUFFER), receipt(HX_SIZE_RECEIPT);
    hx_status status = hx_read_square(mark.square.data(), mark.square.size(), mark.side, payload.data(), payload.size(),
                                      script.data(), script.size(), receipt.data(), receipt.size());
    if (status != HX_OK)
        throw Refused(status);
    hx_receipt fields = hx_receipt_decode(receipt.data());
    std::cout << "read: " << std::string(payload.begin(), payload.begin() + std::ptrdiff_t(fields.payload_length))
              << ", codewords repaired: " << fields.corrected << "\n";
}

int main()
{
    const std::string serial = "00471100";
    Mark mark = write_serial(serial);
    std::cout << "written: " << serial << ", version " << mark.version << ", " << mark.side << " x " << mark.side << " modules\n";

    // The one block of this mark has 12 parity codewords. Three wrong codewords and four with an unknown module need 2 x 3 + 4 + 2
    // of them: just within reach. One of the four is right as it is, since an unknown module is taken as light: six are repaired.
    for (std::size_t row : {9u, 11u, 13u})
        mark.at(row, 6) ^= 1;
    for (std::size_t row : {9u, 10u, 11u, 12u})
        mark.at(row, 12) = HX_MODULE_UNKNOWN;
    std::cout << "damaged: column 6, rows 9, 11 and 13 flipped; column 12, rows 9 to 12 unknown\n";
    read_serial(mark);

    for (std::size_t column = 0; column < mark.side; column++)
        mark.at(10, column) = HX_MODULE_DARK;
    std::cout << "damaged: row 10 dark too\n";
    try {
        read_serial(mark);
    } catch (const Refused &refused) {
        std::cout << "refused: " << refused.what() << "\n";
        return 0;
    }
    return 1; // it must be refused
}
