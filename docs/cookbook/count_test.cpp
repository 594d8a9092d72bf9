#include <cstdint>
#include <iostream>
#include <string>

// The COUNT of a PDU of this sequence number, of so many bits, if the next one expected is at least this
static uint64_t product_count(uint64_t least, uint64_t sequence, unsigned bits) {
    return (least >> bits << bits) | sequence;
}

int main() {
    unsigned test, bits;
    uint64_t least, wanted;
    std::string pdu;
    while (std::cin >> test >> bits >> least >> pdu >> wanted) {
        const unsigned octets = bits == 7 ? 1 : bits == 18 ? 3 : 2;
        const uint64_t sequence = std::stoull(pdu.substr(0, 2 * octets), nullptr, 16) & ((1u << bits) - 1);
        if (product_count(least, sequence, bits) != wanted) std::cout << "test " << test << ": COUNT " << product_count(least, sequence, bits) << ", wanted " << wanted << "\n";
    }
    std::cout << "all vectors are read\n";
}
