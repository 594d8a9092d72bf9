// The header from C++: a message sealed and opened, with std::array and std::vector.
#include <array>
#include <cstdio>
#include <lte_sec.h>
#include <vector>

int main() {
    ltesec_nas context{};
    context.eea = LTESEC_EEA2;
    context.eia = LTESEC_EIA2;
    std::array<uint8_t, 32> kasme{};
    ltesec_algorithm_key(kasme.data(), 1, 2, context.enc_key);
    ltesec_algorithm_key(kasme.data(), 2, 2, context.int_key);
    const std::vector<uint8_t> text(5000, 0x5a);
    std::vector<uint8_t> pdu(text.size() + 6), back(text.size());
    size_t written = 0;
    ltesec_found found{};
    if (ltesec_nas_seal(&context, 2, LTESEC_UPLINK, text.data(), text.size(), pdu.data(), pdu.size(), &written)) return 1;
    if (ltesec_nas_open(&context, LTESEC_UPLINK, pdu.data(), written, back.data(), back.size(), &found)) return 1;
    if (back != text || found.length != text.size()) return 1;
    std::printf("C++: a message of %zu octets sealed and opened\n", text.size());
}
