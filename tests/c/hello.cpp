// Panel P's file as a caller in C++ makes it, printed in hexadecimal digits.
#include "kahopiru.h"

#include <cstdio>
#include <vector>

int main() {
    kahopiru_panel panel = {};
    panel.cols = panel.rows = 1;
    panel.tile_w = panel.tile_h = panel.full_w = panel.full_h = 64;
    panel.color.has_cicp = 1;
    panel.color.cicp = KAHOPIRU_CICP_UNSPECIFIED;

    const uint8_t color_hvcc[] = {1, 1}, alpha_hvcc[] = {1, 4}, color = 0xAA, alpha = 0xBB;
    const uint32_t one = 1;
    kahopiru_parts parts = {};
    parts.color_hvcc = {color_hvcc, sizeof color_hvcc};
    parts.alpha_hvcc = {alpha_hvcc, sizeof alpha_hvcc};
    parts.color_lengths = parts.alpha_lengths = {&one, 1};
    parts.color_samples = {&color, 1};
    parts.alpha_samples = {&alpha, 1};

    const kahopiru_answer length = kahopiru_parts_length(panel, &parts);
    std::vector<uint8_t> file(static_cast<size_t>(length.length));
    const kahopiru_answer answer = kahopiru_parts_write(panel, &parts, file.data(), file.size());
    if (answer.refusal != KAHOPIRU_ACCEPTED || kahopiru_parts_tile(3, &parts).alpha != 1) {
        std::fprintf(stderr, "c: from C++: %s\n", kahopiru_refusal_text(answer.refusal));
        return 1;
    }
    for (const uint8_t byte : file)
        std::printf("%02x", byte);
    std::printf("\n");
    return 0;
}
