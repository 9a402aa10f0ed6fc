// A pair from C++17: entered, graded by both price lists, each answer told in words.
#include <futtockfig_text.h>

#include <array>
#include <cstdio>
#include <vector>

using Call = std::array<uint32_t, FUTTOCKFIG_CALL_WORDS>;
using Words = std::vector<uint32_t>;

int main() {
    const std::vector<Call> list{
        {FUTTOCKFIG_CREATE_VERTEX, 11, 2, 240117, 0},
        {FUTTOCKFIG_CREATE_VERTEX, 12, 2, 240118, 0},
        {FUTTOCKFIG_CREATE_EDGE, 1, 11, 12, 0},
        {FUTTOCKFIG_CREATE_EDGE, 2, 12, 11, 0},
        {FUTTOCKFIG_SET_READING, 1, FUTTOCKFIG_HEARD, 900, 0},
        {FUTTOCKFIG_GRADE, 11, 12, FUTTOCKFIG_NEW_PRICES, 0},
        {FUTTOCKFIG_SET_READING, 2, FUTTOCKFIG_HEARD, 1300, 0},
        {FUTTOCKFIG_GRADE, 11, 12, FUTTOCKFIG_OLD_PRICES, 0},
        {FUTTOCKFIG_GRADE, 11, 12, FUTTOCKFIG_NEW_PRICES, 0},
    };
    const std::array<uint32_t, FUTTOCKFIG_HEADER_WORDS> start = FUTTOCKFIG_EMPTY_IMAGE;
    const std::array<uint64_t, 5> rows{};
    Words calls;
    for (const Call &call : list) calls.insert(calls.end(), call.begin(), call.end());
    Words vertices(FUTTOCKFIG_VERTEX_WORDS * 20), edges(FUTTOCKFIG_EDGE_WORDS * 20);
    Words journal(FUTTOCKFIG_CHANGE_WORDS * 20), answers(FUTTOCKFIG_ANSWER_WORDS * list.size());
    Words image(FUTTOCKFIG_IMAGE_WORDS(20, 20));
    const futtockfig_result result = futtockfig_run(
        start.data(), start.size(), rows.data(), rows.size(), calls.data(), calls.size(), vertices.data(),
        vertices.size(), edges.data(), edges.size(), journal.data(), journal.size(), answers.data(), answers.size(),
        image.data(), image.size());
    for (std::size_t i = 0; i < result.done; i++)
        std::printf("%u: %s, %u\n", list[i][0], futtockfig_code_text(answers[2 * i]), answers[2 * i + 1]);
    std::printf("%zu words, version %u\n", result.words, futtockfig_version());
    return result.code || answers[10] != FUTTOCKFIG_NOTHING_HEARD || answers[15] != 3 || answers[17] != 4;
}
