// The header from C++: constants, and calls that link.
#include "ctc_records.h"

#include <cstddef>
#include <cstdint>
#include <cstdio>
#include <vector>

static_assert(CTC_COUNT_LIMIT == 65535, "the most bytes");
static_assert(CTC_MARKS_MOST == 258, "the most marks");
static_assert(CTC_IMAGE_MOST == 66050, "the longest image");
static_assert(CTC_NO_PLACE == 65791, "no place");

static std::uint32_t build(const std::vector<std::uint8_t> &bytes, std::uint8_t density,
                           std::vector<std::uint8_t> &image, std::size_t place = CTC_NO_PLACE)
{
    return ctc_build(bytes.data(), bytes.size(), density, place, image.data(), image.size());
}

static bool five_bytes()
{
    const std::vector<std::uint8_t> expected{0x80, 0x02, 1, 2, 3, 4, 5};
    std::vector<std::uint8_t> image(ctc_image_length(5, CTC_DENSITY_MFM));
    return build({1, 2, 3, 4, 5}, CTC_DENSITY_MFM, image) == CTC_DONE && image == expected;
}

// The third byte came with bad parity; a sixth there is not.
static bool bad_parity()
{
    const std::vector<std::uint8_t> bytes{1, 2, 3, 4, 5}, expected{0x80, 0x02, 1, 2, 3, 0, 0};
    std::vector<std::uint8_t> image(ctc_image_length(5, CTC_DENSITY_MFM));
    return build(bytes, CTC_DENSITY_MFM, image, 2) == CTC_DONE && image == expected &&
           build(bytes, CTC_DENSITY_MFM, image, 5) == CTC_REFUSED_PLACE && image == expected;
}

// The longest record comes back, and one byte more is refused.
static bool the_limit()
{
    std::vector<std::uint8_t> bytes(CTC_COUNT_LIMIT, 0x5A), image(CTC_IMAGE_MOST);
    std::vector<std::uint8_t> out(bytes.size());
    const std::vector<std::uint8_t> marks(CTC_MARKS_MOST, CTC_MARK_GOOD);
    const bool back = build(bytes, CTC_DENSITY_GCR, image) == CTC_DONE &&
                      ctc_restore(image.data(), image.size(), marks.data(), marks.size(),
                                  out.data(), out.size()) == CTC_DONE &&
                      out == bytes;
    bytes.push_back(0x5A);
    return back && build(bytes, CTC_DENSITY_GCR, image) == CTC_REFUSED_LENGTH;
}

// Two passes of a record, each with a bad blockette of its own, become one without errors.
static bool two_passes()
{
    std::vector<std::uint8_t> first(770), second, image(770), first_marks{4, 15, 15}, marks(3);
    const std::vector<std::uint8_t> second_marks{15, 15, 9}, good(3, CTC_MARK_GOOD);
    const bool built = build({1, 2, 3, 4, 5}, CTC_DENSITY_GCR, first) == CTC_DONE;
    const std::vector<std::uint8_t> expected = second = first;
    const auto merged = [&] {
        return ctc_merge(first.data(), first.size(), first_marks.data(), first_marks.size(),
                         second.data(), second.size(), second_marks.data(), second_marks.size(),
                         image.data(), image.size(), marks.data(), marks.size());
    };
    first[2] = second[769] = 0x5A;
    const bool done = merged() == CTC_DONE && image == expected && marks == good;
    first_marks[0] = CTC_MARK_GOOD;
    const bool unlike = merged() == CTC_REFUSED_UNLIKE;
    first[1] ^= 1;
    return built && done && unlike && merged() == CTC_REFUSED_COUNTS;
}

// Data 0, check 1, check 0: each tells its parity once it is changed.
static bool verified()
{
    std::vector<std::uint8_t> image(770);
    const auto told = [&] { return ctc_verify(image.data(), image.size()); };
    bool right = build({1, 2, 3, 4, 5}, CTC_DENSITY_GCR, image) == CTC_DONE && told() == CTC_DONE;
    image[2 + 256] ^= 1;
    right = right && told() == CTC_UNFIT_ODD;
    image[2] ^= 1;
    right = right && told() == (CTC_UNFIT_ODD | CTC_UNFIT_EVEN);
    image[2 + 256] ^= 1;
    right = right && told() == CTC_UNFIT_EVEN;
    image.pop_back();
    return right && told() == CTC_REFUSED_LENGTH;
}

int main()
{
    const int passed = five_bytes() + bad_parity() + the_limit() + two_passes() + verified();
    std::printf("%d passed, %d failed\n", passed, 5 - passed);
    return passed == 5 ? 0 : 1;
}
