// Times zxing-cpp's ReadBarcode and MultiFormatWriter: zxing_cpp FOLDER
//
// The reader gets an image and finds target, position and mode in it. All that would make it look for more is turned off, and the image is
// the smallest that it takes, so that no time goes into pixels that hold no module.
// Without this the header warns of a change to come.
#define ZX_USE_UTF8 1

#include "cases.h"
#include "times.h"

#include <BitMatrix.h>
#include <DecodeHints.h>
#include <MultiFormatWriter.h>
#include <ReadBarcode.h>

#include <algorithm>
#include <exception>
#include <memory>
#include <optional>
#include <string>
#include <vector>

namespace {

// Its writer has nine levels and no percentages: 2 is 25 percent of the data bits, the nearest to 23 of all.
constexpr int LEVEL = 2;

// A pixel a module and no border, since it takes that: dark is 0.
std::vector<uint8_t> pixels(const grid &grid) {
  std::vector<uint8_t> made;
  for (int i = 0; i < grid.side * grid.side; i++)
    made.push_back(grid.modules[i] == 1 ? 0 : 255);
  return made;
}

ZXing::DecodeHints hints() {
  return ZXing::DecodeHints()
      .setFormats(ZXing::BarcodeFormat::Aztec)
      .setTryHarder(false)
      .setTryRotate(false)
      .setTryDownscale(false)
      .setIsPure(true)
      .setBinarizer(ZXing::Binarizer::BoolCast);
}

struct Reading {
  const timed_case &given;
  std::vector<uint8_t> image;
  ZXing::DecodeHints asked = hints();
  ZXing::Result result;

  explicit Reading(const timed_case &given) : given(given), image(pixels(given.grid)) {}

  void once() {
    int side = given.grid.side;
    ZXing::ImageView view(image.data(), side, side, ZXing::ImageFormat::Lum);
    result = ZXing::ReadBarcode(view, asked);
  }

  const char *judged() const {
    if (!result.isValid())
      return "none";
    const auto &bytes = result.bytes();
    const uint8_t *due = given.message;
    return std::equal(bytes.begin(), bytes.end(), due, due + given.length) ? "right" : "wrong";
  }
};

struct Making {
  // A character a byte: a std::string would be taken for UTF-8.
  std::wstring message;
  std::optional<ZXing::BitMatrix> made;

  explicit Making(const timed_case &given) : message(given.message, given.message + given.length) {}

  void once() {
    ZXing::MultiFormatWriter writer(ZXing::BarcodeFormat::Aztec);
    writer.setEccLevel(LEVEL).setMargin(0);
    try {
      made.emplace(writer.encode(message, 0, 0));
    } catch (const std::exception &) {
      made.reset();
    }
  }

  // What was made is judged later, by another program.
  const char *judged() const { return made ? "made" : "none"; }

  void write(const char *folder, const char *name) const {
    auto to = std::make_unique<grid>();
    to->side = made->width();
    for (int y = 0; y < to->side; y++)
      for (int x = 0; x < to->side; x++)
        to->modules[y * to->side + x] = made->get(x, y);
    write_grid(folder, name, "zxing_cpp", to.get());
  }
};

template <class Work> void time_it(const char *what, const char *name, Work &work) {
  timed(
      what, name, [](void *with) { static_cast<Work *>(with)->once(); },
      [](void *with) { return static_cast<Work *>(with)->judged(); }, &work);
}

} // namespace

int main(int argc, char **argv) {
  if (argc != 2)
    return 2;
  static timed_case cases[MOST_CASES];
  int count = read_cases(argv[1], cases);
  for (int i = 0; i < count; i++) {
    Reading reading(cases[i]);
    time_it("read", cases[i].name, reading);
  }
  for (int i = 0; i < count; i++) {
    if (cases[i].wrong != 0)
      continue;
    Making making(cases[i]);
    time_it("make", cases[i].name, making);
    if (making.made)
      making.write(argv[1], cases[i].name);
  }
  return 0;
}
