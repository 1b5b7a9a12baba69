// OpenFst's way within one process: the same steps as the tools, timed without starting programs or writing files.
#include <fst/fstlib.h>

#include <algorithm>
#include <cstdio>
#include <cstdlib>
#include <ctime>
#include <string>
#include <vector>

using fst::StdArc;
using fst::StdVectorFst;

// Trims, pushes outputs to the beginning, and encodes labels in pairs.
static StdVectorFst prepared(const StdVectorFst &raw, fst::EncodeMapper<StdArc> *encoder) {
  StdVectorFst trimmed = raw;
  fst::Connect(&trimmed);
  StdVectorFst pushed;
  fst::Push<StdArc, fst::REWEIGHT_TO_INITIAL>(trimmed, &pushed, fst::kPushLabels);
  fst::RmEpsilon(&pushed);
  fst::Encode(&pushed, encoder);
  return pushed;
}

// The processor time of this process, in microseconds.
static double now() {
  timespec time;
  clock_gettime(CLOCK_PROCESS_CPUTIME_ID, &time);
  return time.tv_sec * 1e6 + time.tv_nsec / 1e3;
}

static double median(std::vector<double> times) {
  std::sort(times.begin(), times.end());
  return times[times.size() / 2];
}

int main(int argc, char **argv) {
  if (argc != 4) return 2;
  const StdVectorFst *a = StdVectorFst::Read(argv[1]);
  const StdVectorFst *b = StdVectorFst::Read(argv[2]);
  const int runs = std::atoi(argv[3]);
  std::vector<double> all, decide;
  bool same = false;
  for (int i = 0; i < runs; ++i) {
    const double start = now();
    fst::EncodeMapper<StdArc> encoder(fst::kEncodeLabels, fst::ENCODE);
    const StdVectorFst x = prepared(*a, &encoder);
    const StdVectorFst y = prepared(*b, &encoder);
    const double ready = now();
    same = fst::Equivalent(x, y);
    const double end = now();
    all.push_back(end - start);
    decide.push_back(end - ready);
  }
  std::printf("%d %.3f %.3f\n", same ? 1 : 0, median(all), median(decide));
  return 0;
}
