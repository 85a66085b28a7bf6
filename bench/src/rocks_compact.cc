// RocksDB's CompactRange over the cells of bench/compactions.py.
//   rocks_compact fill DIR CELLS FILES   puts each file's cells and flushes them; behind the first file each tenth cell deletes a
//                                        put of the file before
//   rocks_compact compact DIR            one compaction of all of it, down to the last level: user and system seconds of all
//                                        threads, seconds by the clock, and the most memory of the process in MiB
#include "load.h"
#include <chrono>
#include <cstdio>
#include <cstdlib>
#include <rocksdb/db.h>
#include <rocksdb/options.h>
#include <sys/resource.h>
#include <vector>
using namespace rocksdb;
static void must(const Status &s) { if (!s.ok()) { fprintf(stderr, "rocks_compact: %s\n", s.ToString().c_str()); exit(2); } }
static double used() {
  rusage r; getrusage(RUSAGE_SELF, &r);
  return r.ru_utime.tv_sec + r.ru_stime.tv_sec + (r.ru_utime.tv_usec + r.ru_stime.tv_usec) / 1e6;
}
static double now() { return std::chrono::duration<double>(std::chrono::steady_clock::now().time_since_epoch()).count(); }
static uint64_t entries(DB *db) {
  TablePropertiesCollection all; must(db->GetPropertiesOfAllTables(&all)); uint64_t n = 0; for (auto &p : all) n += p.second->num_entries;
  return n;
}

static DB *opened(const char *dir) {
  Options o; o.create_if_missing = true; o.compression = kNoCompression; o.write_buffer_size = 1u << 30; o.disable_auto_compactions = true;
  o.level0_file_num_compaction_trigger = o.level0_slowdown_writes_trigger = o.level0_stop_writes_trigger = 1 << 20;
  DB *db; must(DB::Open(o, dir, &db)); return db;
}
static void fill(DB *db, uint64_t cells, uint64_t files) {
  uint64_t each = cells / files; std::vector<Rec> recs(cells); Gen g(0, 1, 1); for (auto &r : recs) { g.step(); r.of(g); }
  WriteOptions w; w.disableWAL = true;
  for (uint64_t f = 0; f < files; ++f) {
    for (uint64_t i = f * each; i < (f + 1) * each; ++i) {
      bool gone = f && i % 10 == 9; Rec &r = recs[gone ? i - each - 5 : i]; Slice key((const char *)r.key, r.klen);
      must(gone ? db->Delete(w, key) : db->Put(w, key, Slice((const char *)r.val, r.vlen)));
    }
    must(db->Flush(FlushOptions()));
  }
}
static void compact(DB *db) {
  std::string files; db->GetProperty("rocksdb.num-files-at-level0", &files);
  uint64_t before = entries(db); CompactRangeOptions c;
  double u = used(), t = now(); must(db->CompactRange(c, nullptr, nullptr)); u = used() - u; t = now() - t;
  uint64_t after = entries(db); rusage r; getrusage(RUSAGE_SELF, &r);
  printf("files=%s before=%llu after=%llu used=%.3f clock=%.3f memory=%.1f\n", files.c_str(), (unsigned long long)before, (unsigned long long)after, u, t, r.ru_maxrss / 1024.0);
}

int main(int argc, char **argv) {
  std::string mode = argc > 2 ? argv[1] : "";
  if (mode == "fill" && argc == 5) { DB *db = opened(argv[2]); fill(db, strtoull(argv[3], 0, 10), strtoull(argv[4], 0, 10)); delete db; return 0; }
  if (mode == "compact" && argc == 3) { DB *db = opened(argv[2]); compact(db); delete db; return 0; }
  fprintf(stderr, "usage: rocks_compact fill DIR CELLS FILES | compact DIR\n"); return 2;
}
