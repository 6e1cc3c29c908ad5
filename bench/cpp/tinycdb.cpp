// tinycdb: Bernstein's constant database, a file that is written once and then only read, mapped. A record is added without
// a look whether its key is there.
#include "../common/workload.hpp"
#include <cdb.h>
#include <cerrno>
#include <fcntl.h>
using namespace bench;
template <class K, class V>
struct TinyCdb {
  static constexpr const char* name = "tinycdb";
  static constexpr bool threads_ok = false, has_file = true, written_once = true;
  int fd;
  bool only_read;
  cdb_make made;
  cdb db;
  static void must(bool ok) {
    if (!ok) die(name, strerror(errno));
  }
  explicit TinyCdb(const Setup& s, bool only_read = false) : only_read(only_read) {
    fd = open(s.path.c_str(), only_read ? O_RDONLY : O_RDWR | O_CREAT | O_TRUNC, 0600);
    must(fd >= 0);
    must((only_read ? cdb_init(&db, fd) : cdb_make_start(&made, fd)) == 0);
  }
  static TinyCdb* reopen(const Setup& s) { return new TinyCdb(s, true); }
  static TinyCdb* open_to_read(const Setup& s) { return reopen(s); }
  void finish() {
    if (only_read) cdb_free(&db);
    else must(cdb_make_finish(&made) == 0);
    must(close(fd) == 0);
  }
  struct Session {
    TinyCdb& t;
    explicit Session(TinyCdb& t) : t(t) {}
    bool insert(const K& k, const V& v) {
      must(cdb_make_add(&t.made, &k, sizeof k, &v, sizeof v) == 0);
      return true;
    }
    bool search(const K& k, V& v) {
      int found = cdb_find(&t.db, &k, sizeof k);
      must(found >= 0);
      if (!found) return false;
      const void* data = cdb_getdata(&t.db);
      must(data && cdb_datalen(&t.db) == sizeof v);
      memcpy(&v, data, sizeof v);
      return true;
    }
    bool remove(const K&) { die(name, "no deletes"); }
  };
};
int main(int argc, char** argv) { return bench_main<TinyCdb>(argc, argv); }
