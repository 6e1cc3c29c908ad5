// The twin: the design of the file before records grew, written straight in C++ with nothing proved.
// Beside it one sees what the design costs, apart from what its proved form costs.
// N = 1, b = 14, g = 100, max = 65,536; slots of 72 bytes (W9: 152); a reader-writer lock for each bucket, local levels,
// one root word, one stamp for each act, two counts; segments on demand; images of version 1.
#pragma once
#include "../common/workload.hpp"
#include <mutex>
#include <shared_mutex>
namespace bench {

template <bool STAMPS, bool TAGS, class Name, class K, class V>
struct Twin {
  static constexpr const char* name = Name::text;
  static constexpr bool threads_ok = true, has_file = true;
  static constexpr uint32_t PAGE = 14, LOAD = 100, MAX = 65536;
  struct Slot {
    uint8_t key_len, value_len, key[std::max<size_t>(30, sizeof(K))], value[std::max<size_t>(40, sizeof(V))];
  };
  struct Page {
    uint32_t used = 0;
    uint8_t tags[PAGE];  // the top byte of each code
    Slot slots[PAGE];
  };
  struct Bucket {
    std::shared_mutex lock;
    int level = -1;  // not filled yet
    std::vector<std::unique_ptr<Page>> pages;
    Slot* find(const K& k, uint64_t c) {
      for (auto& p : pages)
        for (uint32_t i = 0; i < p->used; i++)
          if ((!TAGS || p->tags[i] == c >> 56) && p->slots[i].key_len == sizeof k && memcmp(p->slots[i].key, &k, sizeof k) == 0) return &p->slots[i];
      return nullptr;
    }
    void push(const Slot& s, uint64_t c) {
      if (pages.empty() || pages.back()->used == PAGE) pages.emplace_back(new Page);
      Page& p = *pages.back();
      if (TAGS) p.tags[p.used] = (uint8_t)(c >> 56);
      p.slots[p.used++] = s;
    }
    void drop(Slot* hole) {  // the last record moves into the hole
      Page& p = *pages.back();
      *hole = p.slots[--p.used];
      if (TAGS)
        for (auto& q : pages)
          if (hole >= q->slots && hole < q->slots + PAGE) q->tags[hole - q->slots] = p.tags[p.used];
      if (p.used == 0) pages.pop_back();
    }
  };

  uint32_t initial = 1;
  alignas(128) std::atomic<uint64_t> root{2};  // twice the buckets, and one while a split has the right
  alignas(128) std::atomic<uint64_t> stamps{0};
  alignas(128) std::atomic<uint64_t> inserted{0};
  alignas(128) std::atomic<uint64_t> deleted{0};
  alignas(128) std::atomic<Bucket*> segments[17] = {};
  std::string path;

  explicit Twin(const Setup& s) : path(s.path) {
    segments[0] = new Bucket[initial];
    bucket(0).level = 0;
  }
  ~Twin() {
    for (auto& segment : segments) delete[] segment.load();
  }
  Bucket& bucket(uint32_t i) {
    if (i < initial) return segments[0].load()[i];
    uint32_t j = 64 - __builtin_clzll(i / initial);  // segment j has N * 2^(j-1) .. N * 2^j
    return segments[j].load()[i - (initial << (j - 1))];
  }
  void make_segment(uint32_t i) {
    uint32_t j = i < initial ? 0 : 64 - __builtin_clzll(i / initial);
    if (segments[j].load()) return;
    Bucket* fresh = new Bucket[initial << (j - 1)];
    Bucket* none = nullptr;
    if (!segments[j].compare_exchange_strong(none, fresh)) delete[] fresh;
  }
  uint32_t hash_at(int i, uint64_t c) const { return (uint32_t)(c % ((uint64_t)initial << i)); }
  void shape(uint32_t buckets, int& level, uint32_t& pointer) const {
    level = 63 - __builtin_clzll(buckets / initial);
    pointer = buckets - (initial << level);
  }
  // The address and the local level there, by the root.
  void aim(uint64_t c, int& k, uint32_t& m) const {
    uint32_t n;
    shape((uint32_t)(root.load() / 2), k, n);
    m = hash_at(k, c);
    if (m < n) m = hash_at(++k, c);
  }
  // Locks the bucket of a code, going up one level at a time.
  template <class Guard>
  Bucket& reach(uint64_t c, Guard& held) {
    int k;
    uint32_t m;
    aim(c, k, m);
    for (;;) {
      Bucket& b = bucket(m);
      held = Guard(b.lock);
      if (b.level == k) return b;
      if (b.level < k) die(name, "defect");
      held.unlock();
      m = hash_at(++k, c);
    }
  }
  void act() {
    if (STAMPS) stamps.fetch_add(1);
  }
  void split_if_wanted() {
    uint64_t r = root.load(), records = inserted.load() - deleted.load();
    uint64_t s = r / 2;
    if (r % 2 || s >= MAX || 100 * records <= (uint64_t)LOAD * PAGE * s) return;
    if (!root.compare_exchange_strong(r, r + 1)) return;
    int level;
    uint32_t n;
    shape((uint32_t)s, level, n);
    make_segment((uint32_t)s);
    Bucket &old = bucket(n), &fresh = bucket((uint32_t)s);
    {
      std::unique_lock<std::shared_mutex> a(old.lock), b(fresh.lock);
      auto pages = std::move(old.pages);
      old.pages.clear();
      for (auto& p : pages)
        for (uint32_t i = 0; i < p->used; i++) {
          K k;
          memcpy(&k, p->slots[i].key, sizeof k);
          uint64_t c = fnv1a(k);
          (hash_at(level + 1, c) == n ? old : fresh).push(p->slots[i], c);
        }
      old.level = fresh.level = level + 1;
    }
    root.fetch_add(1);
  }
  struct Session {
    Twin& t;
    explicit Session(Twin& t) : t(t) {}
    bool insert(const K& k, const V& v) {
      {
        std::unique_lock<std::shared_mutex> held;
        uint64_t c = fnv1a(k);
        Bucket& b = t.reach(c, held);
        bool there = b.find(k, c);
        if (!there) {
          Slot s{sizeof k, sizeof v, {}, {}};
          memcpy(s.key, &k, sizeof k);
          memcpy(s.value, &v, sizeof v);
          b.push(s, c);
        }
        t.act();
        if (there) return false;
        t.inserted.fetch_add(1);
      }
      t.split_if_wanted();
      return true;
    }
    bool search(const K& k, V& v) {
      std::shared_lock<std::shared_mutex> held;
      uint64_t c = fnv1a(k);
      Slot* s = t.reach(c, held).find(k, c);
      if (s) memcpy(&v, s->value, sizeof v);
      t.act();
      return s;
    }
    bool remove(const K& k) {
      std::unique_lock<std::shared_mutex> held;
      uint64_t c = fnv1a(k);
      Bucket& b = t.reach(c, held);
      Slot* s = b.find(k, c);
      if (s) b.drop(s);
      t.act();
      if (s) t.deleted.fetch_add(1);
      return s;
    }
  };

  // The image, page by page.
  static void put(uint8_t* at, uint64_t x, int bytes) { memcpy(at, &x, bytes); }
  static uint32_t get(const uint8_t* at) {
    uint32_t x;
    memcpy(&x, at, 4);
    return x;
  }
  void finish() {
    uint32_t s = (uint32_t)(root.load() / 2), overflow = s + 1;
    uint64_t total = 1;
    for (uint32_t i = 0; i < s; i++) total += std::max<size_t>(1, bucket(i).pages.size());
    FILE* f = fopen(path.c_str(), "wb");
    if (!f) die(name, "open");
    uint8_t page[1024] = {'L', 'H', 'F', '1'};
    put(page + 4, initial, 4), put(page + 8, PAGE, 4), put(page + 12, LOAD, 4), put(page + 16, s, 4);
    put(page + 20, MAX, 4), put(page + 24, total, 4), put(page + 28, inserted - deleted, 8);
    fwrite(page, 1024, 1, f);
    auto write = [&](uint32_t i, size_t j, uint32_t next) {
      Bucket& b = bucket(i);
      memset(page, 0, sizeof page);
      page[0] = j == 0 ? 1 : 2, page[2] = (uint8_t)b.level;
      put(page + 4, i, 4), put(page + 8, next, 4);
      if (j < b.pages.size()) {
        page[1] = (uint8_t)b.pages[j]->used;
        memcpy(page + 16, b.pages[j]->slots, 72 * b.pages[j]->used);
      }
      fwrite(page, 1024, 1, f);
    };
    for (uint32_t i = 0; i < s; i++) {
      size_t n = bucket(i).pages.size();
      write(i, 0, n > 1 ? overflow : 0);
      if (n > 1) overflow += (uint32_t)n - 1;
    }
    overflow = s + 1;
    for (uint32_t i = 0; i < s; i++)
      for (size_t j = 1, n = bucket(i).pages.size(); j < n; j++) write(i, j, j + 1 < n ? ++overflow : (++overflow, 0));
    if (fclose(f)) die(name, "write");
  }
  static Twin* reopen(const Setup& setup) {
    Twin* t = new Twin(setup);
    FILE* f = fopen(setup.path.c_str(), "rb");
    uint8_t page[1024];
    if (!f || !fread(page, 1024, 1, f) || memcmp(page, "LHF1", 4)) die(name, "image");
    uint32_t s = get(page + 16), total = get(page + 24);
    t->inserted = get(page + 28);
    t->root = 2 * (uint64_t)s;
    for (uint32_t p = 1; p < total; p++) {  // a chain's pages stand in their order, as finish wrote them
      if (!fread(page, 1024, 1, f)) die(name, "short");
      uint32_t i = get(page + 4);
      t->make_segment(i);
      Bucket& b = t->bucket(i);
      b.level = page[2];
      for (int k = 0; k < page[1]; k++) {
        Slot slot;
        memcpy(&slot, page + 16 + 72 * k, 72);
        K key;
        memcpy(&key, slot.key, sizeof key);
        uint64_t c = fnv1a(key);
        if (slot.key_len != sizeof key || t->hash_at(b.level, c) != i) die(name, "misfit");
        b.push(slot, c);
      }
    }
    fclose(f);
    return t;
  }
};
}  // namespace bench
