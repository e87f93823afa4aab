// Monitored C as C++20: its types, constants and runtime over flat memory, so that g++ or clang++ makes a native program of a text that `launcher/native.awk`
// has rewritten. What is due is said in docs/MONITORED.md. It isn't proved.
#pragma once

#include <bit>
#include <csignal>
#include <cstddef>
#include <cstdint>
#include <cstring>
#include <pthread.h>
#include <sys/mman.h>
#include <unistd.h>

// It is compiled by -fwrapv, by which arithmetic wraps, and by -fno-strict-aliasing.
// With E_ACSL_APART the runtime stands apart from the code that calls it, so that long functions are compiled in time.
#ifdef E_ACSL_APART
#define E_ACSL_INLINE inline
#else
#define E_ACSL_INLINE [[gnu::always_inline]] inline
#endif
#define E_ACSL_RARE [[gnu::cold, gnu::noinline]] inline

namespace eacsl {

// ---- types

using i8 = std::int8_t;
using u8 = std::uint8_t;
using i16 = std::int16_t;
using u16 = std::uint16_t;
using i32 = std::int32_t;
using u32 = std::uint32_t;
using i64 = std::int64_t;
using u64 = std::uint64_t;
using i128 = __int128;
using u128 = unsigned __int128;

// ---- limits of a run

constexpr u32 most_frames = 65536;
constexpr u32 greatest_number = 4294967295;
constexpr u32 globals_bytes = 1048576;
constexpr u32 stack_bytes = 1048576;
constexpr u32 heap_bytes = 16777216;
constexpr u64 default_steps = 10000000;

// ---- ports

inline char output[4096];
inline u32 output_count = 0;

// Writes all bytes, or none more after a write that fails.
inline bool write_whole(int port, const char *bytes, std::size_t count) {
  while (count > 0) {
    const ssize_t written = write(port, bytes, count);
    if (written <= 0) return false;
    bytes += written;
    count -= static_cast<std::size_t>(written);
  }
  return true;
}

enum Status { exited = 0, broken = 1, full = 4, spent = 5, faulted = 6, read_failed = 7, write_failed = 8, no_memory = 9 };

E_ACSL_RARE void flush() {
  if (!write_whole(STDOUT_FILENO, output, output_count)) _exit(write_failed);
  output_count = 0;
}

inline void emit(char byte) {
  output[output_count++] = byte;
  if (output_count == sizeof output) flush();
}

// After its end the input isn't asked again.
inline bool input_ended = false;

// ---- how a run ends

// a number in decimal, which ends where `room` does
struct Decimal {
  char room[24];
  std::size_t begin = sizeof room;

  Decimal(u64 magnitude, bool negative) {
    do {
      room[--begin] = static_cast<char>('0' + magnitude % 10);
      magnitude /= 10;
    } while (magnitude > 0);
    if (negative) room[--begin] = '-';
  }
  const char *bytes() const { return room + begin; }
  std::size_t count() const { return sizeof room - begin; }
};

inline Decimal decimal_of(i64 number) {
  const u64 magnitude = static_cast<u64>(number);
  return Decimal(number < 0 ? 0 - magnitude : magnitude, number < 0);
}

// the line on the error output
struct Line {
  char bytes[128];
  std::size_t count = 0;

  Line() { add("eacsl: "); }
  void add(const char *words) { add(words, std::strlen(words)); }
  void add(i64 number) {
    const Decimal decimal = decimal_of(number);
    add(decimal.bytes(), decimal.count());
  }
  void add(const char *more, std::size_t length) {
    std::memcpy(bytes + count, more, length);
    count += length;
  }
};

// Writes what is left of the output, and then the line.
[[noreturn]] E_ACSL_RARE void stop(Status status, Line &line) {
  flush();
  line.add("\n");
  _exit(write_whole(STDERR_FILENO, line.bytes, line.count) ? status : write_failed);
}

[[noreturn]] E_ACSL_RARE void stop(Status status, const char *words) {
  Line line;
  line.add(words);
  stop(status, line);
}

[[noreturn]] E_ACSL_RARE void stop_at_exit(i32 value) {
  Line line;
  line.add("exit ");
  line.add(value);
  stop(exited, line);
}

[[noreturn]] E_ACSL_RARE void stop_at_annotation(u32 annotation, u32 source_line, const char *kind, bool defined) {
  Line line;
  line.add("annotation ");
  line.add(annotation);
  line.add(", line ");
  line.add(source_line);
  line.add(": ");
  line.add(kind);
  line.add(defined ? " is false" : " is undefined");
  stop(broken, line);
}

[[noreturn]] E_ACSL_RARE void stop_at_fault() { stop(faulted, "fault"); }
[[noreturn]] E_ACSL_RARE void stop_without_frame() { stop(full, "full frames"); }
[[noreturn]] E_ACSL_RARE void stop_without_number() { stop(full, "full numbers"); }
[[noreturn]] E_ACSL_RARE void stop_without_stack() { stop(full, "full stack"); }
[[noreturn]] E_ACSL_RARE void stop_without_heap() { stop(full, "full heap"); }
[[noreturn]] E_ACSL_RARE void stop_without_memory() { stop(no_memory, "out of memory"); }
[[noreturn]] E_ACSL_RARE void stop_without_step() { stop(spent, "steps spent"); }

// ---- operators that C++ leaves undefined somewhere: a zero divisor is a fault, the least value divided by -1 is itself, and a shift's count is
// taken modulo the width

template <class T> E_ACSL_INLINE T quotient_in(T a, T b) {
  if (b == 0) stop_at_fault();
  if (static_cast<T>(-1) < 0 && b == static_cast<T>(-1)) return -a;
  return a / b;
}

template <class T> E_ACSL_INLINE T remainder_in(T a, T b) {
  if (b == 0) stop_at_fault();
  if (static_cast<T>(-1) < 0 && b == static_cast<T>(-1)) return 0;
  return a % b;
}

template <class T> E_ACSL_INLINE u32 shift_count(T b) { return static_cast<u32>(b) % (8 * sizeof(T)); }

// by types and not as templates, since a relation's truth is an i32 too
#define E_ACSL_OPERATORS(T) \
  E_ACSL_INLINE T quotient(T a, T b) { return quotient_in<T>(a, b); } \
  E_ACSL_INLINE T remainder(T a, T b) { return remainder_in<T>(a, b); } \
  E_ACSL_INLINE T shifted_up(T a, T b) { return a << shift_count<T>(b); } \
  E_ACSL_INLINE T shifted_down(T a, T b) { return a >> shift_count<T>(b); }

E_ACSL_OPERATORS(i32)
E_ACSL_OPERATORS(u32)
E_ACSL_OPERATORS(i64)
E_ACSL_OPERATORS(u64)
E_ACSL_OPERATORS(i128)
#undef E_ACSL_OPERATORS

// ---- constants

// a number of up to 127 bits, by its digits
consteval i128 operator""_i128(const char *digits) {
  i128 value = 0;
  for (; *digits; digits++) value = 10 * value + (*digits - '0');
  return value;
}

#define I8(x) (static_cast<eacsl::i8>(x))
#define U8(x) (static_cast<eacsl::u8>(x))
#define I16(x) (static_cast<eacsl::i16>(x))
#define U16(x) (static_cast<eacsl::u16>(x))
#define I32(x) (static_cast<eacsl::i32>(x))
#define U32(x) (static_cast<eacsl::u32>(x))
#define I64(x) (static_cast<eacsl::i64>(x##ull))
#define U64(x) (static_cast<eacsl::u64>(x##ull))
#define I128(x) (x##_i128)
#define PTR(x) (eacsl::ptr(0, x))

// ---- memory: three segments at their addresses, and beside each, at fixed distances, a mark for each byte and a record for each unit of 16 bytes

constexpr u32 globals_start = 0x10000000;
constexpr u32 stack_start = 0x40000000;
constexpr u32 heap_start = 0x80000000;

constexpr u32 unit_bytes = 16;
constexpr u32 records_distance = 0x04000000;
constexpr u32 marks_distance = 0x08000000;

// the bytes of the segment that an address can be in, by its upper four bits
constexpr u32 segment_bytes[16] = {0, globals_bytes, 0, 0, stack_bytes, 0, 0, 0, heap_bytes};

enum Mark : u8 { unwritten, number_byte, pointer_piece, loose_piece };

// what a unit's record says of the live block that it belongs to; zeros where it belongs to none
struct Record {
  u32 number;
  u32 start;
  u32 length;
  u32 is_literal;
};
static_assert(sizeof(Record) == unit_bytes);

E_ACSL_INLINE u8 *byte_at(u32 address) { return reinterpret_cast<u8 *>(static_cast<std::uintptr_t>(address)); }
E_ACSL_INLINE u8 *mark_at(u32 address) { return reinterpret_cast<u8 *>(static_cast<std::uintptr_t>(address) + marks_distance); }
E_ACSL_INLINE Record *record_at(u32 address) {
  return reinterpret_cast<Record *>(static_cast<std::uintptr_t>(address / unit_bytes * unit_bytes) + records_distance);
}

// whether so many bytes, a power of two, are aligned at a place of a segment and end inside
template <u32 size> E_ACSL_INLINE bool is_within(u32 at, u32 bytes) { return at % size == 0 && bytes >= size && at <= bytes - size; }

template <u32 size> E_ACSL_INLINE bool is_accessible(u32 address) {
  return is_within<size>(address - stack_start, stack_bytes) || is_within<size>(address % 0x10000000, segment_bytes[address / 0x10000000]);
}

// the units that a block of so many bytes takes, in bytes
constexpr u32 rounded(u32 length) { return unit_bytes * (length / unit_bytes + 1); }

// ---- pointers: the number of a block above an address

struct alignas(8) ptr {
  u32 address;
  u32 number;

  constexpr ptr() : address(0), number(0) {}
  constexpr ptr(u32 block, u32 place) : address(place), number(block) {}

  // what a load or a store goes through
  template <class T> E_ACSL_INLINE explicit operator T *() const {
    if (!is_accessible<sizeof(T)>(address)) [[unlikely]] stop_at_fault();
    return reinterpret_cast<T *>(byte_at(address));
  }
};

E_ACSL_INLINE ptr operator+(ptr p, i64 bytes) { return ptr(p.number, p.address + static_cast<u32>(bytes)); }
E_ACSL_INLINE i64 operator-(ptr p, ptr q) { return static_cast<i64>(p.address) - static_cast<i64>(q.address); }
E_ACSL_INLINE bool operator==(ptr p, ptr q) { return p.number == q.number && p.address == q.address; }
E_ACSL_INLINE bool operator!=(ptr p, ptr q) { return !(p == q); }
E_ACSL_INLINE bool operator<(ptr p, ptr q) { return p.address < q.address; }
E_ACSL_INLINE bool operator<=(ptr p, ptr q) { return p.address <= q.address; }
E_ACSL_INLINE bool operator>(ptr p, ptr q) { return p.address > q.address; }
E_ACSL_INLINE bool operator>=(ptr p, ptr q) { return p.address >= q.address; }

// ---- births and deaths

inline u32 births = 0;

E_ACSL_INLINE void demand_number() {
  if (births == greatest_number) [[unlikely]] stop_without_number();
}

// A birth clears the marks of its units and leaves the bytes.
E_ACSL_INLINE ptr birth(u32 start, u32 length, bool is_literal = false) {
  const u32 number = births + 1;
  const u32 room = rounded(length);
  births = number;
  for (u32 at = 0; at < room; at += unit_bytes) *record_at(start + at) = {number, start, length, is_literal};
  std::memset(mark_at(start), unwritten, room);
  return ptr(number, start);
}

E_ACSL_INLINE void death(u32 start, u32 room) {
  // Most blocks have one unit, for which a call takes longer than what it does.
  if (room == unit_bytes) [[likely]] *record_at(start) = {};
  else std::memset(record_at(start), 0, room);
}

// What is known of the live block with the pointer's number that the unit at its address belongs to. Where there is none the start and the length are 0, a
// start at which nothing lies.
E_ACSL_INLINE Record block_of(ptr p) {
  if (!is_accessible<1>(p.address)) [[unlikely]] return {};
  const Record record = *record_at(p.address);
  return record.number == p.number ? record : Record();
}

// ---- globals and literals: their pointers are known to the compiler, and their births are in the order of the text

struct Content {
  ptr place;
  u32 length;
  // of a literal
  const char *bytes;
};

constexpr ptr first_global = ptr(1, globals_start);
constexpr ptr next_global(ptr global, u32 length) { return ptr(global.number + 1, global.address + rounded(length)); }

inline void begin(const Content &content) {
  const ptr place = birth(content.place.address, content.length, content.bytes != nullptr);
  std::memset(mark_at(place.address), number_byte, content.length);
  if (content.bytes != nullptr) std::memcpy(byte_at(place.address), content.bytes, content.length);
}

// ---- the stack

inline u32 stack_end = stack_start;

// ---- the heap. It is free from its top on. The lengths of the gaps below, in units, are leaves of a tree: the leaf of a unit has the length of the gap that
// begins there, 0 where none does, and each other node the greatest of those below it, so that the first gap that is long enough is found by going down.

constexpr u32 heap_units = heap_bytes / unit_bytes;
constexpr u32 heap_leaves = std::bit_ceil(heap_units);

struct Heap {
  u32 top;
  u32 longest[2 * heap_leaves];
  // Where the gap begins that ends at a unit; where none ends there, anything.
  u32 begin_of[heap_units + 1];

  u32 length_at(u32 unit) const { return longest[heap_leaves + unit]; }

  void set_length(u32 unit, u32 length) {
    u32 node = heap_leaves + unit;
    longest[node] = length;
    for (node /= 2; node > 0; node /= 2) {
      const u32 left = longest[2 * node], right = longest[2 * node + 1];
      const u32 greatest = left > right ? left : right;
      if (longest[node] == greatest) return;
      longest[node] = greatest;
    }
  }

  void add_gap(u32 unit, u32 length) {
    set_length(unit, length);
    begin_of[unit + length] = unit;
  }

  u32 first_gap(u32 units) const {
    u32 node = 1;
    while (node < heap_leaves) {
      node *= 2;
      if (longest[node] < units) node++;
    }
    return node - heap_leaves;
  }

  // Takes so many units at the least place, and gives it; none where there is none.
  bool take(u32 units, u32 &unit) {
    if (longest[1] >= units) {
      unit = first_gap(units);
      const u32 left = length_at(unit) - units;
      if (left > 0) add_gap(unit + units, left);
      set_length(unit, 0);
      return true;
    }
    unit = top;
    if (units > heap_units - top) return false;
    top += units;
    return true;
  }

  // Gives units back, together with the gaps at both ends.
  void give(u32 unit, u32 units) {
    const u32 end = unit + units;
    const u32 before = begin_of[unit];
    const bool joins = length_at(before) > 0 && before + length_at(before) == unit;
    const u32 begin = joins ? before : unit;
    if (end == top) {
      top = begin;
      if (joins) set_length(before, 0);
      return;
    }
    const u32 after = length_at(end);
    add_gap(begin, end + after - begin);
    if (after > 0) set_length(end, 0);
  }
};

inline Heap heap;

inline ptr heap_block(u64 length) {
  demand_number();
  u32 unit = 0;
  if (length >= heap_bytes || !heap.take(rounded(static_cast<u32>(length)) / unit_bytes, unit)) stop_without_heap();
  return birth(heap_start + unit * unit_bytes, static_cast<u32>(length));
}

// ---- steps and calls

inline u64 steps_left = default_steps;
inline u32 frames = 0;

// What a call takes once its arguments are there, a step and a frame, which its end gives back.
struct Call {
  E_ACSL_INLINE Call();
  E_ACSL_INLINE ~Call() { frames--; }
};

}  // namespace eacsl

// ---- the runtime by its names in monitored C

E_ACSL_INLINE void __e_acsl_step() {
  if (eacsl::steps_left == 0) [[unlikely]] eacsl::stop_without_step();
  eacsl::steps_left--;
}

E_ACSL_INLINE eacsl::Call::Call() {
  __e_acsl_step();
  if (frames == most_frames) [[unlikely]] stop_without_frame();
  frames++;
}

E_ACSL_INLINE void __e_acsl_assert(eacsl::i32 defined, eacsl::i32 holds, eacsl::u32 annotation, eacsl::u32 line, const char *kind) {
  if (defined == 0 || holds == 0) [[unlikely]] eacsl::stop_at_annotation(annotation, line, kind, defined != 0);
}

E_ACSL_INLINE eacsl::ptr __e_acsl_store_block(eacsl::u64 length) {
  using namespace eacsl;
  demand_number();
  const u32 start = stack_end;
  // The compiler can't know this, and leaves out the tests of loads and stores by it.
  if (start < stack_start || start > stack_start + stack_bytes) __builtin_unreachable();
  if (start & (unit_bytes - 1)) __builtin_unreachable();
  if (length >= stack_bytes || rounded(static_cast<u32>(length)) > stack_start + stack_bytes - start) [[unlikely]] stop_without_stack();
  stack_end = start + rounded(static_cast<u32>(length));
  return birth(start, static_cast<u32>(length));
}

E_ACSL_INLINE void __e_acsl_delete_block(eacsl::ptr p) {
  using namespace eacsl;
  const Record block = block_of(p);
  const u32 room = rounded(block.length);
  if (block.start != p.address || block.start + room != stack_end) [[unlikely]] stop_at_fault();
  death(block.start, room);
  stack_end = block.start;
}

// The marks of a store, which comes right before.
E_ACSL_INLINE void __e_acsl_initialize(eacsl::ptr p, eacsl::u32 size) { std::memset(eacsl::mark_at(p.address), eacsl::number_byte, size); }
E_ACSL_INLINE void __e_acsl_initialize_ptr(eacsl::ptr p) { std::memset(eacsl::mark_at(p.address), eacsl::pointer_piece, 8); }

namespace eacsl {

// A copy of a whole pointer has its pieces, a shorter one loose ones.
template <class T> E_ACSL_INLINE void copy(ptr to, ptr from) {
  const T value = *static_cast<T *>(from);
  u8 marks[sizeof(T)];
  std::memcpy(marks, mark_at(from.address), sizeof(T));
  for (u8 &mark : marks)
    if (sizeof(T) < 8 && mark == pointer_piece) mark = loose_piece;
  *static_cast<T *>(to) = value;
  std::memcpy(mark_at(to.address), marks, sizeof(T));
}

template <class T> E_ACSL_INLINE bool are_number_bytes(u32 address) {
  T marks;
  std::memcpy(&marks, mark_at(address), sizeof marks);
  return marks == static_cast<T>(0x0101010101010101);
}

E_ACSL_INLINE bool are_number_bytes(u32 address, u32 size) {
  switch (size) {
  case 1: return are_number_bytes<u8>(address);
  case 2: return are_number_bytes<u16>(address);
  case 4: return are_number_bytes<u32>(address);
  case 8: return are_number_bytes<u64>(address);
  default: return are_number_bytes<u64>(address) && are_number_bytes<u64>(address + 8);
  }
}

// whether so many bytes from an offset on lie in the pointer's live block, at a multiple of their number, and all are bytes of numbers
E_ACSL_INLINE bool is_number(ptr p, i128 offset, u32 size) {
  const Record block = block_of(p);
  const i128 at = (p.address - block.start) + offset;
  if (at < 0 || at > block.length) return false;
  const u32 place = static_cast<u32>(at);
  return place + size <= block.length && place % size == 0 && are_number_bytes(block.start + place, size);
}

// so many bytes from an offset on, if they lie in the pointer's live block, at a multiple of the alignment in it
struct Range {
  Record block;
  i128 offset;
  bool is_there;

  E_ACSL_INLINE Range(ptr p, i128 from, i128 bytes, u32 alignment) : block(block_of(p)), offset((p.address - block.start) + from) {
    is_there = block.start != 0 && offset >= 0 && offset <= block.length && bytes <= block.length - offset && offset % alignment == 0;
  }
  u32 address() const { return block.start + static_cast<u32>(offset); }
};

// One past the end is inside too.
struct Place : Range {
  E_ACSL_INLINE Place(ptr p, i128 from) : Range(p, from, 0, 1) {}
};

E_ACSL_INLINE u128 above_zero(i128 number) { return number > 0 ? static_cast<u128>(number) : 0; }
E_ACSL_INLINE u128 below_zero(i128 number) { return number < 0 ? -static_cast<u128>(number) : 0; }

}  // namespace eacsl

E_ACSL_INLINE void __e_acsl_copy(eacsl::ptr to, eacsl::ptr from, eacsl::u32 size) {
  using namespace eacsl;
  switch (size) {
  case 1: return copy<u8>(to, from);
  case 2: return copy<u16>(to, from);
  case 4: return copy<u32>(to, from);
  default: return copy<u64>(to, from);
  }
}

E_ACSL_INLINE eacsl::i32 __e_acsl_number(eacsl::ptr p, eacsl::i128 offset, eacsl::u32 size) { return eacsl::is_number(p, offset, size); }

// No bytes are always valid.
E_ACSL_INLINE eacsl::i32 __e_acsl_valid(eacsl::ptr p, eacsl::i128 offset, eacsl::i128 bytes, eacsl::u32 alignment) {
  if (bytes <= 0) return true;
  const eacsl::Range range(p, offset, bytes, alignment);
  return range.is_there && !range.block.is_literal;
}

E_ACSL_INLINE eacsl::i32 __e_acsl_valid_read(eacsl::ptr p, eacsl::i128 offset, eacsl::i128 bytes, eacsl::u32 alignment) {
  return bytes <= 0 || eacsl::Range(p, offset, bytes, alignment).is_there;
}

inline eacsl::i32 __e_acsl_initialized(eacsl::ptr p, eacsl::i128 offset, eacsl::i128 bytes, eacsl::u32 alignment) {
  using namespace eacsl;
  if (bytes <= 0) return true;
  const Range range(p, offset, bytes, alignment);
  return range.is_there && std::memchr(mark_at(range.address()), unwritten, static_cast<std::size_t>(bytes)) == nullptr;
}

// eight pieces of pointers, or the number 0
E_ACSL_INLINE eacsl::i32 __e_acsl_pointer(eacsl::ptr p, eacsl::i128 offset) {
  using namespace eacsl;
  const Range range(p, offset, 8, 8);
  if (!range.is_there) return false;
  u64 marks, value;
  std::memcpy(&marks, mark_at(range.address()), sizeof marks);
  std::memcpy(&value, byte_at(range.address()), sizeof value);
  return marks == 0x0202020202020202 || (marks == 0x0101010101010101 && value == 0);
}

E_ACSL_INLINE eacsl::i32 __e_acsl_inside(eacsl::ptr p, eacsl::i128 offset) { return eacsl::Place(p, offset).is_there; }

E_ACSL_INLINE eacsl::ptr __e_acsl_base_addr(eacsl::ptr p, eacsl::i128 offset) {
  const eacsl::Place place(p, offset);
  return place.is_there ? eacsl::ptr(p.number, place.block.start) : eacsl::ptr();
}

E_ACSL_INLINE eacsl::i64 __e_acsl_block_length(eacsl::ptr p, eacsl::i128 offset) {
  const eacsl::Place place(p, offset);
  return place.is_there ? place.block.length : 0;
}

E_ACSL_INLINE eacsl::i64 __e_acsl_offset(eacsl::ptr p, eacsl::i128 offset) {
  const eacsl::Place place(p, offset);
  return place.is_there ? static_cast<eacsl::i64>(place.offset) : 0;
}

// Parts of the beginnings that are below zero stand on the other side; a sum that passes 128 bits is farther away than a range is long.
inline eacsl::i32 __e_acsl_separated(eacsl::ptr p, eacsl::i128 o, eacsl::i128 n, eacsl::ptr q, eacsl::i128 u, eacsl::i128 m) {
  using namespace eacsl;
  if (n <= 0 || m <= 0 || p.number != q.number) return true;
  u128 first, second;
  if (__builtin_add_overflow(p.address + above_zero(o), below_zero(u), &first)) return true;
  if (__builtin_add_overflow(q.address + above_zero(u), below_zero(o), &second)) return true;
  return first <= second ? second - first >= above_zero(n) : first - second >= above_zero(m);
}

inline eacsl::ptr __e_acsl_malloc(eacsl::u64 length) { return length == 0 ? eacsl::ptr() : eacsl::heap_block(length); }

inline eacsl::ptr __e_acsl_calloc(eacsl::u64 count, eacsl::u64 size) {
  using namespace eacsl;
  const u128 product = static_cast<u128>(count) * size;
  const u64 length = product > heap_bytes ? heap_bytes : static_cast<u64>(product);
  const ptr start = __e_acsl_malloc(length);
  if (length > 0) {
    std::memset(byte_at(start.address), 0, length);
    std::memset(mark_at(start.address), number_byte, length);
  }
  return start;
}

inline void __e_acsl_free(eacsl::ptr p) {
  using namespace eacsl;
  if (p == ptr()) return;
  const Record block = block_of(p);
  if (block.start != p.address || block.start < heap_start) stop_at_fault();
  death(block.start, rounded(block.length));
  heap.give((block.start - heap_start) / unit_bytes, rounded(block.length) / unit_bytes);
}

inline eacsl::i32 __e_acsl_putchar(eacsl::i32 value) {
  eacsl::emit(static_cast<char>(value));
  return static_cast<eacsl::u8>(value);
}

inline eacsl::i32 __e_acsl_getchar() {
  using namespace eacsl;
  if (input_ended) return -1;
  u8 byte;
  const ssize_t count = read(STDIN_FILENO, &byte, 1);
  if (count < 0) stop(read_failed, "read fault");
  input_ended = count == 0;
  return input_ended ? -1 : byte;
}

[[noreturn]] inline void __e_acsl_exit(eacsl::i32 value) { eacsl::stop_at_exit(value); }

template <std::size_t size> inline void __e_acsl_print_text(const char (&text)[size]) {
  for (std::size_t at = 0; at + 1 < size; at++) eacsl::emit(text[at]);
}

namespace eacsl {

inline void print(const Decimal &decimal) {
  for (std::size_t at = 0; at < decimal.count(); at++) emit(decimal.bytes()[at]);
}

}  // namespace eacsl

inline void __e_acsl_print_i64(eacsl::i64 number) { eacsl::print(eacsl::decimal_of(number)); }
inline void __e_acsl_print_u64(eacsl::u64 number) { eacsl::print(eacsl::Decimal(number, false)); }

// The bytes up to the first 0. Where they leave their segment before it, they come first and then the fault.
inline void __e_acsl_print_str(eacsl::ptr p) {
  using namespace eacsl;
  for (u32 address = p.address; is_accessible<1>(address); address++) {
    const u8 byte = *byte_at(address);
    if (byte == 0) return;
    emit(static_cast<char>(byte));
  }
  stop_at_fault();
}

#define putchar __e_acsl_putchar
#define getchar __e_acsl_getchar
#define exit __e_acsl_exit

// ---- the start of a program

namespace eacsl {

struct Program {
  i32 (*main)();
  // globals and literals, and after them one without a place
  const Content *contents;
};

// Takes this much of the process's memory, zeros that cost nothing until they are written.
inline bool take(std::uintptr_t address, std::size_t bytes) {
  void *const wanted = reinterpret_cast<void *>(address);
  const int flags = MAP_PRIVATE | MAP_ANONYMOUS | MAP_NORESERVE | MAP_FIXED_NOREPLACE;
  if (mmap(wanted, bytes, PROT_READ | PROT_WRITE, flags, -1, 0) != wanted) return false;
  madvise(wanted, bytes, MADV_NOHUGEPAGE);
  return true;
}

inline bool take_segment(u32 start, u32 bytes) {
  const u32 whole = (bytes + 65535) / 65536 * 65536;
  return take(start, whole) && take(static_cast<std::uintptr_t>(start) + records_distance, whole) && take(static_cast<std::uintptr_t>(start) + marks_distance, whole);
}

inline void take_memory() {
  if (!take_segment(globals_start, globals_bytes) || !take_segment(stack_start, stack_bytes) || !take_segment(heap_start, heap_bytes)) stop_without_memory();
}

inline void stop_at_signal(int) { stop_without_memory(); }

// The stack of the process is no memory of the text's: where it ends memory is wanting.
inline void watch_stack() {
  static char other[65536];
  stack_t stack = {};
  stack.ss_sp = other;
  stack.ss_size = sizeof other;
  sigaltstack(&stack, nullptr);
  struct sigaction action = {};
  action.sa_handler = stop_at_signal;
  action.sa_flags = SA_ONSTACK;
  sigaction(SIGSEGV, &action, nullptr);
  sigaction(SIGBUS, &action, nullptr);
}

inline void *run_whole(void *given) {
  const Program &program = *static_cast<Program *>(given);
  watch_stack();
  for (const Content *content = program.contents; content->place != ptr(); content++) begin(*content);
  frames = 1;
  stop_at_exit(program.main());
}

// The most stack that the system gives, for 65,536 calls at once.
inline bool take_stack(pthread_attr_t &attributes) {
  for (std::size_t bytes = std::size_t(1) << 38; bytes >= std::size_t(1) << 23; bytes /= 2) {
    void *const place = mmap(nullptr, bytes, PROT_READ | PROT_WRITE, MAP_PRIVATE | MAP_ANONYMOUS | MAP_NORESERVE | MAP_STACK, -1, 0);
    if (place == MAP_FAILED) continue;
    madvise(place, bytes, MADV_NOHUGEPAGE);
    mprotect(place, 65536, PROT_NONE);
    return pthread_attr_setstack(&attributes, place, bytes) == 0;
  }
  return false;
}

// Runs a program with so many steps.
inline int run(Program program, u64 steps) {
  signal(SIGPIPE, SIG_IGN);
  steps_left = steps;
  take_memory();
  pthread_attr_t attributes;
  pthread_t thread;
  if (pthread_attr_init(&attributes) != 0 || !take_stack(attributes) || pthread_create(&thread, &attributes, run_whole, &program) != 0) stop_without_memory();
  pthread_join(thread, nullptr);
  return no_memory;
}

// the number of steps in the words `--steps N`
inline u64 steps_in(int count, char **words) {
  if (count != 3) return default_steps;
  u64 steps = 0;
  for (const char *digit = words[2]; *digit; digit++) steps = 10 * steps + static_cast<u64>(*digit - '0');
  return steps;
}

}  // namespace eacsl
