// What compiled code calls by name for numbers of 128 bits, in place of a compiler's library. Nothing here may multiply 128 bits, or
// shift them by a number that is not a constant, since that would be a call of itself. Nothing proves this file.

typedef unsigned long word;
typedef unsigned __int128 wide;

static wide joined(word high, word low) { return (wide)high << 64 | low; }

// The product of two words.
static wide product(word x, word y) {
  word low = 0xffffffff, a = x & low, b = x >> 32, c = y & low, d = y >> 32;
  word first = a * c, second = b * c + (first >> 32), third = a * d + (second & low);
  return joined(b * d + (second >> 32) + (third >> 32), third << 32 | (first & low));
}

wide __multi3(wide x, wide y) {
  word a = (word)x, b = (word)y;
  wide low = product(a, b);
  return joined((word)(low >> 64) + a * (word)(y >> 64) + (word)(x >> 64) * b, (word)low);
}

// The shifts, by 0 to 127.
wide __ashlti3(wide x, int by) {
  word low = (word)x, high = (word)(x >> 64);
  if (by >= 64) return joined(low << (by - 64), 0);
  return by ? joined(high << by | low >> (64 - by), low << by) : x;
}

wide __lshrti3(wide x, int by) {
  word low = (word)x, high = (word)(x >> 64);
  if (by >= 64) return joined(0, high >> (by - 64));
  return by ? joined(high >> by, low >> by | high << (64 - by)) : x;
}

__int128 __ashrti3(__int128 x, int by) {
  word low = (word)x;
  long high = (long)(x >> 64);
  if (by >= 64) return (__int128)joined((word)(high >> 63), (word)(high >> (by - 64)));
  return by ? (__int128)joined((word)(high >> by), low >> by | (word)high << (64 - by)) : x;
}
