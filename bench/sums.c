// The loops of bench/sums on fractions of 128-bit parts: each operation is brought to lowest terms by Euclid's
// algorithm, and fails where a part of the result is past 2^63 - 1, as in a sheet.
// usage: sums whole|telescope|cycle ROUNDS
#include <stdio.h>
#include <stdlib.h>
#include <string.h>

typedef __int128 wide;
typedef struct {
  wide num, den;
} frac;

static const wide widest = 0x7fffffffffffffff;

static void fail(const char *kind) {
  printf("fault: %s\n", kind);
  exit(1);
}

// num / den in lowest terms, with a positive denominator
static frac lowest(wide num, wide den) {
  if (den == 0) fail("zero divisor");
  wide a = num < 0 ? -num : num, b = den < 0 ? -den : den;
  while (b != 0) {
    wide rest = a % b;
    a = b;
    b = rest;
  }
  if (den < 0) a = -a;
  frac f = {num / a, den / a};
  if (f.num > widest || f.num < -widest || f.den > widest) fail("width");
  return f;
}

static frac whole(long long n) {
  frac f = {n, 1};
  return f;
}

static frac add(frac x, frac y) { return lowest(x.num * y.den + y.num * x.den, x.den * y.den); }
static frac sub(frac x, frac y) { return lowest(x.num * y.den - y.num * x.den, x.den * y.den); }
static frac mul(frac x, frac y) { return lowest(x.num * y.num, x.den * y.den); }
static frac quotient(frac x, frac y) { return lowest(x.num * y.den, x.den * y.num); }
static int less(frac x, frac y) { return x.num * y.den < y.num * x.den; }

// sum(i, 1, n, i)
static frac sum_of_wholes(long long n) {
  frac sum = whole(0);
  for (long long i = 1; i <= n; i++) sum = add(sum, whole(i));
  return sum;
}

// sum(i, 1, n, 1 / (i * (i + 1)))
static frac telescope(long long n) {
  frac sum = whole(0);
  for (long long i = 1; i <= n; i++) sum = add(sum, quotient(whole(1), mul(whole(i), add(whole(i), whole(1)))));
  return sum;
}

// iter(x, a, n, if x < 1 then 1 / (1 - x) else 1 - x)
static frac cycle(frac a, long long n) {
  frac x = a;
  for (long long round = 0; round < n; round++)
    x = less(x, whole(1)) ? quotient(whole(1), sub(whole(1), x)) : sub(whole(1), x);
  return x;
}

int main(int count, char **words) {
  if (count != 3) return 2;
  long long n = atoll(words[2]);
  frac value;
  if (!strcmp(words[1], "whole")) value = sum_of_wholes(n);
  else if (!strcmp(words[1], "telescope")) value = telescope(n);
  else if (!strcmp(words[1], "cycle")) value = cycle(lowest(1234567891, 987654321), n);
  else return 2;
  if (value.den == 1) printf("%lld\n", (long long)value.num);
  else printf("%lld/%lld\n", (long long)value.num, (long long)value.den);
  return 0;
}
