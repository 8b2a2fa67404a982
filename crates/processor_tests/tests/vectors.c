/* Prints what a real x86 processor makes of arithmetic, as the rows of the tables under src/arithmetic/.

   cc -O1 -mno-red-zone -o vectors tests/vectors.c
   ./vectors binary            the rows of one table: binary, unary, shift, double_shift, multiply, divide, bit, scan, condition
   ./vectors random N SEED     N random rows of all tables, as plain numbers

   Each row has the operation, the width in bits, its operands, the flags before, the result, and the flags after; all numbers
   but the width are hexadecimal. The flags are words
   of EFLAGS with CF PF AF ZF SF OF and bit 1. A flag that the Intel 80386 manual leaves undefined after the operation is given
   as it was before, and so are a result and flags that it leaves undefined as a whole (a double shift by more places than the
   operand has, a bit scan of 0). Behind a quotient stands a remainder, and where the processor
   refuses the quotient 0 in place of 1, 0 and 0. The conditions 0 to 15 are the bits of one number. */
#include <setjmp.h>
#include <signal.h>
#include <stdint.h>
#include <stdio.h>
#include <stdlib.h>
#include <string.h>

typedef uint32_t u32;
typedef uint64_t u64;

enum { CF = 1, ONE = 2, PF = 4, AF = 0x10, ZF = 0x40, SF = 0x80, OF = 0x800, ALL = CF | PF | AF | ZF | SF | OF };

/* One operation of one width: operands a and b (or a count in CL) in, a result and the flags out. */
typedef u32 (*operation)(u32 a, u32 b, u32 c, u32 *flags);

#define FLAGS_IN "push %[f]\n\tpopf\n\t"
#define FLAGS_OUT "\n\tpushf\n\tpop %[f]"
#define TAKE(type) type x = (type)a, y = (type)b; uint8_t n = (uint8_t)c; u64 f = *flags; (void)y; (void)n;
#define GIVE *flags = ((u32)f & ALL) | ONE; return x;

#define TWO(name, type, suffix) \
  static u32 name##suffix(u32 a, u32 b, u32 c, u32 *flags) { TAKE(type) \
    __asm__ volatile(FLAGS_IN #name " %[y], %[x]" FLAGS_OUT : [x] "+q"(x), [f] "+r"(f) : [y] "q"(y) : "cc", "memory"); GIVE }
#define SINGLE(name, type, suffix) \
  static u32 name##suffix(u32 a, u32 b, u32 c, u32 *flags) { TAKE(type) \
    __asm__ volatile(FLAGS_IN #name " %[x]" FLAGS_OUT : [x] "+q"(x), [f] "+r"(f) : : "cc", "memory"); GIVE }
#define BY_COUNT(name, type, suffix) \
  static u32 name##suffix(u32 a, u32 b, u32 c, u32 *flags) { TAKE(type) \
    __asm__ volatile(FLAGS_IN #name " %%cl, %[x]" FLAGS_OUT : [x] "+r"(x), [f] "+r"(f) : "c"(n) : "cc", "memory"); GIVE }
#define DOUBLE(name, type, suffix) \
  static u32 name##suffix(u32 a, u32 b, u32 c, u32 *flags) { TAKE(type) \
    __asm__ volatile(FLAGS_IN #name " %%cl, %[y], %[x]" FLAGS_OUT : [x] "+r"(x), [f] "+r"(f) : [y] "r"(y), "c"(n) : "cc", "memory"); GIVE }

#define THREE(KIND, name) KIND(name, uint8_t, 8) KIND(name, uint16_t, 16) KIND(name, uint32_t, 32)
#define BOTH(KIND, name) KIND(name, uint16_t, 16) KIND(name, uint32_t, 32)

THREE(TWO, add) THREE(TWO, or) THREE(TWO, adc) THREE(TWO, sbb) THREE(TWO, and) THREE(TWO, sub) THREE(TWO, xor) THREE(TWO, cmp)
THREE(TWO, test) THREE(SINGLE, inc) THREE(SINGLE, dec) THREE(SINGLE, not) THREE(SINGLE, neg)
THREE(BY_COUNT, rol) THREE(BY_COUNT, ror) THREE(BY_COUNT, rcl) THREE(BY_COUNT, rcr) THREE(BY_COUNT, shl) THREE(BY_COUNT, shr)
THREE(BY_COUNT, sar) BOTH(DOUBLE, shld) BOTH(DOUBLE, shrd)
BOTH(TWO, bt) BOTH(TWO, bts) BOTH(TWO, btr) BOTH(TWO, btc) BOTH(TWO, bsf) BOTH(TWO, bsr)

struct row { const char *name; operation of[3]; u32 undefined; };
#define ROW3(label, name, undefined) { label, { name##8, name##16, name##32 }, undefined }
#define ROW2(label, name, undefined) { label, { 0, name##16, name##32 }, undefined }

static const struct row binary[] = {
  ROW3("Add", add, 0), ROW3("Or", or, AF), ROW3("Adc", adc, 0), ROW3("Sbb", sbb, 0), ROW3("And", and, AF), ROW3("Sub", sub, 0),
  ROW3("Xor", xor, AF), ROW3("Cmp", cmp, 0), ROW3("Test", test, AF),
};
static const struct row unary[] = { ROW3("Inc", inc, 0), ROW3("Dec", dec, 0), ROW3("Not", not, 0), ROW3("Neg", neg, 0) };
static const struct row shift[] = {
  ROW3("Rol", rol, 0), ROW3("Ror", ror, 0), ROW3("Rcl", rcl, 0), ROW3("Rcr", rcr, 0), ROW3("Shl", shl, AF), ROW3("Shr", shr, AF),
  ROW3("Sar", sar, AF),
};
static const struct row double_shift[] = { ROW2("Shld", shld, AF | OF), ROW2("Shrd", shrd, AF | OF) };
static const struct row bit[] = {
  ROW2("Bt", bt, OF | SF | AF | PF), ROW2("Bts", bts, OF | SF | AF | PF), ROW2("Btr", btr, OF | SF | AF | PF),
  ROW2("Btc", btc, OF | SF | AF | PF),
};
static const struct row scan[] = { ROW2("Bsf", bsf, CF | OF | SF | AF | PF), ROW2("Bsr", bsr, CF | OF | SF | AF | PF) };
#define COUNT(table) (sizeof table / sizeof *table)

static const u32 bits[3] = { 8, 16, 32 };
static u32 ones(int w) { return bits[w] == 32 ? 0xffffffffu : (1u << bits[w]) - 1; }

static u32 state = 1;
static u32 draw(void) { state = state * 1664525u + 1013904223u; return state >> 16; }
static u32 word(void) { u32 high = draw(); return high << 16 | draw(); }

/* An operand: an edge of the width, or any. */
static u32 operand(int w) {
  u32 top = 1u << (bits[w] - 1);
  const u32 edges[] = { 0, 1, 2, 15, 16, top - 1, top, top + 1, ones(w) - 1, ones(w), top | 15 };
  return draw() % 2 ? edges[draw() % 11] : word() & ones(w);
}
static u32 some_flags(void) {
  u32 kind = draw() % 4;
  return (kind == 0 ? 0 : kind == 1 ? ALL : word() & ALL) | ONE;
}

static int plain; /* whether rows are plain numbers */
static const char *const names[] = { "Add", "Or", "Adc", "Sbb", "And", "Sub", "Xor", "Cmp", "Test", "Inc", "Dec", "Not", "Neg",
  "Rol", "Ror", "Rcl", "Rcr", "Shl", "Shr", "Sar", "Shld", "Shrd", "Bt", "Bts", "Btr", "Btc", "Bsf", "Bsr" };
static void begin(const char *kind, const char *name, int w) {
  if (!plain) { printf("%s %u", name, bits[w]); return; }
  u32 at = 0;
  while (strcmp(names[at], name)) at++;
  printf("%s %u %u", kind, at, bits[w]);
}
static void begin_signed(const char *kind, int is_signed, const char *name, int w) {
  if (plain) printf("%s %d %u", kind, is_signed, bits[w]); else printf("%s %u", name, bits[w]);
}
static void number(u32 n) { printf(plain ? " %u" : " %x", n); }
static void end(void) { puts(""); }
static u32 kept(u32 before, u32 after, u32 undefined) { return (after & ~undefined) | (before & undefined) | ONE; }

static void binary_row(const struct row *r, int w) {
  u32 a = operand(w), b = operand(w), before = some_flags(), after = before;
  u32 value = r->of[w](a, b, 0, &after);
  begin("binary", r->name, w); number(a); number(b); number(before); number(value); number(kept(before, after, r->undefined)); end();
}
static void unary_row(const struct row *r, int w) {
  u32 a = operand(w), before = some_flags(), after = before;
  u32 value = r->of[w](a, 0, 0, &after);
  begin("unary", r->name, w); number(a); number(before); number(value); number(kept(before, after, r->undefined)); end();
}
static void shift_row(const struct row *r, int w, u32 count) {
  u32 a = operand(w), before = some_flags(), after = before, n = count % 32;
  u32 value = r->of[w](a, 0, count, &after);
  u32 undefined = n == 0 ? 0 : r->undefined | (n == 1 ? 0 : OF);
  begin("shift", r->name, w); number(a); number(count); number(before); number(value); number(kept(before, after, undefined)); end();
}
static void double_row(const struct row *r, int w, u32 count) {
  u32 a = operand(w), b = operand(w), before = some_flags(), after = before, n = count % 32;
  u32 value = r->of[w](a, b, count, &after);
  u32 undefined = n == 0 ? 0 : r->undefined;
  if (n > bits[w]) { value = a; undefined = ALL; }
  begin("double", r->name, w); number(a); number(b); number(count); number(before); number(value);
  number(kept(before, after, undefined)); end();
}
static void bit_row(const struct row *r, int w) {
  u32 a = operand(w), place = draw() % 256, before = some_flags(), after = before;
  u32 value = r->of[w](a, place, 0, &after);
  begin("bit", r->name, w); number(a); number(place); number(before); number(value); number(kept(before, after, r->undefined)); end();
}
static void scan_row(const struct row *r, int w) {
  u32 source = operand(w), old = operand(w), before = some_flags(), after = before;
  u32 value = r->of[w](old, source, 0, &after);
  if (source == 0) value = old;
  begin("scan", r->name, w); number(source); number(old); number(before); number(value); number(kept(before, after, r->undefined)); end();
}

static void multiply_row(int is_signed, int w) {
  u32 a = operand(w), b = operand(w), before = some_flags();
  u64 low = a, high = 0, f = before;
#define MUL(insn, reg) __asm__ volatile(FLAGS_IN insn " %" reg "[b]" FLAGS_OUT : "+a"(low), "+d"(high), [f] "+r"(f) : [b] "r"((u64)b) : "cc", "memory")
  if (w == 0) { if (is_signed) MUL("imulb", "b"); else MUL("mulb", "b"); high = low >> 8; }
  else if (w == 1) { if (is_signed) MUL("imulw", "w"); else MUL("mulw", "w"); }
  else { if (is_signed) MUL("imull", "k"); else MUL("mull", "k"); }
  u32 after = kept(before, (u32)f & ALL, SF | ZF | AF | PF);
  begin_signed("multiply", is_signed, is_signed ? "Imul" : "Mul", w); number(a); number(b); number(before); number((u32)low & ones(w)); number((u32)high & ones(w));
  number(after); end();
}

static sigjmp_buf refused;
static void on_error(int signal) { (void)signal; siglongjmp(refused, 1); }
static void divide_row(int is_signed, int w) {
  volatile u32 high = operand(w), low = operand(w), by = operand(w);
  if (draw() % 4) { high = by ? high % by : 0; if (is_signed) high = draw() % 2 ? 0 : ones(w); }
  u64 a = low, d = high;
  begin_signed("divide", is_signed, is_signed ? "Idiv" : "Div", w); number(high); number(low); number(by);
  if (sigsetjmp(refused, 1)) { fputs(plain ? " -" : " 0 0 0", stdout); end(); return; }
#define DIV(insn, reg) __asm__ volatile(insn " %" reg "[b]" : "+a"(a), "+d"(d) : [b] "r"((u64)by) : "cc")
  if (w == 0) { a = low | high << 8; if (is_signed) DIV("idivb", "b"); else DIV("divb", "b"); d = a >> 8; }
  else if (w == 1) { if (is_signed) DIV("idivw", "w"); else DIV("divw", "w"); }
  else { if (is_signed) DIV("idivl", "k"); else DIV("divl", "k"); }
  printf(plain ? " %u %u" : " 1 %x %x", (u32)a & ones(w), (u32)d & ones(w)); end();
}

/* The conditions 0 to 15 of some flags, by SETcc. */
static void condition_row(u32 before) {
  u64 f = before;
  uint8_t held[16];
#define SET(k, cc) __asm__ volatile(FLAGS_IN "set" cc " %[h]" : [h] "=q"(held[k]) : [f] "r"(f) : "cc", "memory");
  SET(0, "o") SET(1, "no") SET(2, "b") SET(3, "ae") SET(4, "e") SET(5, "ne") SET(6, "be") SET(7, "a")
  SET(8, "s") SET(9, "ns") SET(10, "p") SET(11, "np") SET(12, "l") SET(13, "ge") SET(14, "le") SET(15, "g")
  u32 holds = 0;
  for (int k = 0; k < 16; k++) holds |= (u32)held[k] << k;
  printf("%s", plain ? "condition" : "Setcc 8"); number(before);
  if (plain) for (int k = 0; k < 16; k++) printf(" %d", held[k]); else number(holds);
  end();
}

static void random_row(void) {
  int w = draw() % 3, wide = 1 + draw() % 2;
  switch (draw() % 9) {
    case 0: binary_row(&binary[draw() % COUNT(binary)], w); break;
    case 1: unary_row(&unary[draw() % COUNT(unary)], w); break;
    case 2: shift_row(&shift[draw() % COUNT(shift)], w, draw() % 256); break;
    case 3: double_row(&double_shift[draw() % COUNT(double_shift)], wide, draw() % 256); break;
    case 4: multiply_row(draw() % 2, w); break;
    case 5: divide_row(draw() % 2, w); break;
    case 6: bit_row(&bit[draw() % COUNT(bit)], wide); break;
    case 7: scan_row(&scan[draw() % COUNT(scan)], wide); break;
    default: condition_row(some_flags());
  }
}

int main(int argc, char **argv) {
  const char *kind = argc > 1 ? argv[1] : "";
  signal(SIGFPE, on_error);
  if (!strcmp(kind, "random") && argc > 3) {
    plain = 1;
    state = (u32)strtoul(argv[3], 0, 10);
    for (u32 left = (u32)strtoul(argv[2], 0, 10); left; left--) random_row();
  } else if (!strcmp(kind, "binary")) {
    for (u32 k = 0; k < COUNT(binary); k++) for (int w = 0; w < 3; w++) for (int i = 0; i < 4; i++) binary_row(&binary[k], w);
  } else if (!strcmp(kind, "unary")) {
    for (u32 k = 0; k < COUNT(unary); k++) for (int w = 0; w < 3; w++) for (int i = 0; i < 4; i++) unary_row(&unary[k], w);
  } else if (!strcmp(kind, "shift")) {
    for (u32 k = 0; k < COUNT(shift); k++) for (u32 count = 0; count < 34; count++) shift_row(&shift[k], (k + count) % 3, count);
  } else if (!strcmp(kind, "double_shift")) {
    for (u32 k = 0; k < COUNT(double_shift); k++) {
      double_row(&double_shift[k], 1, 16);
      for (u32 count = 0; count < 34; count++) double_row(&double_shift[k], 1 + (k + count) % 2, count);
    }
  } else if (!strcmp(kind, "multiply")) {
    for (int s = 0; s < 2; s++) for (int w = 0; w < 3; w++) for (int i = 0; i < 6; i++) multiply_row(s, w);
  } else if (!strcmp(kind, "divide")) {
    for (int s = 0; s < 2; s++) for (int w = 0; w < 3; w++) for (int i = 0; i < 8; i++) divide_row(s, w);
  } else if (!strcmp(kind, "bit")) {
    for (u32 k = 0; k < COUNT(bit); k++) for (int w = 1; w < 3; w++) for (int i = 0; i < 5; i++) bit_row(&bit[k], w);
  } else if (!strcmp(kind, "scan")) {
    for (u32 k = 0; k < COUNT(scan); k++) for (int w = 1; w < 3; w++) for (int i = 0; i < 6; i++) scan_row(&scan[k], w);
  } else if (!strcmp(kind, "condition")) {
    for (u32 f = 0; f < 32; f++)
      condition_row((f & 1 ? CF : 0) | (f & 2 ? PF : 0) | (f & 4 ? ZF : 0) | (f & 8 ? SF : 0) | (f & 16 ? OF : 0) | ONE);
  } else {
    fputs("vectors: name a table\n", stderr);
    return 1;
  }
  return 0;
}
