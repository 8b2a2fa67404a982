/* Prints what a real x86 processor makes of one unit, as the rows of src/units/PART.rt, where PART is moves, stack_and_jumps,
   arithmetic or bits_and_strings.

   cc -O1 -o units tests/units.c
   ./units PART        each instruction of a part from one of three beginnings
   ./units PART all    from each of them

   Each instruction runs in 32-bit mode of a 64-bit process, with the trap flag set, so that one unit is performed: one
   instruction, or one iteration of a repeated string instruction. The memory is 4096 bytes at 10000h: the instruction, and from
   offset 800h on the bytes of pattern(). A row has, in hexadecimal, the instruction, which registers it began with, whether it
   was the divide error, the registers from EAX to EDI, EIP and EFLAGS after it, and a sum of the memory from 800h on. A flag that the Intel 80386 manual leaves
   undefined is given as it was before. Where a repeated comparison goes on there is no row: processors of today write its flags
   at its end alone, and the manual with each iteration. */
#define _GNU_SOURCE
#include <setjmp.h>
#include <signal.h>
#include <stdint.h>
#include <stdio.h>
#include <stdlib.h>
#include <string.h>
#include <sys/mman.h>
#include <ucontext.h>

typedef uint32_t u32;
typedef uint8_t u8;

enum { CF = 1, PF = 4, AF = 0x10, ZF = 0x40, SF = 0x80, TF = 0x100, IF = 0x200, DF = 0x400, OF = 0x800 };
enum { KEPT = CF | PF | AF | ZF | SF | DF | OF, FIRST = 0x10000, SIZE = 4096, DATA = 0x800 };

/* EAX ECX EDX EBX ESP EBP ESI EDI, and EFLAGS */
static const u32 sets[][9] = {
  { 0x12348182, 0x00000003, 0x0000ffff, 0x00010800, 0x00010c00, 0x00010c20, 0x00010810, 0x00010840, 0x002 },
  { 0xfffffff0, 0xffffffdb, 0x00000001, 0x00010880, 0x00010c40, 0x00010c60, 0x00010850, 0x00010820, 0xcd7 },
  { 0x00001234, 0x00000057, 0x00000000, 0x00010900, 0x00010d00, 0x00010d10, 0x00010a00, 0x00010a00, 0x043 },
};

struct unit { const char *bytes; u32 undefined; };
#define SHIFTED (AF | OF)
#define PRODUCT (SF | ZF | AF | PF)
#define DIVIDED (CF | PF | AF | ZF | SF | OF)
#define TESTED (PF | AF | ZF | SF | OF)
#define SCANNED (CF | PF | AF | SF | OF)

static const struct unit moves[] = {
  /* MOV, LEA, MOVZX, MOVSX */
  { "8903", 0 }, { "8b4304", 0 }, { "668b4304", 0 }, { "8a6305", 0 }, { "88f5", 0 }, { "c70378563412", 0 }, { "66c7033412", 0 },
  { "b47f", 0 }, { "66b83412", 0 }, { "a100080100", 0 }, { "66a304080100", 0 }, { "a008080100", 0 }, { "2e8b448bfc", 0 },
  { "8d448b10", 0 }, { "668d4df0", 0 }, { "8d0c6d04000000", 0 }, { "0fb6c4", 0 }, { "660fb64b01", 0 }, { "0fb74302", 0 },
  { "0fbec8", 0 }, { "0fbf4b02", 0 }, { "660fbe5303", 0 },
  /* XCHG, XLAT */
  { "93", 0 }, { "6691", 0 }, { "86e0", 0 }, { "874304", 0 }, { "8623", 0 }, { "90", 0 }, { "d7", 0 },
};
static const struct unit stack_and_jumps[] = {
  /* the stack */
  { "50", 0 }, { "54", 0 }, { "6653", 0 }, { "6878563412", 0 }, { "666a80", 0 }, { "6a80", 0 }, { "ff7304", 0 }, { "66ff33", 0 },
  { "58", 0 }, { "5c", 0 }, { "665c", 0 }, { "665a", 0 }, { "8f03", 0 }, { "8f442404", 0 }, { "668f4304", 0 }, { "60", 0 },
  { "61", 0 }, { "c9", 0 }, { "e8fc030000", 0 }, { "ff13", 0 }, { "ffd0", 0 }, { "ff542404", 0 }, { "c3", 0 }, { "c20800", 0 },
  /* jumps */
  { "ff23", 0 }, { "ffe2", 0 }, { "eb85", 0 }, { "e905000000", 0 }, { "7405", 0 }, { "7580", 0 }, { "0f8f00020000", 0 },
  { "e205", 0 }, { "e1f0", 0 }, { "e005", 0 }, { "e3f0", 0 },
};
static const struct unit arithmetic[] = {
  /* arithmetic and logic */
  { "01d8", 0 }, { "0303", 0 }, { "1143fc", 0 }, { "0483", 0 }, { "1d44332211", 0 }, { "80630480", AF }, { "834b08f0", AF },
  { "317304", AF }, { "38e0", 0 }, { "663b4b02", 0 }, { "a900800000", AF }, { "f60380", AF }, { "f00103", 0 }, { "664f", 0 },
  { "fe4305", 0 }, { "ff4b04", 0 }, { "f713", 0 }, { "f6dc", 0 },
  /* shifts and rotations */
  { "d1e0", AF }, { "c0630403", SHIFTED }, { "d3f8", SHIFTED }, { "66d14b02", 0 }, { "c1d909", OF }, { "d2d4", OF }, { "c1e020", 0 },
  { "0fa4c205", SHIFTED }, { "660fac530404", SHIFTED }, { "0fa503", SHIFTED },
  /* products and quotients */
  { "f7e1", PRODUCT }, { "f6e4", PRODUCT }, { "66f76302", PRODUCT }, { "f7e9", PRODUCT }, { "f66b01", PRODUCT }, { "0fafc8", PRODUCT },
  { "6bc8fd", PRODUCT }, { "694b0410270000", PRODUCT }, { "660faf4b02", PRODUCT }, { "f7f1", DIVIDED }, { "f6f1", DIVIDED },
  { "66f7f9", DIVIDED }, { "f67b02", DIVIDED }, { "f7f3", DIVIDED }, { "98", 0 }, { "6698", 0 }, { "99", 0 }, { "6699", 0 },
};
static const struct unit bits_and_strings[] = {
  /* bits */
  { "0fa3c8", TESTED }, { "0fa30b", TESTED }, { "0fab0b", TESTED }, { "660fb30b", TESTED }, { "0fbb4b10", TESTED },
  { "0fba6b0427", TESTED }, { "0fbae107", TESTED }, { "0fbcc8", SCANNED }, { "0fbd4b04", SCANNED }, { "660fbcc1", SCANNED },
  { "0f94c0", 0 }, { "0f9e4304", 0 },
  /* flags */
  { "f8", 0 }, { "f9", 0 }, { "f5", 0 }, { "fc", 0 }, { "fd", 0 }, { "9e", 0 }, { "9f", 0 },
  /* strings */
  { "a4", 0 }, { "66a5", 0 }, { "a6", 0 }, { "a7", 0 }, { "aa", 0 }, { "ab", 0 }, { "ac", 0 }, { "66ad", 0 }, { "ae", 0 }, { "af", 0 },
  { "f3a4", 0 }, { "f3a5", 0 }, { "f3a6", 0 }, { "f266a7", 0 }, { "f3ab", 0 }, { "f3ac", 0 }, { "f2ae", 0 }, { "f3af", 0 },
};

#define PART(rows) { #rows, rows, sizeof rows / sizeof *rows }
static const struct part { const char *name; const struct unit *units; unsigned count; } parts[] = {
  PART(moves), PART(stack_and_jumps), PART(arithmetic), PART(bits_and_strings),
};

static u8 *const memory = (u8 *)FIRST;
static const u32 *begin;
static u32 after[10];
static int divide_error;
static sigjmp_buf done;
static const int places[8] = { REG_RAX, REG_RCX, REG_RDX, REG_RBX, REG_RSP, REG_RBP, REG_RSI, REG_RDI };

static u8 pattern(u32 i) { return (u8)(i * 7 + i / 256); }

static void enter(int number, siginfo_t *info, void *context) {
  greg_t *g = ((ucontext_t *)context)->uc_mcontext.gregs;
  (void)number; (void)info;
  for (int i = 0; i < 8; i++) g[places[i]] = begin[i];
  g[REG_RIP] = FIRST;
  g[REG_EFL] = begin[8] | TF | IF;
  g[REG_CSGSFS] = (g[REG_CSGSFS] & 0x0000ffffffff0000) | 0x23 | (0x2bll << 48);
}

static void leave(int number, siginfo_t *info, void *context) {
  greg_t *g = ((ucontext_t *)context)->uc_mcontext.gregs;
  (void)info;
  for (int i = 0; i < 8; i++) after[i] = (u32)g[places[i]];
  after[8] = (u32)g[REG_RIP];
  after[9] = (u32)g[REG_EFL];
  divide_error = number == SIGFPE;
  if (number == SIGSEGV || number == SIGILL) { fprintf(stderr, "signal %d at %llx\n", number, (unsigned long long)g[REG_RIP]); exit(1); }
  siglongjmp(done, 1);
}

static void row(const struct unit *unit, int set) {
  u32 n = (u32)strlen(unit->bytes) / 2, sum = 0;
  memset(memory, 0, DATA);
  for (u32 i = DATA; i < SIZE; i++) memory[i] = pattern(i);
  for (u32 i = 0; i < n; i++) sscanf(unit->bytes + 2 * i, "%2hhx", &memory[i]);
  begin = sets[set];
  if (!sigsetjmp(done, 1)) raise(SIGUSR1);
  for (u32 i = DATA; i < SIZE; i++) sum += (i + 1) * memory[i];
  u32 flags = (after[9] & KEPT & ~unit->undefined) | (begin[8] & unit->undefined) | 2;
  if (divide_error) flags = begin[8];
  if (after[8] == FIRST && (memory[n - 1] == 0xa6 || memory[n - 1] == 0xa7 || memory[n - 1] == 0xae || memory[n - 1] == 0xaf)) return;
  printf("%s %x %x", unit->bytes, set, divide_error ? 1 : 0);
  for (int i = 0; i < 9; i++) printf(" %x", after[i]);
  printf(" %x %x\n", flags, sum);
}

int main(int count, char **words) {
  int all = count > 2 && !strcmp(words[2], "all");
  unsigned place = 0;
  static u8 stack[65536];
  stack_t alternate = { .ss_sp = stack, .ss_size = sizeof stack };
  struct sigaction action = { .sa_flags = SA_SIGINFO | SA_ONSTACK };
  sigaltstack(&alternate, 0);
  if (mmap(memory, SIZE, PROT_READ | PROT_WRITE | PROT_EXEC, MAP_PRIVATE | MAP_ANONYMOUS | MAP_FIXED, -1, 0) != memory) return 1;
  /* the flat data segment of 32-bit mode */
  __asm__ volatile("movl %0, %%ds\n\tmovl %0, %%es" : : "r"(0x2b));
  action.sa_sigaction = enter;
  sigaction(SIGUSR1, &action, 0);
  action.sa_sigaction = leave;
  sigaction(SIGTRAP, &action, 0);
  sigaction(SIGFPE, &action, 0);
  sigaction(SIGSEGV, &action, 0);
  sigaction(SIGILL, &action, 0);
  for (unsigned p = 0; p < sizeof parts / sizeof *parts; p++)
    for (unsigned i = 0; i < parts[p].count; i++, place++)
      for (int set = 0; set < 3; set++)
        if (count > 1 && !strcmp(words[1], parts[p].name) && (all || set == (int)(place % 3))) row(&parts[p].units[i], set);
  return 0;
}
