"""Further programs for tests/compiled.py, each for one thing that the tests of examples/c11 don't have: the rounds of loops that it needs, how
many final states it has, and its text.
"""

HEAD = "#include <stdatomic.h>\n"
WIDE = """
atomic_llong x, y; long long o0, o1;
void P0(void) {
  atomic_store_explicit(&x, 0x123456789abLL, memory_order_relaxed); atomic_store_explicit(&y, -1, memory_order_release);
}
void P1(void) { o0 = atomic_load_explicit(&y, memory_order_acquire); o1 = atomic_fetch_add(&x, 5); }
"""
EIGHT_READS = """
atomic_int x; int o[8];
void P0(void) { atomic_store_explicit(&x, 1, memory_order_relaxed); atomic_store_explicit(&x, 2, memory_order_relaxed); }
void P1(void) { for (int i = 0; i < 8; i++) o[i] = atomic_load_explicit(&x, memory_order_relaxed); }
"""
CALLS = """
atomic_int l; int d;
static __attribute__((noinline)) void lock(void) { int e = 0; while (!atomic_compare_exchange_strong(&l, &e, 1)) e = 0; }
static __attribute__((noinline)) void unlock(void) { atomic_store_explicit(&l, 0, memory_order_release); }
void P0(void) { lock(); d++; unlock(); }
void P1(void) { lock(); d++; unlock(); }
"""
# The lock of Mellor-Crummey and Scott, with each thread's node on its own stack.
_QUEUE = """
void P%d(void) {
  struct node me; atomic_init(&me.waits, 1); atomic_init(&me.next, (struct node *)0);
  struct node *before = atomic_exchange(&tail, &me);
  if (before) { atomic_store(&before->next, &me); while (atomic_load(&me.waits)) ; }
  d++;
  struct node *after = atomic_load(&me.next), *own = &me;
  if (!after) {
    if (atomic_compare_exchange_strong(&tail, &own, (struct node *)0)) return;
    while (!(after = atomic_load(&me.next))) ;
  }
  atomic_store(&after->waits, 0);
}
"""
QUEUE_LOCK = """
struct node { _Atomic int waits; struct node *_Atomic next; };
struct node *_Atomic tail; int d;
""" + _QUEUE % 0 + _QUEUE % 1
POINTERS = """
int a = 1, b = 2; int *_Atomic p = &a; int o;
void P0(void) { atomic_store_explicit(&p, &b, memory_order_release); }
void P1(void) { int *q = atomic_load_explicit(&p, memory_order_acquire); o = *q; }
"""
SMALL = """
_Atomic unsigned char x; _Atomic short y; int o;
void P0(void) { atomic_fetch_add(&x, 200); atomic_store_explicit(&y, -3, memory_order_release); }
void P1(void) { atomic_fetch_add(&x, 100); o = atomic_load_explicit(&y, memory_order_acquire); }
"""
SWITCH = """
atomic_int x; int o;
void P0(void) { atomic_store(&x, 2); }
void P1(void) { if (atomic_load(&x) == 2) o = 7; else if (atomic_fetch_or(&x, 4) & 2) o = 8; else o = 9; }
"""
OWN_STORE = """
atomic_int x; int o0, o1;
void P0(void) {
  atomic_store_explicit(&x, 1, memory_order_relaxed);
  o0 = atomic_load_explicit(&x, memory_order_relaxed); o1 = atomic_load_explicit(&x, memory_order_relaxed);
}
void P1(void) { atomic_store_explicit(&x, 2, memory_order_relaxed); }
"""
STRUCTURES = """
struct s { int a; short c; char d; } p = {1, 2, 3}, q; atomic_int f; int o;
void P0(void) { struct s r = p; r.a = 7; q = r; atomic_store_explicit(&f, 1, memory_order_release); }
void P1(void) { struct s r = {0}; if (atomic_load_explicit(&f, memory_order_acquire)) r = q; o = r.a * 100 + r.c * 10 + r.d; }
"""

# Name: rounds, states, text.
PROGRAMS = {"wide words": (1, 3, WIDE), "eight reads": (8, 45, EIGHT_READS), "calls": (1, 1, CALLS), "a lock on the stack": (1, 1, QUEUE_LOCK),
            "pointers": (1, 2, POINTERS), "small words": (1, 2, SMALL), "branches": (1, 3, SWITCH), "an own store": (1, 4, OWN_STORE),
            "structures": (1, 2, STRUCTURES)}

# ---- words that are used both whole and in parts, of objects alone: how many final states there are, or None where that isn't read

_PAIR = "struct { int a, b; } n __attribute__((aligned(8)));\n#define A (*(volatile int *)&n.a)\n#define B (*(volatile int *)&n.b)\n"
_PAIR += "#define AB (*(volatile long long *)&n)\n"
STORED_WHOLE = _PAIR + """int o0, o1;
void P0(void) { AB = 0x200000001; AB = 0x400000003; }
void P1(void) { o0 = A; o1 = B; }
void P2(void) { AB = 0x600000005; }
"""
STORED_IN_PARTS = _PAIR + """long long o0, o1; int o2;
void P0(void) { A = 1; B = 2; o2 = A; }
void P1(void) { o0 = AB; o1 = AB; }
"""
OWN_PARTS = _PAIR + """int y, o1, o2; long long o0;
void P0(void) { A = 1; o0 = AB; o1 = *(volatile int *)&y; }
void P1(void) { *(volatile int *)&y = 1; o2 = A; }
"""
LOCKED_PARTS = HEAD + """union { _Atomic int part[2]; _Atomic long long whole; } n; int o0; long long o1;
void P0(void) { atomic_fetch_add(&n.part[1], 5); atomic_fetch_or(&n.part[0], 2); o0 = n.part[1]; }
void P1(void) { atomic_store_explicit(&n.whole, 0x100000001, memory_order_relaxed); o1 = n.whole; }
void P2(void) { atomic_fetch_add(&n.part[1], 7); }
"""
BYTES = """unsigned long long n; int o0, o1, o2;
void P0(void) { *(volatile unsigned char *)&n = 1; *((volatile short *)&n + 1) = 2; *(volatile int *)&n = 7; *((volatile int *)&n + 1) = 9; }
void P1(void) { o0 = *((volatile unsigned char *)&n + 4); o1 = *(volatile short *)&n; o2 = *((volatile short *)&n + 1); }
"""
ON_A_STACK = HEAD + """struct pair { _Atomic int a; int b; }; struct pair *_Atomic p; int o0;
void P0(void) { struct pair own; *(volatile long long *)&own = 0x300000001; atomic_store(&p, &own); }
void P1(void) { struct pair *other = atomic_load(&p); if (other) o0 = other->b; }
"""
TWO_WRITERS = _PAIR + """long long o0;
void P0(void) { A = 1; }
void P1(void) { B = 2; }
void P2(void) { o0 = AB; }
"""
JOINED = {"stored whole": (21, STORED_WHOLE), "stored in parts": (6, STORED_IN_PARTS), "own parts": (4, OWN_PARTS),
          "locked parts": (31, LOCKED_PARTS), "bytes": (6, BYTES), "on a stack": (2, ON_A_STACK), "two writers of parts": (None, TWO_WRITERS)}
