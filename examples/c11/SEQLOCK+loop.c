/* C11=forbidden */
/* exists o1_0=1 /\ o1_1=0 */
#include <stdatomic.h>

atomic_uint s; atomic_int a, b;
int o1_0, o1_1;

void P0(void)
{
  atomic_store_explicit(&s, 1, memory_order_relaxed);
  atomic_thread_fence(memory_order_release);
  atomic_store_explicit(&a, 1, memory_order_relaxed);
  atomic_store_explicit(&b, 1, memory_order_relaxed);
  atomic_store_explicit(&s, 2, memory_order_release);
}

void P1(void)
{
  unsigned u, w;
  int p, q;
  do {
    u = atomic_load_explicit(&s, memory_order_acquire);
    p = atomic_load_explicit(&a, memory_order_relaxed);
    q = atomic_load_explicit(&b, memory_order_relaxed);
    atomic_thread_fence(memory_order_acquire);
    w = atomic_load_explicit(&s, memory_order_relaxed);
  } while (u & 1 || u != w);
  o1_0 = p;
  o1_1 = q;
}
