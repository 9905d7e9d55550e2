/* C11=forbidden */
/* exists o1_0=1 /\ o1_1=0 */
#include <stdatomic.h>

atomic_int x, y;
int o0_0, o1_0, o1_1;

void P0(void)
{
  atomic_store_explicit(&y, 1, memory_order_relaxed);
  int e = 0;
  atomic_compare_exchange_strong_explicit(&x, &e, 1, memory_order_release, memory_order_relaxed);
  o0_0 = e;
}

void P1(void)
{
  int e = 1;
  atomic_compare_exchange_strong_explicit(&x, &e, 2, memory_order_acquire, memory_order_relaxed);
  o1_0 = e;
  o1_1 = atomic_load_explicit(&y, memory_order_relaxed);
}
