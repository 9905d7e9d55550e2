/* C11=forbidden */
/* exists o1_0=1 /\ o2_0=1 /\ o2_1=0 */
#include <stdatomic.h>

atomic_int x, y;
int o1_0, o2_0, o2_1;

void P0(void)
{
  atomic_store_explicit(&x, 1, memory_order_relaxed);
}

void P1(void)
{
  o1_0 = atomic_load_explicit(&x, memory_order_acquire);
  atomic_store_explicit(&y, 1, memory_order_release);
}

void P2(void)
{
  o2_0 = atomic_load_explicit(&y, memory_order_acquire);
  o2_1 = atomic_load_explicit(&x, memory_order_relaxed);
}
