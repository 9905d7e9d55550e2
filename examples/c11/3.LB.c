/* C11=forbidden */
/* exists o0_0=1 /\ o1_0=1 /\ o2_0=1 */
#include <stdatomic.h>

atomic_int x, y, z;
int o0_0, o1_0, o2_0;

void P0(void)
{
  o0_0 = atomic_load_explicit(&x, memory_order_relaxed);
  atomic_store_explicit(&y, 1, memory_order_relaxed);
}

void P1(void)
{
  o1_0 = atomic_load_explicit(&y, memory_order_relaxed);
  atomic_store_explicit(&z, 1, memory_order_relaxed);
}

void P2(void)
{
  o2_0 = atomic_load_explicit(&z, memory_order_relaxed);
  atomic_store_explicit(&x, 1, memory_order_relaxed);
}
