/* C11=forbidden */
/* exists o1_0=1 /\ x=2 */
#include <stdatomic.h>

atomic_int x, y;
int o1_0;

void P0(void)
{
  atomic_store_explicit(&x, 2, memory_order_relaxed);
  atomic_store_explicit(&y, 1, memory_order_release);
}

void P1(void)
{
  o1_0 = atomic_load_explicit(&y, memory_order_acquire);
  atomic_store_explicit(&x, 1, memory_order_relaxed);
}
