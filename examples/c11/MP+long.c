/* C11=forbidden */
/* exists o1_0=1 /\ o1_1=0 */
#include <stdatomic.h>

atomic_long x, y;
int o1_0, o1_1;

void P0(void)
{
  atomic_store_explicit(&x, 1, memory_order_relaxed);
  atomic_store_explicit(&y, 1, memory_order_release);
}

void P1(void)
{
  o1_0 = (int)atomic_load_explicit(&y, memory_order_acquire);
  o1_1 = (int)atomic_load_explicit(&x, memory_order_relaxed);
}
