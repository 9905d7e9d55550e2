/* C11=forbidden */
/* exists o1_0=1 /\ o1_1=0 */
#include <stdatomic.h>

atomic_int x, y;
int o1_0, o1_1;

void P0(void)
{
  atomic_store_explicit(&x, 1, memory_order_relaxed);
  atomic_exchange_explicit(&y, 1, memory_order_release);
}

void P1(void)
{
  o1_0 = atomic_exchange_explicit(&y, 2, memory_order_acquire);
  o1_1 = atomic_load_explicit(&x, memory_order_relaxed);
}
