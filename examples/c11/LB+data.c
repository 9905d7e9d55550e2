/* C11=forbidden */
/* exists o0_0=1 /\ o1_0=2 */
#include <stdatomic.h>

atomic_int x, y;
int o0_0, o1_0;

void P0(void)
{
  int r = atomic_load_explicit(&x, memory_order_relaxed);
  atomic_store_explicit(&y, r+1, memory_order_relaxed);
  o0_0 = r;
}

void P1(void)
{
  int r = atomic_load_explicit(&y, memory_order_relaxed);
  atomic_store_explicit(&x, r, memory_order_relaxed);
  o1_0 = r;
}
