/* C11=allowed */
/* exists o0_0=0 /\ o1_0=0 */
#include <stdatomic.h>

atomic_int x, y;
int o0_0, o1_0;

void P0(void)
{
  atomic_fetch_add_explicit(&x, 1, memory_order_relaxed);
  o0_0 = atomic_load_explicit(&y, memory_order_relaxed);
}

void P1(void)
{
  atomic_fetch_add_explicit(&y, 1, memory_order_relaxed);
  o1_0 = atomic_load_explicit(&x, memory_order_relaxed);
}
