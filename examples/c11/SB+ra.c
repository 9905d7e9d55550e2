/* C11=allowed */
/* exists o0=0 /\ o1=0 */
#include <stdatomic.h>

atomic_int x, y;
int o0, o1;

void P0(void)
{
  atomic_store_explicit(&x, 1, memory_order_release);
  o0 = atomic_load_explicit(&y, memory_order_acquire);
}

void P1(void)
{
  atomic_store_explicit(&y, 1, memory_order_release);
  o1 = atomic_load_explicit(&x, memory_order_acquire);
}
