/* C11=allowed */
/* exists x=1 /\ y=1 */
#include <stdatomic.h>

atomic_int x, y;

void P0(void)
{
  atomic_store_explicit(&x, 1, memory_order_relaxed);
  atomic_store_explicit(&y, 2, memory_order_relaxed);
}

void P1(void)
{
  atomic_store_explicit(&y, 1, memory_order_relaxed);
  atomic_store_explicit(&x, 2, memory_order_relaxed);
}
