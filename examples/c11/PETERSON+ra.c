/* C11=allowed */
/* exists d0=1 /\ d1=1 */
#include <stdatomic.h>

atomic_int f0, f1, t, in;
int d0, d1;

void P0(void)
{
  atomic_store_explicit(&f0, 1, memory_order_release);
  atomic_store_explicit(&t, 1, memory_order_release);
  if (!atomic_load_explicit(&f1, memory_order_acquire) || atomic_load_explicit(&t, memory_order_acquire) == 0) d0 = 1;
}

void P1(void)
{
  atomic_store_explicit(&f1, 1, memory_order_release);
  atomic_store_explicit(&t, 0, memory_order_release);
  if (!atomic_load_explicit(&f0, memory_order_acquire) || atomic_load_explicit(&t, memory_order_acquire) == 1) d1 = 1;
}
