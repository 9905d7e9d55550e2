/* C11=forbidden */
/* exists d=1 */
#include <stdatomic.h>

atomic_int l; int d;

void P0(void)
{
  int e = 0;
  while (!atomic_compare_exchange_weak_explicit(&l, &e, 1, memory_order_acquire, memory_order_relaxed)) { e = 0; __builtin_ia32_pause(); }
  d = d+1;
  atomic_store_explicit(&l, 0, memory_order_release);
}

void P1(void)
{
  int e = 0;
  while (!atomic_compare_exchange_weak_explicit(&l, &e, 1, memory_order_acquire, memory_order_relaxed)) { e = 0; __builtin_ia32_pause(); }
  d = d+1;
  atomic_store_explicit(&l, 0, memory_order_release);
}
