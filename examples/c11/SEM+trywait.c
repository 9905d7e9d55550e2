/* C11=forbidden */
/* exists o1_0=1 */
#include <stdatomic.h>

atomic_int s; int d;
int o1_0;

void P0(void)
{
  d = 1;
  atomic_fetch_add_explicit(&s, 1, memory_order_release);
}

void P1(void)
{
  int v = atomic_load_explicit(&s, memory_order_relaxed);
  while (v>0) if (atomic_compare_exchange_weak_explicit(&s, &v, v-1, memory_order_acquire, memory_order_relaxed)) { o1_0 = d+1; break; }
}
