/* C11=forbidden */
/* exists c=1 */
#include <stdatomic.h>

atomic_int c;

static inline void add(void)
{
  int e = atomic_load_explicit(&c, memory_order_relaxed);
  while (!atomic_compare_exchange_weak_explicit(&c, &e, e+1, memory_order_relaxed, memory_order_relaxed)) ;
}

void P0(void) { add(); }

void P1(void) { add(); }
