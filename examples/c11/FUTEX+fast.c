/* C11=forbidden */
/* exists o0_0=1 /\ o1_0=1 /\ d=1 */
#include <stdatomic.h>

atomic_int m; int d;
int o0_0, o0_1, o1_0, o1_1;

void P0(void)
{
  int e = 0;
  if (atomic_compare_exchange_strong_explicit(&m, &e, 1, memory_order_acquire, memory_order_relaxed)) { d = d+1; o0_0 = 1; if (atomic_exchange_explicit(&m, 0, memory_order_release)==2) o0_1 = 1; }
  else if (atomic_exchange_explicit(&m, 2, memory_order_acquire)==0) { d = d+1; o0_0 = 1; atomic_exchange_explicit(&m, 0, memory_order_release); }
}

void P1(void)
{
  int e = 0;
  if (atomic_compare_exchange_strong_explicit(&m, &e, 1, memory_order_acquire, memory_order_relaxed)) { d = d+1; o1_0 = 1; if (atomic_exchange_explicit(&m, 0, memory_order_release)==2) o1_1 = 1; }
  else if (atomic_exchange_explicit(&m, 2, memory_order_acquire)==0) { d = d+1; o1_0 = 1; atomic_exchange_explicit(&m, 0, memory_order_release); }
}
