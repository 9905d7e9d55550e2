/* C11=forbidden */
/* exists o1_0=1 /\ o1_1=0 */
#include <stdatomic.h>

atomic_int l; int a, b;
int o1_0, o1_1;

void P0(void)
{
  int e = 0;
  if (atomic_compare_exchange_strong_explicit(&l, &e, -1, memory_order_acquire, memory_order_relaxed)) {
    a = 1;
    b = 1;
    atomic_store_explicit(&l, 0, memory_order_release);
  }
}

void P1(void)
{
  int e = atomic_load_explicit(&l, memory_order_relaxed);
  if (e >= 0 && atomic_compare_exchange_strong_explicit(&l, &e, e+1, memory_order_acquire, memory_order_relaxed)) {
    o1_0 = a;
    o1_1 = b;
    atomic_fetch_sub_explicit(&l, 1, memory_order_release);
  }
}
