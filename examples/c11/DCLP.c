/* C11=forbidden */
/* exists o1_0=0 */
#include <stdatomic.h>

int obj; int *_Atomic p; atomic_int l;
int o0_0, o1_0;

void P0(void)
{
  int *q = atomic_load_explicit(&p, memory_order_acquire);
  if (!q) {
    while (atomic_exchange_explicit(&l, 1, memory_order_acquire)) ;
    q = atomic_load_explicit(&p, memory_order_relaxed);
    if (!q) { obj = 5; q = &obj; atomic_store_explicit(&p, q, memory_order_release); }
    atomic_store_explicit(&l, 0, memory_order_release);
  }
  o0_0 = *q;
}

void P1(void)
{
  int *q = atomic_load_explicit(&p, memory_order_acquire);
  if (!q) {
    while (atomic_exchange_explicit(&l, 1, memory_order_acquire)) ;
    q = atomic_load_explicit(&p, memory_order_relaxed);
    if (!q) { obj = 5; q = &obj; atomic_store_explicit(&p, q, memory_order_release); }
    atomic_store_explicit(&l, 0, memory_order_release);
  }
  o1_0 = *q;
}
