/* C11=forbidden */
/* exists o0=0 \/ o1=0 */
#include <stdatomic.h>

atomic_int s; int v;
int o0, o1;

static inline int get(void)
{
  int e = 0;
  if (atomic_compare_exchange_strong_explicit(&s, &e, 1, memory_order_acquire, memory_order_acquire)) {
    v = 5;
    atomic_store_explicit(&s, 2, memory_order_release);
  } else {
    while (atomic_load_explicit(&s, memory_order_acquire) != 2) ;
  }
  return v;
}

void P0(void) { o0 = get(); }

void P1(void) { o1 = get(); }
