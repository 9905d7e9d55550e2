/* C11=forbidden */
/* exists n=0 */
#include <stdatomic.h>

struct node { struct node *_Atomic next; } n, n0, n1;
struct node *_Atomic tail = &n;

static inline void put(struct node *me)
{
  while (1) {
    struct node *last = atomic_load_explicit(&tail, memory_order_acquire), *e = 0;
    if (atomic_compare_exchange_strong_explicit(&last->next, &e, me, memory_order_acq_rel, memory_order_acquire)) {
      atomic_compare_exchange_strong_explicit(&tail, &last, me, memory_order_release, memory_order_relaxed);
      return;
    }
    atomic_compare_exchange_strong_explicit(&tail, &last, e, memory_order_release, memory_order_relaxed);
  }
}

void P0(void) { put(&n0); }

void P1(void) { put(&n1); }
