/* C11=forbidden */
/* exists d=1 */
#include <stdatomic.h>

struct node { atomic_int held; } n0, n1, n2;
struct node *_Atomic tail = &n2; int d;

static inline void with_lock(struct node *me)
{
  atomic_store_explicit(&me->held, 1, memory_order_relaxed);
  struct node *before = atomic_exchange_explicit(&tail, me, memory_order_acq_rel);
  while (atomic_load_explicit(&before->held, memory_order_acquire)) ;
  d = d+1;
  atomic_store_explicit(&me->held, 0, memory_order_release);
}

void P0(void) { with_lock(&n0); }

void P1(void) { with_lock(&n1); }
