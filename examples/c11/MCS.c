/* C11=forbidden */
/* exists d=1 */
#include <stdatomic.h>

struct node { atomic_int waits; struct node *_Atomic next; } n0, n1;
struct node *_Atomic tail; int d;

static inline void lock(struct node *me)
{
  atomic_store_explicit(&me->next, (struct node *)0, memory_order_relaxed);
  struct node *before = atomic_exchange_explicit(&tail, me, memory_order_acq_rel);
  if (before) {
    atomic_store_explicit(&me->waits, 1, memory_order_relaxed);
    atomic_store_explicit(&before->next, me, memory_order_release);
    while (atomic_load_explicit(&me->waits, memory_order_acquire)) ;
  }
}

static inline void unlock(struct node *me)
{
  struct node *after = atomic_load_explicit(&me->next, memory_order_acquire), *e = me;
  if (!after) {
    if (atomic_compare_exchange_strong_explicit(&tail, &e, (struct node *)0, memory_order_acq_rel, memory_order_relaxed)) return;
    while (!(after = atomic_load_explicit(&me->next, memory_order_acquire))) ;
  }
  atomic_store_explicit(&after->waits, 0, memory_order_release);
}

void P0(void) { lock(&n0); d = d+1; unlock(&n0); }

void P1(void) { lock(&n1); d = d+1; unlock(&n1); }
