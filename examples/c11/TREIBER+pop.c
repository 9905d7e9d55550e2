/* C11=forbidden */
/* exists o1_0=0 */
#include <stdatomic.h>

struct n { struct n *next; int v; } n0, n1; struct n *_Atomic head;
int o1_0;

void P0(void)
{
  n0.v = 1;
  struct n *h = atomic_load_explicit(&head, memory_order_relaxed);
  do n0.next = h; while (!atomic_compare_exchange_weak_explicit(&head, &h, &n0, memory_order_release, memory_order_relaxed));
}

void P1(void)
{
  struct n *h = atomic_load_explicit(&head, memory_order_acquire);
  while (h && !atomic_compare_exchange_weak_explicit(&head, &h, h->next, memory_order_acq_rel, memory_order_acquire)) ;
  if (h) o1_0 = h->v; else o1_0 = 9;
}
