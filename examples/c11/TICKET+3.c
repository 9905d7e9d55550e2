/* C11=forbidden */
/* exists d=1 */
#include <stdatomic.h>

atomic_uint next, owner; int d;

void P0(void)
{
  unsigned me = atomic_fetch_add_explicit(&next, 1, memory_order_relaxed);
  while (atomic_load_explicit(&owner, memory_order_acquire)!=me) __builtin_ia32_pause();
  d = d+1;
  atomic_store_explicit(&owner, atomic_load_explicit(&owner, memory_order_relaxed)+1, memory_order_release);
}

void P1(void)
{
  unsigned me = atomic_fetch_add_explicit(&next, 1, memory_order_relaxed);
  while (atomic_load_explicit(&owner, memory_order_acquire)!=me) __builtin_ia32_pause();
  d = d+1;
  atomic_store_explicit(&owner, atomic_load_explicit(&owner, memory_order_relaxed)+1, memory_order_release);
}

void P2(void)
{
  unsigned me = atomic_fetch_add_explicit(&next, 1, memory_order_relaxed);
  while (atomic_load_explicit(&owner, memory_order_acquire)!=me) __builtin_ia32_pause();
  d = d+1;
  atomic_store_explicit(&owner, atomic_load_explicit(&owner, memory_order_relaxed)+1, memory_order_release);
}
