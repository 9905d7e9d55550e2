/* C11=forbidden */
/* exists d=1 */
#include <stdatomic.h>

atomic_int n0, n1, c0, c1; int d;

void P0(void)
{
  atomic_store_explicit(&c0, 1, memory_order_seq_cst);
  int m = atomic_load_explicit(&n1, memory_order_seq_cst)+1;
  atomic_store_explicit(&n0, m, memory_order_seq_cst);
  atomic_store_explicit(&c0, 0, memory_order_seq_cst);
  while (atomic_load_explicit(&c1, memory_order_seq_cst)) ;
  while (1) { int o = atomic_load_explicit(&n1, memory_order_seq_cst); if (o==0 || o>m || (o==m && 0<1)) break; }
  d = d+1;
  atomic_store_explicit(&n0, 0, memory_order_release);
}

void P1(void)
{
  atomic_store_explicit(&c1, 1, memory_order_seq_cst);
  int m = atomic_load_explicit(&n0, memory_order_seq_cst)+1;
  atomic_store_explicit(&n1, m, memory_order_seq_cst);
  atomic_store_explicit(&c1, 0, memory_order_seq_cst);
  while (atomic_load_explicit(&c0, memory_order_seq_cst)) ;
  while (1) { int o = atomic_load_explicit(&n0, memory_order_seq_cst); if (o==0 || o>m || (o==m && 1<0)) break; }
  d = d+1;
  atomic_store_explicit(&n1, 0, memory_order_release);
}
