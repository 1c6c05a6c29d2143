/* pabble 1 */
/* protocol P */
/* N 3 to 9 */
/* role W 0 to N - 1 */
/* role M 1 to 1 */
/* label A () */
/* label B int32[2] */
/* label U uint32[3] */
#include <mpi.h>
#include <stdint.h>
static int32_t is[1024], ir[1024];
static uint32_t us[1024], ur[1024];
/*@ prelude */
#include <stdio.h>
/*@ end */
static int32_t r_W(int32_t N, int32_t x)
{
  return x + 0 * N + 0;
}
static int32_t r_M(int32_t N, int32_t x)
{
  return x + 1 * N + -1;
}
static void make_B(int32_t N, int32_t role, int32_t index, int32_t *v)
{
/*@ kernel make_B */
/*@ end */
}
static void take_B(int32_t N, int32_t role, int32_t index, const int32_t *v)
{
/*@ kernel take_B */
/*@ end */
}
static void make_U(int32_t N, int32_t role, int32_t index, uint32_t *v)
{
/*@ kernel make_U */
  v[0] = 1; // }
/*@ end */
}
static void take_U(int32_t N, int32_t role, int32_t index, const uint32_t *v)
{
/*@ kernel take_U */
/*@ end */
}
static void k_S(int32_t N, int32_t role, int32_t index)
{
/*@ kernel k_S */
/*@ end */
}
static int32_t c_K(int32_t N, int32_t role, int32_t index)
{
/*@ kernel c_K */
  return 0;
/*@ end */
}
int main(int argc, char **argv)
{
  int size, rank;
  int32_t N, R, I, a, i;
  MPI_Status st;
  MPI_Init(&argc, &argv);
  MPI_Comm_size(MPI_COMM_WORLD, &size);
  MPI_Comm_rank(MPI_COMM_WORLD, &rank);
  N = (size - 1) / 1;
  R = 0;
  I = 0;
  a = 0;
  i = 0;
  if (N < 3 || N > 9 || 1 * N + 1 != size) {
    MPI_Abort(MPI_COMM_WORLD, 2);
  }
  if (rank >= 0 * N + 0) {
    R = 0;
    I = rank - (0 * N + 0);
  }
  if (rank >= 1 * N + 0) {
    R = 1;
    I = rank - (1 * N + -1);
  }
  if (R == 0 && I == 0) {
    MPI_Send(us, 0, MPI_UINT32_T, r_W(N, N - 1), 0, MPI_COMM_WORLD);
  } else {
    k_S(N, R, I);
  }
  for (i = 1; i <= N - 1; i++) {
    if (R == 0 && I == i) {
      make_B(N, R, I, is);
      MPI_Send(is, 2, MPI_INT32_T, r_M(N, 1), 1, MPI_COMM_WORLD);
    }
  }
  i = I - 1;
  L0: {
    if ((R == 0 && I >= 1 && I <= N - 1) || (R == 1 && I == 1 && N >= 4 && N <= 8)) {
      MPI_Recv(ir, 2, MPI_INT32_T, r_W(N, i + 1), 1, MPI_COMM_WORLD, MPI_STATUS_IGNORE);
      take_B(N, R, I, ir);
    }
    i = I;
    if (R == 1 && I == 1) {
      a = c_K(N, R, I);
    } else {
      if (R == 0 && I == 2) {
        MPI_Probe(r_W(N, 1), MPI_ANY_TAG, MPI_COMM_WORLD, &st);
      } else if (R == 0 && I == 1) {
        MPI_Probe(r_W(N, i), MPI_ANY_TAG, MPI_COMM_WORLD, &st);
      } else {
        MPI_Probe(r_M(N, 1), MPI_ANY_TAG, MPI_COMM_WORLD, &st);
      }
      if (st.MPI_TAG == 0 && (R == 0 && I >= 0 && I <= N - 1)) {
        a = 0;
      } else if (st.MPI_TAG == 1 && (R == 0 && I == 0)) {
        a = 2;
      } else {
        MPI_Abort(MPI_COMM_WORLD, 3);
      }
    }
    if (a == 0) {
      goto L0;
    } else if (a == 1) {
    } else {
      MPI_Barrier(MPI_COMM_WORLD);
    }
  }
  if (R == 1 && I == 1) make_U(N, R, I, us);
  MPI_Bcast(us, 3, MPI_UINT32_T, r_M(N, 1), MPI_COMM_WORLD);
  take_U(N, R, I, us);
  make_U(N, R, I, us);
  MPI_Reduce(us, ur, 3, MPI_UINT32_T, MPI_SUM, r_M(N, 1), MPI_COMM_WORLD);
  if (R == 1 && I == 1) take_U(N, R, I, ur);
  make_B(N, R, I, is);
  MPI_Allreduce(is, ir, 2, MPI_INT32_T, MPI_MAX, MPI_COMM_WORLD);
  take_B(N, R, I, ir);
  if (R == 0 && I == 0) {
    a = c_K(N, R, I);
  }
  if (a == 0) {
    k_S(N, R, I);
  } else {
  }
  MPI_Finalize();
  return 0;
}
