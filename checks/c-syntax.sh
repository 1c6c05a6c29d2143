#!/usr/bin/env bash
# Gives the texts of checks/texts, and the C text that the built program prints for each protocol of examples/, to gcc
# and to clang, where they are installed, with `-std=c99 -pedantic -Wall -Wextra -fsyntax-only`, and prints what they say.
# Further protocol files may be named.
#
# The text includes <mpi.h>; this script writes one with the names that a text may use, declared as MPI 3.1 declares them.
# So it shows that a text is C and calls MPI with arguments of the right types. It shows nothing of what the text does:
# no program is linked or run, no MPI is there, and default bodies compute nothing. Each text declares the same variables
# and buffers, whether or not its statements use them, and a default body uses no parameter: so -Wno-unused and
# -Wno-unused-parameter go with the warnings.
top=$(cd "$(dirname "$0")/.." && pwd) || exit 1
program=$("$top/scripts/program.sh") || exit 1
work=$(mktemp -d) || exit 1
trap 'rm -rf "$work"' EXIT
flags=(-std=c99 -pedantic -Wall -Wextra -Wno-unused -Wno-unused-parameter -Werror -fsyntax-only -I "$work")

cat >"$work/mpi.h" <<'END'
#include <stddef.h>
typedef int MPI_Comm;
typedef int MPI_Datatype;
typedef int MPI_Op;
typedef struct MPI_Status { int MPI_SOURCE; int MPI_TAG; int MPI_ERROR; } MPI_Status;
#define MPI_COMM_WORLD ((MPI_Comm)1)
#define MPI_INT32_T ((MPI_Datatype)1)
#define MPI_UINT32_T ((MPI_Datatype)2)
#define MPI_MIN ((MPI_Op)1)
#define MPI_MAX ((MPI_Op)2)
#define MPI_SUM ((MPI_Op)3)
#define MPI_ANY_TAG (-1)
#define MPI_STATUS_IGNORE ((MPI_Status *)NULL)
int MPI_Init(int *argc, char ***argv);
int MPI_Finalize(void);
int MPI_Abort(MPI_Comm comm, int errorcode);
int MPI_Comm_size(MPI_Comm comm, int *size);
int MPI_Comm_rank(MPI_Comm comm, int *rank);
int MPI_Send(const void *buf, int count, MPI_Datatype datatype, int dest, int tag, MPI_Comm comm);
int MPI_Recv(void *buf, int count, MPI_Datatype datatype, int source, int tag, MPI_Comm comm, MPI_Status *status);
int MPI_Probe(int source, int tag, MPI_Comm comm, MPI_Status *status);
int MPI_Barrier(MPI_Comm comm);
int MPI_Bcast(void *buffer, int count, MPI_Datatype datatype, int root, MPI_Comm comm);
int MPI_Reduce(const void *sendbuf, void *recvbuf, int count, MPI_Datatype datatype, MPI_Op op, int root, MPI_Comm comm);
int MPI_Allreduce(const void *sendbuf, void *recvbuf, int count, MPI_Datatype datatype, MPI_Op op, MPI_Comm comm);
END

wrong=0
count=0

# Gives text.c to both compilers; its name is told where one complains.
compile() {
    for compiler in gcc clang; do
        command -v "$compiler" >/dev/null || { echo "$compiler isn't installed"; continue; }
        count=$((count + 1))
        "$compiler" "${flags[@]}" "$work/text.c" || { echo "$1: $compiler"; wrong=$((wrong + 1)); }
    done
}

for file in "$top"/checks/texts/*.c; do
    cp "$file" "$work/text.c"
    compile "$file"
done

for file in "$top"/examples/*.pbl "$top"/examples/*/*.pbl "$@"; do
    said=$("$program" gen "$file")
    status=$?
    case "$status" in
        0) printf '%s\n' "$said" >"$work/text.c" ;;
        *) echo "$file: status $status, $said"; wrong=$((wrong + 1)); continue ;;
    esac
    compile "$file"
done
echo "$count tries, $wrong wrong"
[ "$wrong" = 0 ] && [ "$count" != 0 ]
