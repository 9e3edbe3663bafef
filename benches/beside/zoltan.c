/* What Zoltan makes of a chain: zoltan PARTS <LOADS, which has the load of each element, a number a line. Of each of the
 * methods BLOCK, RCB and HSFC it prints the greatest load of a part, in one process:
 *
 *     BLOCK 1234
 *
 * The elements are points on a line, in order, with their loads as weights. */
#include <mpi.h>
#include <stdio.h>
#include <stdlib.h>
#include <string.h>
#include <zoltan.h>

typedef struct {
    int count;
    double *loads;
} chain;

static int objects(void *data, int *error)
{
    *error = ZOLTAN_OK;
    return ((const chain *)data)->count;
}

static void list(void *data, int globals, int locals, ZOLTAN_ID_PTR ids, ZOLTAN_ID_PTR own, int weights, float *weight,
    int *error)
{
    const chain *it = (const chain *)data;
    (void)globals, (void)locals, (void)weights;
    for (int i = 0; i < it->count; i++) {
        ids[i] = own[i] = (ZOLTAN_ID_TYPE)i;
        weight[i] = (float)it->loads[i];
    }
    *error = ZOLTAN_OK;
}

static int dimensions(void *data, int *error)
{
    (void)data;
    *error = ZOLTAN_OK;
    return 1;
}

static void places(void *data, int globals, int locals, int count, ZOLTAN_ID_PTR ids, ZOLTAN_ID_PTR own, int axes,
    double *at, int *error)
{
    (void)data, (void)globals, (void)locals, (void)own, (void)axes;
    for (int i = 0; i < count; i++) at[i] = ids[i];
    *error = ZOLTAN_OK;
}

/* The greatest load of a part by this method, or a negative number where it fails. */
static double greatest(chain *it, const char *method, const char *parts)
{
    struct Zoltan_Struct *zoltan = Zoltan_Create(MPI_COMM_SELF);
    int changes, globals, locals, coming, going, *from = NULL, *from_part = NULL, *to = NULL, *part = NULL;
    ZOLTAN_ID_PTR come = NULL, come_own = NULL, go = NULL, go_own = NULL;
    double most = -1, *sums = calloc((size_t)atoi(parts), sizeof *sums);
    if (!zoltan || !sums) return free(sums), -1;
    Zoltan_Set_Param(zoltan, "DEBUG_LEVEL", "0");
    Zoltan_Set_Param(zoltan, "LB_METHOD", method);
    Zoltan_Set_Param(zoltan, "OBJ_WEIGHT_DIM", "1");
    Zoltan_Set_Param(zoltan, "IMBALANCE_TOL", "1.0");
    Zoltan_Set_Param(zoltan, "NUM_GLOBAL_PARTS", parts);
    Zoltan_Set_Param(zoltan, "RETURN_LISTS", "PARTS");
    Zoltan_Set_Num_Obj_Fn(zoltan, objects, it);
    Zoltan_Set_Obj_List_Fn(zoltan, list, it);
    Zoltan_Set_Num_Geom_Fn(zoltan, dimensions, it);
    Zoltan_Set_Geom_Multi_Fn(zoltan, places, it);
    if (Zoltan_LB_Partition(zoltan, &changes, &globals, &locals, &coming, &come, &come_own, &from, &from_part, &going, &go,
            &go_own, &to, &part) == ZOLTAN_OK && going == it->count) {
        for (int i = 0; i < going; i++) sums[part[i]] += it->loads[go[i]];
        for (int i = 0; i < atoi(parts); i++) most = sums[i] > most ? sums[i] : most;
        Zoltan_LB_Free_Part(&come, &come_own, &from, &from_part);
        Zoltan_LB_Free_Part(&go, &go_own, &to, &part);
    }
    Zoltan_Destroy(&zoltan);
    free(sums);
    return most;
}

/* The loads of the standard input. */
static int read_loads(chain *it)
{
    int room = 0;
    double load;
    while (scanf("%lf", &load) == 1) {
        if (it->count == room) {
            double *more = realloc(it->loads, sizeof *more * (size_t)(room = 2 * room + 1024));
            if (!more) return 0;
            it->loads = more;
        }
        it->loads[it->count++] = load;
    }
    return feof(stdin);
}

int main(int argc, char **argv)
{
    static const char *methods[] = {"BLOCK", "RCB", "HSFC"};
    chain it = {0, NULL};
    float version;
    MPI_Init(&argc, &argv);
    if (argc != 2 || atoi(argv[1]) < 1 || !read_loads(&it) || Zoltan_Initialize(argc, argv, &version) != ZOLTAN_OK) {
        fputs("usage: zoltan PARTS <LOADS\n", stderr);
        return MPI_Finalize(), 2;
    }
    for (int i = 0; i < 3; i++) printf("%s %.0f\n", methods[i], greatest(&it, methods[i], argv[1]));
    free(it.loads);
    return MPI_Finalize();
}
