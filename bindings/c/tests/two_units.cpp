// The header in C++, beside another unit in C, over the shared library: a decision of one is checked by the other. And a class
// that holds a decision within a tolerance.
#include "harness.h"
#include <tezgumi_refusal.h>

extern "C" int32_t check_in_c(const tezgumi_run *run, const tezgumi_decision *decision);

// Room for a decision within a tolerance, which is given back with it.
class Refinement {
public:
    Refinement(uint32_t n, uint32_t pes) { same("room within a tolerance", tezgumi_refinement_room(&held, n, pes), TEZGUMI_OK); }
    ~Refinement() { tezgumi_refinement_free(&held); }
    Refinement(const Refinement &) = delete;
    Refinement &operator=(const Refinement &) = delete;
    int32_t refine(const tezgumi_run &run, uint32_t tolerance) { return tezgumi_refine_run(&run, tolerance, 0, &held); }
    int32_t check(const tezgumi_run &run) const { return tezgumi_check_refinement(&run, &held, nullptr); }
    tezgumi_refinement held;
};

// Loads of 5 and 3, where 4 is least: within a quarter nothing moves, and otherwise an element of load 1.
static void within_a_tolerance()
{
    const uint64_t loads[] = {2, 2, 1, 3};
    const uint32_t bytes[] = {9, 9, 9, 9}, places[] = {1, 1, 1, 0};
    const tezgumi_run run{4, 2, loads, bytes, places};
    Refinement refinement(4, 2);
    same("decided within a quarter", refinement.refine(run, 250), TEZGUMI_OK);
    test("nothing moves", refinement.held.decision.moved == 0 && refinement.held.near_present == 1);
    same("it is right", refinement.check(run), TEZGUMI_OK);
    same("decided without a tolerance", refinement.refine(run, 0), TEZGUMI_OK);
    test("the third element moves", refinement.held.decision.moved == 9 && refinement.held.least == 4);
    same("it is right", refinement.check(run), TEZGUMI_OK);
}

int main()
{
    const uint64_t loads[] = {1, 1, 2};
    const uint32_t bytes[] = {10, 9, 8}, places[] = {0, 1, 0};
    const tezgumi_run run{3, 2, loads, bytes, places};
    tezgumi_decision decision;
    same("room", tezgumi_decision_room(&decision, 3, 2), TEZGUMI_OK);
    same("decided in C++", tezgumi_decide_run(&run, &decision), TEZGUMI_OK);
    same("checked in C", check_in_c(&run, &decision), TEZGUMI_OK);
    decision.names[0] = 0;
    same("its flaw", check_in_c(&run, &decision), TEZGUMI_NAME_TWICE);
    tezgumi_decision_free(&decision);
    within_a_tolerance();
    return failures != 0;
}
