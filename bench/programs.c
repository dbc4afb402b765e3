#include "programs.h"

// Each C planner is one object with these names, made by bench/run.
plan_call plan_by_plain, plan_by_hoisted_o2, plan_by_hoisted_o3;
text_call text_by_plain, text_by_hoisted_o2, text_by_hoisted_o3;
afresh_call afresh_by_plain, afresh_by_hoisted_o2, afresh_by_hoisted_o3;

const struct program programs[PROGRAMS] = {
    {"begbija", begbija_plan, begbija_plan_text, begbija_plan_afresh},
    {"plain", plan_by_plain, text_by_plain, afresh_by_plain},
    {"hoisted_o2", plan_by_hoisted_o2, text_by_hoisted_o2, afresh_by_hoisted_o2},
    {"hoisted_o3", plan_by_hoisted_o3, text_by_hoisted_o3, afresh_by_hoisted_o3},
};
