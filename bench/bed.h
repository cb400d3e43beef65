// A yard with all contenders on it.
#pragma once
#include "form.h"
#include "form_walk.h"
#include "product.h"
#include "rtree.h"
#include "scan.h"

struct Bed {
    Bed(Grid g, const Register &reg) : product(g, reg), rtree(reg), scan(reg), form(g, reg), walk(form) {}
    Bed(const Bed &) = delete;

    Product product;
    Rtree rtree;
    Scan scan;
    Form form;
    FormWalk walk;
};
