#include "subject.h"

#include "report.h"

struct row image_row(const struct subject *subject) {
    return (struct row){subject->check.refusal, subject->check.place};
}

struct row first_row(struct row first, struct row second) {
    return first.number != 0 ? first : second;
}

struct row row_if(bool applies, uint32_t number, uint32_t place) {
    return applies ? (struct row){number, place} : (struct row){0, 0};
}

bool is_node(const struct subject *subject, uint32_t number) {
    return 1 <= number && number <= subject->network.n;
}

void expect_value(const char *what, uint32_t is, uint32_t due) {
    if (is != due)
        report_wrong("%s is %u, must be %u", what, is, due);
}

bool expect_reply(struct vihrolom_reply is, struct row due, unsigned values) {
    expect_value("the refusal", is.refusal, due.number);
    expect_value("the place", is.place, due.place);
    const uint32_t given[] = {is.v0, is.v1, is.v2, is.v3, is.v4, is.v5};
    for (unsigned i = due.number == 0 ? values : 0; i < 6; i++)
        expect_value("a value that is not used", given[i], 0);
    report_reply(due.number);
    return due.number == 0;
}

void expect_path(const struct subject *subject, uint32_t column, uint32_t start, uint32_t goal, const uint16_t *nodes, uint32_t length) {
    if (length > subject->network.n)
        report_wrong("a path of %u nodes", length);
    long fault = list_fault(&subject->network, column, start, goal, nodes, length);
    if (fault >= 0)
        report_wrong("place %ld of the path is wrong", fault);
}
