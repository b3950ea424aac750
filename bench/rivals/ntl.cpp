// NTL's zz_pE in the loops of the kernels.
#include "common.h"
#include <NTL/lzz_pE.h>
#include <NTL/version.h>

using namespace NTL;

// `last` is the result from which the next run goes on.
static zz_pE first, second, last, x, y, z, row[4], factors[4];
static uint8_t body[LONGEST_BODY];
static int body_length;

static void set(zz_pE &out, const unsigned numbers[COUNT])
{
    static zz_pX polynomial;
    polynomial.rep.SetLength(COUNT);
    for (int k = 0; k < COUNT; k++)
        polynomial.rep[k].LoopHole() = numbers[k];
    polynomial.normalize();
    conv(out, polynomial);
}

static unsigned coefficient(const zz_pE &value, int power)
{
    return (unsigned)rep(coeff(rep(value), power));
}

static void products(uint32_t turns)
{
    y = last;
    x = second;
    for (uint32_t k = 0; k < turns; k++) {
        mul(z, x, y);
        swap(y, x);
        swap(x, z);
    }
    last = x;
}

static void apart(zz_pE out[4], const zz_pE &start, const zz_pE &step)
{
    out[0] = start;
    for (int k = 1; k < 4; k++)
        add(out[k], out[k - 1], step);
}

static void products_side_by_side(uint32_t turns)
{
    apart(row, last, second);
    apart(factors, second, last);
    for (uint32_t k = 0; k < turns; k++)
        for (int j = 0; j < 4; j++)
            mul(row[j], row[j], factors[j]);
    clear(last);
    for (int j = 0; j < 4; j++)
        add(last, last, row[j]);
}

static void squares(uint32_t turns)
{
    for (uint32_t k = 0; k < turns; k++) {
        sqr(z, last);
        swap(last, z);
    }
}

static void inverses(uint32_t turns)
{
    for (uint32_t k = 0; k < turns; k++) {
        inv(z, last);
        add(last, z, second);
    }
}

// Adds the value of a block and multiplies by the key.
static void absorb(const uint8_t *bytes, int length)
{
    unsigned numbers[COUNT];
    cut_block(bytes, length, numbers);
    set(z, numbers);
    add(z, z, x);
    mul(x, z, first);
}

static void tags(uint32_t turns)
{
    for (uint32_t turn = 0; turn < turns; turn++) {
        clear(x);
        for (int at = 0; at < body_length; at += 11)
            absorb(body + at, body_length - at < 11 ? body_length - at : 11);
        const uint8_t length[2] = {(uint8_t)(body_length / 256), (uint8_t)(body_length % 256)};
        absorb(length, 2);
        add(last, last, x);
        body[1] = (uint8_t)coefficient(last, 0);
    }
}

static void measure(const char *name, int modulus, int operations, const zz_pE &start, work run)
{
    unsigned result[COUNT];
    last = start;
    run(COMPARED);
    for (int k = 0; k < COUNT; k++)
        result[k] = coefficient(last, k);
    print_row(name, modulus, "ntl", best(run, operations), result);
}

static void begin(int modulus)
{
    zz_p::init(modulus);
    zz_pX divisor;
    SetCoeff(divisor, COUNT, 1);
    SetCoeff(divisor, 0, modulus - 2);
    zz_pE::init(divisor);
    unsigned a[COUNT], b[COUNT];
    for (int k = 0; k < COUNT; k++) {
        a[k] = first_input(modulus, k);
        b[k] = second_input(modulus, k);
    }
    set(first, a);
    set(second, b);
}

static void measure_tag(int length)
{
    char name[16];
    snprintf(name, sizeof name, "tag-%d", length);
    body_length = length;
    for (int k = 0; k < length; k++)
        body[k] = body_byte(k);
    measure(name, 4093, 1, second, tags);
}

int main()
{
    printf("version\tNTL\t%s\n", NTL_VERSION);
    for (int m = 1; m >= 0; m--) {
        begin(MODULI[m]);
        measure("product", MODULI[m], 1, first, products);
        measure("product-side-by-side", MODULI[m], 4, first, products_side_by_side);
        measure("square", MODULI[m], 1, first, squares);
        measure("inverse", MODULI[m], 1, first, inverses);
    }
    // The field is now the one at 4093.
    measure_tag(2);
    measure_tag(64);
    measure_tag(440);
    return 0;
}
