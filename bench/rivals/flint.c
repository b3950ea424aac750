/* FLINT's fq_nmod in the loops of the kernels. */
#include "common.h"
#include <flint/flint.h>
#include <flint/fq_nmod.h>

/* `last` is the result from which the next run goes on. */
static fq_nmod_ctx_t field;
static fq_nmod_t first, second, last, x, y, z, row[4], factors[4];
static uint8_t body[LONGEST_BODY];
static int body_length;

static void set(fq_nmod_t out, const unsigned numbers[COUNT])
{
    nmod_poly_fit_length(out, COUNT);
    for (int k = 0; k < COUNT; k++)
        out->coeffs[k] = numbers[k];
    out->length = COUNT;
    _nmod_poly_normalise(out);
}

static void products(uint32_t turns)
{
    fq_nmod_set(y, last, field);
    fq_nmod_set(x, second, field);
    for (uint32_t k = 0; k < turns; k++) {
        fq_nmod_mul(z, x, y, field);
        fq_nmod_swap(y, x, field);
        fq_nmod_swap(x, z, field);
    }
    fq_nmod_set(last, x, field);
}

static void apart(fq_nmod_t out[4], const fq_nmod_t start, const fq_nmod_t step)
{
    fq_nmod_set(out[0], start, field);
    for (int k = 1; k < 4; k++)
        fq_nmod_add(out[k], out[k - 1], step, field);
}

static void products_side_by_side(uint32_t turns)
{
    apart(row, last, second);
    apart(factors, second, last);
    for (uint32_t k = 0; k < turns; k++)
        for (int j = 0; j < 4; j++)
            fq_nmod_mul(row[j], row[j], factors[j], field);
    fq_nmod_zero(last, field);
    for (int j = 0; j < 4; j++)
        fq_nmod_add(last, last, row[j], field);
}

static void squares(uint32_t turns)
{
    for (uint32_t k = 0; k < turns; k++) {
        fq_nmod_sqr(z, last, field);
        fq_nmod_swap(last, z, field);
    }
}

static void inverses(uint32_t turns)
{
    for (uint32_t k = 0; k < turns; k++) {
        fq_nmod_inv(z, last, field);
        fq_nmod_add(last, z, second, field);
    }
}

/* Adds the value of a block and multiplies by the key. */
static void absorb(const uint8_t *bytes, int length)
{
    unsigned numbers[COUNT];
    cut_block(bytes, length, numbers);
    set(z, numbers);
    fq_nmod_add(z, z, x, field);
    fq_nmod_mul(x, z, first, field);
}

static void tags(uint32_t turns)
{
    for (uint32_t turn = 0; turn < turns; turn++) {
        fq_nmod_zero(x, field);
        for (int at = 0; at < body_length; at += 11)
            absorb(body + at, body_length - at < 11 ? body_length - at : 11);
        const uint8_t length[2] = {(uint8_t)(body_length / 256), (uint8_t)(body_length % 256)};
        absorb(length, 2);
        fq_nmod_add(last, last, x, field);
        body[1] = (uint8_t)nmod_poly_get_coeff_ui(last, 0);
    }
}

static void measure(const char *name, int modulus, int operations, const fq_nmod_t start, work run)
{
    unsigned result[COUNT];
    fq_nmod_set(last, start, field);
    run(COMPARED);
    for (int k = 0; k < COUNT; k++)
        result[k] = (unsigned)nmod_poly_get_coeff_ui(last, k);
    print_row(name, modulus, "flint", best(run, operations), result);
}

static void begin(int modulus)
{
    nmod_poly_t divisor;
    nmod_poly_init(divisor, (ulong)modulus);
    nmod_poly_set_coeff_ui(divisor, COUNT, 1);
    nmod_poly_set_coeff_ui(divisor, 0, (ulong)modulus - 2);
    fq_nmod_ctx_init_modulus(field, divisor, "X");
    fq_nmod_struct *all[] = {first, second, last, x, y, z};
    for (int k = 0; k < 6; k++)
        fq_nmod_init(all[k], field);
    for (int k = 0; k < 4; k++) {
        fq_nmod_init(row[k], field);
        fq_nmod_init(factors[k], field);
    }
    unsigned a[COUNT], b[COUNT];
    for (int k = 0; k < COUNT; k++) {
        a[k] = first_input(modulus, k);
        b[k] = second_input(modulus, k);
    }
    set(first, a);
    set(second, b);
}

static void measure_tag(int length)
{
    char name[16];
    snprintf(name, sizeof name, "tag-%d", length);
    body_length = length;
    for (int k = 0; k < length; k++)
        body[k] = body_byte(k);
    measure(name, 4093, 1, second, tags);
}

int main(void)
{
    printf("version\tFLINT\t%s\n", FLINT_VERSION);
    for (int m = 1; m >= 0; m--) {
        begin(MODULI[m]);
        measure("product", MODULI[m], 1, first, products);
        measure("product-side-by-side", MODULI[m], 4, first, products_side_by_side);
        measure("square", MODULI[m], 1, first, squares);
        measure("inverse", MODULI[m], 1, first, inverses);
    }
    /* The field is now the one at 4093. */
    measure_tag(2);
    measure_tag(64);
    measure_tag(440);
    return 0;
}
