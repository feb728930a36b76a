/* Circuits from standard input, run by libquantum: a line "WIDTH INPUT GATES", then a line a gate (name, first wire, second wire); the answer is
 * a line for each output, its real and imaginary part. */
#include <complex.h>
#include <math.h>
#include <stdio.h>
#include <string.h>

#include <quantum.h>

static void apply(const char *name, int a, int b, quantum_reg *reg)
{
    const float quarter = (float)(M_PI / 2);

    if (!strcmp(name, "h"))
        quantum_hadamard(a, reg);
    else if (!strcmp(name, "s"))
        quantum_phase_kick(a, quarter, reg);
    else if (!strcmp(name, "sdg"))
        quantum_phase_kick(a, -quarter, reg);
    else if (!strcmp(name, "z"))
        quantum_sigma_z(a, reg);
    else if (!strcmp(name, "x"))
        quantum_sigma_x(a, reg);
    else if (!strcmp(name, "y"))
        quantum_sigma_y(a, reg);
    else if (!strcmp(name, "rx(1)"))
        quantum_r_x(a, quarter, reg);
    else if (!strcmp(name, "rz(1)"))
        quantum_r_z(a, quarter, reg);
    else if (!strcmp(name, "ry(1)"))
        quantum_r_y(a, quarter, reg);
    else if (!strcmp(name, "cz"))
        quantum_cond_phase_kick(a, b, (float)M_PI, reg);
    else if (!strcmp(name, "cx"))
        quantum_cnot(a, b, reg);
    else { /* the only one left is swap, which libquantum has not: three times CNOT */
        quantum_cnot(a, b, reg);
        quantum_cnot(b, a, reg);
        quantum_cnot(a, b, reg);
    }
}

int main(void)
{
    int width, gates, a, b;
    unsigned long long input;
    char name[16];

    while (scanf("%d %llu %d", &width, &input, &gates) == 3) {
        quantum_reg reg = quantum_new_qureg(input, width);

        while (gates-- > 0 && scanf("%15s %d %d", name, &a, &b) == 3)
            apply(name, a, b, &reg);
        for (unsigned long long output = 0; output < 1ULL << width; output++) {
            float complex value = 0;

            for (int i = 0; i < reg.size; i++)
                if (reg.state[i] == output)
                    value += reg.amplitude[i];
            printf("%.6f %.6f\n", crealf(value), cimagf(value));
        }
        quantum_delete_qureg(&reg);
    }
    return 0;
}
