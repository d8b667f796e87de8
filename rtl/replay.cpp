// Answers lines of wires, one a step, by a module that verilator has compiled: rule, EXEC and AUX.
#include <cstdio>
#include MODULE_HEADER

int main() {
    MODULE module;
    unsigned v[17];
    for (;;) {
        for (auto &number : v)
            if (scanf("%x", &number) != 1) return 0;
        module.por = v[0], module.kind = v[1], module.pc = v[2];
        module.cpu_op = v[3], module.cpu_byte = v[4], module.cpu_addr = v[5];
        module.dma_op = v[6], module.dma_byte = v[7], module.dma_addr = v[8];
        module.irq = v[9], module.ext_reset = v[10], module.word = v[11], module.value = v[12];
        module.er_min = v[13], module.er_max = v[14], module.or_min = v[15], module.or_max = v[16];
        module.clk = 0;
        module.eval();
        printf("%d %d %d\n", module.rule, module.exec, module.aux);
        module.clk = 1;
        module.eval();
    }
}
