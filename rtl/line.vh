    // The fields of a line of a trace. Accesses: 0 none, 1 a fetch, 2 a read, 3 a write. Kinds:
    // 0 boot, 1 cpu, 2 idle, 3 irq, 4 rom.
    input wire clk, por, cpu_byte, dma_byte, irq, ext_reset,
    input wire [1:0] cpu_op, dma_op,
    input wire [2:0] kind,
    input wire [15:0] pc, cpu_addr, dma_addr, word, value, er_min, er_max, or_min, or_max
