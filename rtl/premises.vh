    // "even": a word access has an even address; a fetch is of a word.
`ifdef EVEN
    always @* assume (!cpu_addr[0] || cpu_op == 0 || cpu_op != 1 && cpu_byte);
    always @* assume (!dma_addr[0] || dma_op == 0 || dma_op != 1 && dma_byte);
`endif

    // "boot": the first line and the one behind each refused step boot, outside CR, and no others.
    reg seen, reset_q;  // there is a line before, and it was refused
    initial seen = 0;
    always @(posedge clk) begin
        seen <= ~por;
        reset_q <= reset;
    end
`ifdef BOOT
    always @* assume ((kind == 0) == (!seen || reset_q));
    always @* assume (kind != 0 || pc < 16'hA000 || pc > 16'hBFFF);
`endif

    // "bounds": they are as in the line before, unless that had a write to META.
    reg meta_q;
    reg [63:0] bounds_q;
    wire [63:0] bounds = {er_min, er_max, or_min, or_max};
    always @(posedge clk) begin
        bounds_q <= bounds;
        meta_q <= cpu_op == 3 && cpu_addr >= 16'h0240 && cpu_addr <= 16'h028F
            || dma_op == 3 && dma_addr >= 16'h0240 && dma_addr <= 16'h028F;
    end
`ifdef BOUNDS
    always @* assume (!seen || meta_q || bounds == bounds_q);
`endif

    // Whether bounds are valid: whether the opcode fetch at ERmin starts a run.
    wire valid, valid_q;
    reference at_entry (.kind(3'd1), .cpu_op(2'd1), .pc(er_min), .cpu_addr(er_min),
        .er_min(er_min), .er_max(er_max), .or_min(or_min), .or_max(or_max), .starts(valid));
    reference at_entry_q (.kind(3'd1), .cpu_op(2'd1), .pc(bounds_q[63:48]),
        .cpu_addr(bounds_q[63:48]), .er_min(bounds_q[63:48]), .er_max(bounds_q[47:32]),
        .or_min(bounds_q[31:16]), .or_max(bounds_q[15:0]), .starts(valid_q));
